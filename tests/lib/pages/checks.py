"""What is compared with the tree besides the generated parts: names, links, heads of specs, lemmas, imports, layout."""
import re
import subprocess
from collections import Counter
from functools import cache

from common import kit
from pages.tree import BLOCK, CRATES, ROOT, prose, sources, texts

KIT_CRATES = ("alloc", "bytes", "clap", "core", "std", "std_alloc", "std_collections", "std_io", "thiserror")
WORD = re.compile(r"[A-Za-z_][A-Za-z0-9_\-]*")  # A word of a source: IoBufs, split_to, must-fail
TOKEN = re.compile(r"`([^`\n]+)`")  # What a page has in backticks: `IoBufs::split_to`
PATH = re.compile(r"[\w.\-]+(?:/[\w.\-]+)*/[\w.\-]*")  # A path: crates/iobufs/src/lib.rt
# A name, with its modules and its arguments: Vec<u8>::push(n)
NAME = re.compile(r"(?:[A-Za-z_]\w*(?:<[^>]*>)?::)*[A-Za-z_]\w*(?:\([^)]*\))?")
# What a name has and another word hasn't: split_to, IoBufs::len, run(..), Iter, isEmpty, HANDLES
FORM = re.compile(r"_|::|\(|^[A-Z][a-z]|[a-z][A-Z]|^[A-Z]{2,}")
# What a run makes, a reader makes or fills in, and no path of the tree: crates/iobuf/out/iobuf, tests/FILE
MADE = re.compile(r"(^|/)out(/|$)|\b[A-Z]{3,}\b|my_codec|^must-fail/$")


@cache
def words():
    """Each word that a name may be made of."""
    found = set((ROOT / "tests/tables/known_names").read_text().split())
    of_kit = (file.read_text() for name in KIT_CRATES for file in sources(kit() / "rattle" / name))
    for text in [*texts().values(), *of_kit]:
        found.update(WORD.findall(text))
    others = [*(ROOT / "tests").rglob("*"), *(ROOT / "c").rglob("*"), *(ROOT / "bench").iterdir()]
    others += [file for file in (ROOT / "rust").rglob("*.rs") if "target" not in file.parts]
    for file in [*others, *CRATES.glob("*/stdout"), ROOT / "crates.txt", ROOT / "HANDLES"]:
        is_ours = file.name == "docs.py" or "pages" in file.relative_to(ROOT).parts
        if file.is_file() and file.suffix != ".md" and not is_ours:
            found.add(file.stem)
            found.update(WORD.findall(file.read_text(errors="ignore")))
    return found


@cache
def paths():
    """What a page may call each file and folder of the tree: each end of its path. A file also goes without its ending,
    and a folder with a slash: checks.py, pages/checks and pages/."""
    git = ["git", "ls-files", "-co", "--exclude-standard"]
    found = set()
    for line in subprocess.run(git, cwd=ROOT, capture_output=True, text=True, check=True).stdout.splitlines():
        *folders, file = line.split("/")
        for file_or_stem in (file, file.rsplit(".", 1)[0]):
            found.update("/".join([*folders[begin:], file_or_stem]) for begin in range(len(folders) + 1))
        for end in range(1, len(folders) + 1):
            for begin in range(end):
                folder = "/".join(folders[begin:end])
                found.update((folder, folder + "/"))
    return found


def faults_of_names(text):
    """Names in backticks that the tree has not, and no block of code of the page either."""
    shown = {word for block in BLOCK.findall(text) for word in WORD.findall(block)}
    for token in TOKEN.findall(prose(text)):
        if PATH.fullmatch(token):
            if not MADE.search(token) and token not in paths() and token not in words():
                yield f"no path `{token}`"
        elif NAME.fullmatch(token) and FORM.search(token):
            for word in WORD.findall(token.partition("(")[0]):
                if word not in words() and word not in paths() and word not in shown:
                    yield f"no name `{token}`"


# The definition of a link, its use, a link by itself, and a heading, to which one may lead:
# [bytes]: https://docs.rs/bytes    [the crate][bytes]    [values](docs/MODEL.md#values)    ## Values
LINK_DEFINED = re.compile(r"^\[([^\]]+)\]: (\S+)$", re.M)
LINK_USED = re.compile(r"\]\[([^\]]+)\]")
LINK = re.compile(r"\]\(([^)\s]+)\)")
HEADING = re.compile(r"^#+ (.*)$", re.M)
LEFT_OUT = re.compile(r"[^\w\- ]")  # What the address of a heading leaves out: the `, of `Promises`


def anchors(page):
    """The addresses of a page's headings: of `## The values` it is the-values."""
    return {LEFT_OUT.sub("", it.strip().lower()).replace(" ", "-") for it in HEADING.findall(page.read_text())}


def faults_of_links(page, text):
    """Links to no file of the repository, or to no heading of one."""
    text = BLOCK.sub("", text)
    defined = dict(LINK_DEFINED.findall(text))
    yield from (f"no link is called [{name}]" for name in LINK_USED.findall(text) if name not in defined)
    for target in [*LINK.findall(text), *defined.values()]:
        file, _, heading = target.partition("#")
        linked = (page.parent / file) if file else page
        if "://" in target:
            continue
        if not linked.exists():
            yield f"no file for the link {target}"
        elif heading and heading not in anchors(linked):
            yield f"no heading for the link {target}"


# The comment at the head of a file of specs/, and the names of a row in it, from which two blanks part its phrases:
# --     first, rest   the first row, and the others
HEAD = re.compile(r"(?:--.*\n)*")
LISTED = re.compile(r"^--     (\S.*?)(?:  |$)", re.M)
# A definition: abbrev pub first : ℕ
DEFINED = re.compile(r"^(?:abbrev pub|unfoldable pub|pub record|pub data) ([^\s:(]+)", re.M)


@cache
def naming():
    """In how many files of the crates each word occurs, lines of comment aside."""
    found = Counter()
    for text in texts().values():
        lines = (it for it in text.splitlines() if not it.lstrip().startswith(("--", "//")))
        found.update(set(WORD.findall("\n".join(lines))))
    return found


def faults_of_head(text, files):
    """Definitions of a file of specs/ that another file names and that the list at its head lacks; `files` says in how
    many files a word occurs."""
    head = HEAD.match(text)[0]
    listed = {word for names in LISTED.findall(head) for word in WORD.findall(names)}
    yield from (f"no `{name}`" for name in DEFINED.findall(text) if files[name] > 1 and name not in listed)
    known = set(WORD.findall(text[len(head) :]))
    yield from (f"`{name}`, which isn't in the file," for name in sorted(listed - known) if FORM.search(name))


def faults_of_heads():
    """What `faults_of_head` finds in all files of specs/."""
    for path, text in texts().items():
        if "/specs/" in path:
            yield from (f"{fault} at the head of crates/{path}" for fault in faults_of_head(text, naming()))


LEMMA = re.compile(r"^(?:pub )?([^\s:()]+) :")  # A lemma: pub rest_of_all : (b : Bytes) → ..
# An import of lemmas: use Rattle.iobufs.proofs.Text.{rest_of_all, ends as ends_of}
CITES = re.compile(r"\buse Rattle\.(\w+)\.proofs\.([\w.+\-]+)\.\{([^}]*)\}")


def cited(files):
    """The lemmas that another file imports: the path of their file, and the name."""
    for path, text in files.items():
        for crate, module, names in CITES.findall(text):
            target = f"{crate}/proofs/{module.replace('.', '/')}.antt"
            if target != path:
                yield from ((target, name.split(" as ")[0].strip()) for name in names.split(","))


def faults_of_lemmas(files):
    """Lemmas that another file cites and no comment says in words, and files with lemmas that begin without one."""
    needed = set(cited(files))
    for path, text in files.items():
        lines = text.split("\n") if "/proofs/" in path else []
        lemmas = [(found[1], above) for above, line in zip(["", *lines], lines) if (found := LEMMA.match(line))]
        if lemmas and not path.endswith(("Answers.antt", "Invariants.antt")) and not text.startswith("-- "):
            yield f"no comment at the head of crates/{path}"
        for name, above in lemmas:
            # A line -- ---- parts a file, and says nothing of a lemma.
            if (path, name) in needed and (not above.startswith("-- ") or above.startswith("-- ----")):
                yield f"no comment above `{name}` of crates/{path}"


USE = re.compile(r"^\s*(pub(?:\([a-z]+\))? )?use ([^;]*);", re.M)  # pub(crate) use crate::row::{Piece, Row};
BRACES = re.compile(r"([^,{}]*)\{([^{}]*)\}")  # The innermost braces, and what is before them: row::{Piece, Row}


def unfolded(tree):
    """The paths of a `use`, without its braces."""
    while found := BRACES.search(tree):
        inner = (found[1].strip() + it.strip() for it in found[2].split(",") if it.strip())
        tree = tree.replace(found[0], ",".join(inner))
    return [path.strip().split(" as ")[0] for path in tree.split(",")]


def from_root(path, module, modules):
    """An import's path from the crate's root on: in bufs::search that of super::row::Row is bufs::row::Row. None if it
    leads to another crate."""
    first, *rest = path.split("::")
    own = module.split("::") if module else []
    starts = {"crate": [], "super": own[:-1], "self": own}
    if "::".join([*own, first]) in modules:
        starts[first] = [*own, first]  # A module of its own: row::Row
    return "::".join([*starts[first], *rest]) if first in starts else None


def paths_used(file, module, modules, passed_on=False):
    """The paths of a module's imports in its crate: of those that it passes on by `pub use`, or of the others."""
    trees = (tree for public, tree in USE.findall(file.read_text()) if bool(public) == passed_on)
    found = (from_root(path, module, modules) for tree in trees for path in unfolded(tree))
    return [path for path in found if path]


def imports(folder):
    """For each module of a crate those that it imports, also by way of a module that passes an item on."""
    sources = folder / "src"
    files = {"::".join(it.relative_to(sources).with_suffix("").parts): it for it in sources.glob("**/*.rt")}
    modules = {name: file for name, file in files.items() if name not in ("lib", "main")}
    passed_on = {}
    for name, file in [*modules.items(), *(("", files[root]) for root in ("lib", "main") if root in files)]:
        for path in paths_used(file, name, modules, passed_on=True):
            passed_on["::".join([*filter(None, [name]), path.split("::")[-1]])] = path

    def module_of(path):
        """The module in which an item is, also by way of those that pass it on."""
        seen = set()
        while path in passed_on and path not in seen:
            seen.add(path)
            path = passed_on[path]
        parts = path.split("::")
        return next((it for n in range(len(parts), 0, -1) if (it := "::".join(parts[:n])) in modules), "")

    found = {name: {module_of(path) for path in paths_used(file, name, modules)} for name, file in modules.items()}
    return {name: deps - {"", name} for name, deps in found.items()}


def faults_of_imports(found):
    """Modules that import each other, by any way round."""
    left = dict(found)
    while free := [name for name, deps in left.items() if not deps & left.keys()]:
        left = {name: deps for name, deps in left.items() if name not in free}
    if left:
        yield f"modules import each other: {', '.join(sorted(left))}"


# The replies, refusals, steps and kinds of the buffers and of the owner machine, and the runs of frames and commands.
SHARED = {"Kind", "Refusal", "Reply", "Run", "Step"}
# A definition of specs/: pub record Table, or abbrev pub first : ℕ
DECLARED = re.compile(r"^(?:abbrev|unfoldable) (?:pub )?([^\s:]+) :|^(?:pub )?(?:record|data) (\w+)", re.M)
PUBLIC = re.compile(r"^pub (?:struct|enum|trait) (\w+)", re.M)  # A public type: pub struct IoBufs


def meanings():
    """Each definition of specs/ and each public type with the files that declare it. A type and the definition that is
    its value may share a name in a crate."""
    found = {}
    for path, text in texts().items():
        form = PUBLIC if path.endswith(".rt") else DECLARED if "/specs/" in path else None
        for name in {"".join(it) for it in form.findall(text)} if form else ():
            found.setdefault(name, []).append(path)
    return found


def faults_of_meanings(found):
    """Names with more than one meaning."""
    for name, paths in sorted(found.items()):
        is_value = len({it.split("/")[0] for it in paths}) == 1 and sum(it.endswith(".antt") for it in paths) < 2
        if len(paths) > 1 and not is_value and name not in SHARED:
            yield f"`{name}` has more than one meaning: {', '.join(paths)}"


def faults_of_layout(files):
    """Sources that rt fmt would change: rt ci refuses their crate."""
    words = [kit() / "bin/rattle", "fmt", "--check", *files]
    said = subprocess.run(words, capture_output=True, text=True, check=False)
    found = [line for line in said.stdout.splitlines() if line.endswith(" is not in the layout")]
    return found or [said.stderr] * (said.returncode != 0)
