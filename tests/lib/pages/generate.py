"""The generated parts of the pages: `PARTS[NAME]` makes what is between `<!-- generated: NAME -->` and its end."""
import re
import sys
from functools import cache

from pages.tree import CRATES, MARKED, OWNER, ROOT, STOP, by_layer, declarations, direct, layer, purpose, uses
from pages.trusted import contracts

sys.path.insert(0, str(ROOT / "bench"))
import results  # noqa: E402

# ---- docs/API.md

SUBJECTS = (ROOT / "tests/lib/pages/subjects").read_text().splitlines()
API = dict(line.split(": ") for line in SUBJECTS if not line.startswith("#"))
FOR_LAYERS = API.pop("for layers").split()
COLUMNS = re.compile(r" {2,}")  # Between two columns: len  text_len self\.old
# The rows of conditions: what a caller knows a part of a condition by, and when a call cannot fail.
SHORT, SURE = (
    [COLUMNS.split(line) for line in block.splitlines() if not line.startswith("#")]
    for block in (ROOT / "tests/lib/pages/conditions").read_text().split("\n\n")[1:]
)
WORDED = {words for words, *_ in SHORT if words.count(" ") > 1}
# A clause on what a call returns: ensures rest { n ≤ length self.old → IsOk result }
ENSURES = re.compile(r"ensures (\w+) \{(.*?) \}(?=\s*(?:ensures|\{|;|$))", re.S)
# A clause that rules errors out: at ≡ 0 → IsOk result; n ≡ 0 → (new ≡ old) × IsOk result; IfSome result (λ it. IsOk it)
NO_ERROR = re.compile(r"(?:(.*) → )?(?:\([^→]*\) × )?(?:IsOk result|IfSome result \(λ (\w+)\. IsOk \2\))")
EXACTLY = re.compile(r"IsOk result ↔ (.*)")  # One that says when exactly: IsOk result ↔ (n ≤ room)
REQUIRES = re.compile(r"requires(?: \w+)? \{(.*?)\}\n", re.S)  # requires { at ≤ length self.old }
RESULT = re.compile(r"->\s*(.*?)(?=\n\s*(?:requires|ensures|where)|\{|;)", re.S)  # -> Option<u8>
ARGUMENTS = re.compile(r"\w+(?:<.*?>)?\((.*?)\)\s*(?:->|\n|\{|;)", re.S)  # get<T>(&self, at: usize) ->
TOLD = re.compile(r"(?:End\.Bad|≢) Error\.\w+")  # An error that a clause tells of, and no call returns: ≢ Error.Memory
KIND = re.compile(r"\b(TooLong|BadLayout|InvalidVarint|InvalidLength|EndOfBuffer|Memory|ExtraData)\b")  # TooLong
ERROR = re.compile(r"\b(FrameError|TryGetError|AllocError|Fault|Refusal|Error)>")  # Result<IoBuf, FrameError>
AS = re.compile(r"\b[Ff]ails as `(?:(\w+)::)?(\w+)`")  # Fails as `Received::next` does
# What no cell may have: ≡, →, IsTrue x, length (it), self.old
NOTATION = re.compile(r"[≡≢≤≥↔→λ×⊎∷ℕ]|\b(?:Is|Has|Are|Can|If|On)[A-Z]\w+ \w|\blength \(|\.(?:old|now|new)\b")
# The original's name in a comment: (the crate's `Buf::get_u8()`, of one byte), or (own)
ORIGINAL = re.compile(r" ?\((own|(?:the \w+(?:'s)? )?`[^`]+`)[^()]*(?:\([^()]*\)[^()]*)*\)")
# A public type with its comment: /// A view.\n#[derive(Clone)]\npub struct IoBuf
TYPE = re.compile(r"((?:^///[^\n]*\n)+)(?:^#\[[^\n]*\n)*^pub (?:struct|enum|trait) (\w+)", re.M)


def short(condition):
    """A condition in code font, or in words if a row of SHORT has it whole."""
    for words, pattern, _ in SHORT:
        condition = re.sub(pattern, words, condition)
    return condition if condition in WORDED else f"`{condition}`"


def faults_of_conditions(rows):
    """Rows of conditions whose example doesn't fit."""
    return [f"`{example}` doesn't fit {pattern}" for _, pattern, example in rows if not re.search(pattern, example)]


def faults_of_cells(lines):
    """Rows of tables with the notation of a contract."""
    return [f"{NOTATION.search(line)[0]} in {line}" for line in lines if line[:1] == "|" and NOTATION.search(line)]


def sure(declared):
    """When a call cannot fail, a phrase for each clause that says so; a condition that no row of SURE has, as it is."""
    found = []
    for _, body in ENSURES.findall(declared):
        body = " ".join(body.split())
        clause = NO_ERROR.fullmatch(body) or EXACTLY.fullmatch(body)
        if clause:
            condition = clause[1] or ""
            words = next((words for words, pattern, _ in SURE if re.fullmatch(pattern, condition)), f"`{condition}`")
            found.append(words if condition else "ever")
    return ", ".join(dict.fromkeys(found))


@cache
def declared_as():
    """Each public call of the page by its name alone and after that of its type: its comment and its declaration."""
    found = {}
    for file in " ".join(API.values()).split():
        for comment, owner, name, declared in declarations((CRATES / file).read_text()):
            found.setdefault(("", name), (comment, declared))
            found[(owner, name)] = (comment, declared)
    return found


def said_errors(declared, comment, owner):
    """The error variants that a comment and a declaration name, and those of the call as which it fails."""
    found = KIND.findall(comment + TOLD.sub("", declared))
    for other, name in AS.findall(comment):
        calls = declared_as()
        comment_as, declared_other = calls.get((other or owner, name)) or calls[("", name)]
        found += said_errors(declared_other, comment_as, other or owner)
    return dict.fromkeys(found)


def errors(declared, comment, owner):
    """The errors that a declaration names, or the type of its error."""
    found = RESULT.search(declared)
    result = found[1] if found else ""
    if result.startswith("Option<"):
        return ", ".join(["`None`", *dict.fromkeys(KIND.findall(comment + declared) if "Result<" in result else ())])
    if "Result<" not in result:
        return ""
    kind = ERROR.search(result)
    said = ", ".join(said_errors(declared, comment, owner))
    if kind and (kind[1] != "Error" or not said):
        said = f"`{kind[1]}`"
    elif not said:
        of_std = "`io::Error`" if "io::Result" in result else ""
        said = of_std or ("the block" if result.endswith(", Vec<u8>>") else "the buffer")
    return said + (", handed back" if "Refused<" in result else "")


def original(comment):
    """What a comment says of the original's name: the first bracket that begins with it, or `own`."""
    found = ORIGINAL.search(comment)
    return found[1] if found else ""


def does(comment):
    """The first sentence of a comment, without its bracket."""
    return ORIGINAL.sub("", STOP.split(comment)[0]).rstrip(".")


def arguments(declared):
    """The names of a call's arguments, without `self`."""
    listed = ARGUMENTS.match(declared)
    typed = (it.partition(":") for it in listed[1].split(",") if "self" not in it) if listed else ()
    return [name.replace("mut ", "").strip() for name, colon, _ in typed if colon]


def row(comment, owner, name, declared):
    """The row of a call: its name with its type or trait, if that is needed, and its arguments; what it returns, does,
    requires, its errors, when it cannot fail, the original."""
    conditions = ", ".join(short(" ".join(it.split())) for it in REQUIRES.findall(declared))
    about = errors(declared, comment, owner), sure(declared), original(comment) or "own"
    returns = [f"`{' '.join(it.split())}`" for it in RESULT.findall(declared)]
    call = f"{name}({', '.join(arguments(declared))})"
    return call, "".join(returns[:1]), does(comment), conditions, *about


def calls(files):
    """The rows of the calls in these files but those for layers, and those that have nothing to say in them. Each has
    its type's name, if the files have calls of several. Laws aren't among them."""
    found = [it for file in files.split() for it in declarations((CRATES / file).read_text())]
    found = [it for it in found if not it[2].endswith("_law") and not {it[2], f"{it[1]}::{it[2]}"} & {*FOR_LAYERS}]
    has_several = len({owner for _, owner, *_ in found}) > 1
    rows, plain = [], []
    for comment, owner, name, declared in found:
        named = f"{owner}::{name}" if owner and has_several else name
        made = row(comment, owner, named, declared)
        is_plain = not any(made[3:6]) and "alloc" not in arguments(declared)
        plain.append(named) if is_plain else rows.append(made)
    return dict.fromkeys(rows), dict.fromkeys(plain)


def types(files):
    """The public types of these files but those for layers."""
    found = [it for file in files.split() for it in TYPE.findall((CRATES / file).read_text())]
    return [f"`{name}`" for comment, name in found if "for layers" not in comment]


def traits(files):
    """The traits that the types of these files implement."""
    texts = [(CRATES / file).read_text() for file in files.split()]
    return dict.fromkeys(m[1].split("::")[-1] for text in texts for m in OWNER.finditer(text) if m[1])


def table(rows):
    """The lines of a table of calls."""
    yield "\n|call|returns|does|requires|errors|cannot fail|original|\n|---|---|---|---|---|---|---|"
    yield from (f"|`{row[0]}`|" + "|".join(row[1:]) + "|" for row in rows)


def api():
    """The tables of the public calls, by subject."""
    for title, files in API.items():
        rows, plain = calls(files)
        shown = [it for it in files.split() if any(calls(it)) or types(it)]
        named = types(files)
        linked = ", ".join(f"[{it.rsplit('/', 1)[1]}](../crates/{it})" for it in shown)
        yield f"\n## {title}\n\nIn {linked}." + (f" Types: {', '.join(named)}." if named else "")
        if rows:
            yield from table(rows)
        if plain:
            yield "\nNeither condition nor error: " + ", ".join(f"`{name}`" for name in plain) + "."
        if not rows and not plain:
            yield "\nIts calls are those of " + ", ".join(f"`{name}`" for name in traits(files)) + "."


# ---- crates


def edits(crate):
    """The mutants of a crate, a block each."""
    file = ROOT / "tests/faults/mutants" / f"{crate}.edits"
    return file.read_text().split("\n\n") if file.is_file() else []


CLAUSE = re.compile(r"^\s*(requires|ensures)\b", re.M)  #     ensures rest { .. }
FUNCTION = re.compile(r"\bfn \w+")  # fn len


def matrix():
    """A row for each crate: its size, its clauses, its mutants and its tests."""
    yield "|crate|layer|code lines|functions|`requires`|`ensures`|mutants|tests|\n|---|--:|--:|--:|--:|--:|--:|--:|"
    totals = [0] * 6
    for crate in by_layer():
        text = "\n".join(file.read_text() for file in (CRATES / crate / "src").rglob("*.rt"))
        code = [line for line in text.splitlines() if line.strip() and not line.strip().startswith("//")]
        clauses = [CLAUSE.findall(text).count(word) for word in ("requires", "ensures")]
        counts = [len(code), len(FUNCTION.findall(text)), *clauses, len(edits(crate)), text.count("#[test]")]
        totals = [a + b for a, b in zip(totals, counts)]
        yield f"|`{crate}`|{layer(crate)}|" + "|".join(map(str, counts)) + "|"
    yield "|all||" + "|".join(map(str, totals)) + "|"
    named = sum("\nnamed: yes" in edit for crate in uses() for edit in edits(crate))
    rows = [it.split() for it in (ROOT / "tests/tables/requests").read_text().splitlines() if not it.endswith(" cargo")]
    # A row of tests/tables/requests: how many were answered, ended the program, and changed nothing, and the session.
    refused = sum(int(number) for it in rows for number in it[:3])
    failed = f"`tests/gate/refuse.py` fails {refused} of the program's allocations, in {len(rows)} files of sessions."
    resting = sum("\nrests: " in edit for crate in uses() for edit in edits(crate))
    laws = sum(file.read_text().count("\npart: ") for file in (ROOT / "tests/faults/mutants").glob("*.laws"))
    yield f"\n{totals[4]} mutants, {named} of them named, {resting} with a definition that they rest on. {failed}"
    left = (ROOT / "tests/tables/unguarded").read_text().splitlines()[0].removeprefix("# ")
    yield f"Laws rest on {laws} parts of definitions. No mutant and no law rests on {left} that contracts name."


# What the prover alone reads of a source, up to the brace that ends it: ensures ok {    pub ghost value = {
CONTRACT = re.compile(r"^ *(?:(?:pub )?ghost|ensures|requires|#!?\[tactic)\b.*\n(?:^ {8,}.*\n)*", re.M)
# A proved file in whose place another is compiled: ("iobufs_core/buf/held.rt", "held")
REPLACED = re.compile(r'\("([\w/]+\.rt)", "\w+"\)')
RUST_CRATES = ("iobufs_core", "iobufs", "iobufs_frames", "iobufs_codec")


def code_lines(files):
    """How many lines sources have without contracts, comments, lines of documentation and empty ones."""
    lines = (line.strip() for file in files for line in CONTRACT.sub("", file.read_text()).splitlines())
    return sum(bool(line) and not line.startswith(("//", "#[doc = ")) for line in lines)


def by_hand():
    """How many lines of the Rust crate are proved, and how many are by hand."""
    rust = ROOT / "rust/iobufs"
    replaced = REPLACED.findall((rust / "strip/lib.rs").read_text())
    sources = [file for crate in RUST_CRATES for file in (CRATES / crate / "src").rglob("*.rt")]
    proved = code_lines(file for file in sources if str(file.relative_to(CRATES)).replace("/src/", "/") not in replaced)
    hand = [code_lines((rust / folder).rglob("*.rs")) for folder in ("src", "layer")]
    yield f"|lines of code|{proved + sum(hand)}|\n|---|--:|\n|proved, without contracts|{proved}|"
    yield f"|by hand: `src`, with its layer over `bytes`|{hand[0]}|\n|by hand: the layer of calls in `layer`|{hand[1]}|"


def stored(name):
    """The lines of a table of rust/iobufs/tests/same, each what is before its last arrow and after it."""
    return [line.rsplit(" -> ", 1) for line in (ROOT / "rust/iobufs/tests/same" / name).read_text().splitlines()]


def differences():
    """What the Rust crate answers otherwise than the original, and what doesn't compile, by reasons."""
    original, reasons = dict(stored("original")), {}
    for name, other in stored("differences"):
        here, reason = other.split(" | ")
        reasons.setdefault(reason, []).append((name, here))
    yield "|for example|original|Rust crate|reason|how many|\n|---|---|---|---|--:|"
    for reason, rows in reasons.items():
        (name, here), count = rows[0], len(rows)
        shown, then = name, original.get(name, "compiles")
        if name.startswith("use: "):
            shown = f"`{name.removeprefix('use: ').removeprefix('items: ')}`"
        yield f"|{shown}|{then}|{here}|{reason}|{count}|"


def public_calls(buffer):
    """The names of the methods that a type of the Rust crate has by itself, those of the macros of calls.rs too."""
    source = "".join(file.read_text() for file in sorted((ROOT / "rust/iobufs/src").glob("*.rs")))
    for block in re.findall(rf"^impl {buffer} \{{\n(.*?)^\}}", source, re.M | re.S):
        yield from re.findall(r"^    pub (?:const )?(?:unsafe )?fn (\w+)", block, re.M)
        for name in re.findall(r"^    (\w+)! \{", block, re.M):
            macro = re.search(rf"^macro_rules! {name} \{{\n(.*?)^\}}", source, re.M | re.S)[1]
            yield from re.findall(r"^ +pub fn (\w+)", macro, re.M)
            yield from re.findall(r"\b((?:try_)?(?:get|put)_u\d+)\b(?=, )", macro)


def inherent():
    """The methods of the Rust crate's buffers that the original's lack, which therefore come before a trait's."""
    for line in (ROOT / "rust/iobufs/tests/same/calls").read_text().splitlines():
        buffer, known = line.split(": ")
        own = dict.fromkeys(name for name in public_calls(buffer) if name not in known.split())
        yield f"- {buffer}: {', '.join(f'`{name}`' for name in own)}"


def speed():
    """The means of the Rust crate in bench/results.csv, its slowest workloads, and the calls that `bytes` has too."""
    rows = results.read()[1]
    sets = {said: results.means(some) for said, some in results.sets_of("rust", rows)}
    same, everyday = sets["with the same steps"], sets["everyday calls"]
    yield (
        f"The Rust crate's mean time is {same.time:.2f} of the original's in [{same.count} workloads](bench/RESULTS.md)"
        f" with the same steps, {everyday.time:.2f} in {everyday.count} everyday calls; the slowest are"
        f" {results.slowest('rust', rows)}."
    )
    calls_of_both = ", ".join(f"{name} {ratio:.2f}" for name, ratio in results.beside(rows))
    yield f"Instructions over those of `bytes` (queue8: of a `VecDeque<Bytes>`): {calls_of_both}. C has no figures."


def beside():
    """The calls that `bytes` has too, with the instructions of the Rust crate over those of `bytes`."""
    yield "|call|instructions, over those of `bytes`|\n|---|--:|"
    yield from (f"|{name}|{ratio:.2f}|" for name, ratio in results.beside(results.read()[1]))


GATE = (ROOT / "docs/GATE.md").read_text()
UNSEEN = re.compile(r"^## A bug that no test sees\n\n(.*?)(?=\n## )", re.M | re.S)  # A part of docs/GATE.md


def of_gate(what):
    """What a row of docs/GATE.md says."""
    return re.search(rf"^\|{re.escape(what)}\|(.*)\|$", GATE, re.M)[1]


def believe():
    """How much a reader has to believe of one contract, and what the last recorded gate proved."""
    number, lines = next((number, lines) for name, number, lines in contracts() if name == "`IoBufs::split_to`")
    yield (
        f"Besides std's, the contract of `IoBufs::split_to` rests on {number} definitions ({lines} lines), which"
        " `tests/trusted iobufs/src/bufs.rt split_to` lists."
    )
    functions, goals = of_gate("functions proved, without those of tests"), of_gate("goals left open")
    tried = of_gate("mutants tried, and refused by the prover")
    mutants, refused = tried.split(", ")
    yield (
        f"The [last recorded gate](docs/GATE.md) proved {functions} functions, left {goals} goals open, and refused"
        f" {refused} of {mutants} planted bugs."
    )


def unseen():
    """The bug that no test sees, as the last recorded gate met it."""
    yield re.sub(r"^(fn|note: src/).*\n", "", UNSEEN.search(GATE)[1].strip(), flags=re.M)
    yield "\nFrom the last recorded gate; the second needs the kit."


def faults_of_results():
    """What bench/RESULTS.md has otherwise than bench/results.csv, and workloads that this lacks or invents."""
    if results.PAGE.read_text() != "\n".join(results.page()) + "\n":
        yield "bench/compare --counts would change it"
    named = (CRATES / "iobufs_bench/args").read_text().split()[1:]
    measured = [row.name for row in results.read()[1] if row.table == "kit"]
    arms = re.findall(r'^ *"(\w+)" =>', (CRATES / "iobufs_bench/src/workloads.rt").read_text(), re.M)
    yield from (f"{name} isn't in both lists of workloads" for name in sorted({*named} ^ {*measured}))
    # An arm may be the end of a name: of text64_walk it is walk. Others are those of further tables.
    ends = lambda arm: any(f"_{name}".endswith(f"_{arm}") for name in named)
    others = (ROOT / "bench/compare").read_text()
    yield from (f"{arm} isn't run" for arm in arms if not ends(arm) and arm not in others)


def slowest():
    """The slowest workloads of the Rust crate by time."""
    yield f"The slowest, as multiples of the original's time: {results.slowest('rust', results.read()[1])}."


def crates():
    """The table of crates, the lowest first: what each is for, and which it uses."""
    yield "|crate|what|over|\n|---|---|---|"
    for crate in by_layer():
        yield f"|`{crate}`|{purpose(crate)}|" + ", ".join(f"`{dep}`" for dep in direct(crate)) + "|"


def graph():
    """The crates as a graph, without those that serve the tests and workloads alone."""
    shown = [crate for crate in by_layer() if not crate.startswith("tests_") and not crate.endswith("_bench")]
    yield "```mermaid\ngraph TD"
    yield from (f"    {crate} --> {dep}" for crate in reversed(shown) for dep in direct(crate))
    yield "```"


# ---- specifications and code


PROMISES = re.compile(r"^pub record Promises .*?where\n(.*?)(?=^\S|\Z)", re.M | re.S)  # pub record Promises .. where
# Fields and the comment above them:   -- The words are alike.\n  pub words : ..
FIELDS = re.compile(r"((?:^  -- .*\n)+)((?:^  (?!--).*\n|^      .*\n)+)", re.M)
FIELD = re.compile(r"^  pub (\w+)", re.M)  #   pub words : ..


def promises():
    """The fields of `Promises`, by the comment above them."""
    body = PROMISES.search((CRATES / "iobufs_owner/specs/Promises.antt").read_text())[1]
    yield "|fields|what holds after every step|\n|---|---|"
    for comment, fields in FIELDS.findall(body):
        said = " ".join(line.strip().removeprefix("-- ") for line in comment.splitlines())
        yield "|" + ", ".join(f"`{name}`" for name in FIELD.findall(fields)) + f"|{said}|"


LANGUAGES = {".rt": "rust", ".rs": "rust", ".c": "c"}
# The lines of a source that a page shows: // [docs: echo]\n..\n// [docs end]
SHOWN = re.compile(r"^ *(?://|--) \[docs: ([^\]\n]*)\]\n(.*?)^ *(?://|--) \[docs end\]", re.M | re.S)


def code(name):
    """The lines of a source or a proof between `// [docs: NAME]` and `// [docs end]` (there `-- ..`)."""
    globs = ["crates/*/src/**/*.rt", "crates/*/proofs/**/*.antt", "c/examples/*.c"]
    globs.append("rust/iobufs/examples/*.rs")
    for file in [file for it in globs for file in sorted(ROOT.glob(it))]:
        if found := dict(SHOWN.findall(file.read_text())).get(name):
            path = file.relative_to(ROOT)
            return f"[{path}](PATH{path}):\n\n```{LANGUAGES.get(file.suffix, '')}\n{found.strip()}\n```"
    raise LookupError(f"no source has `// [docs: {name}]`")


def trusted():
    """How many definitions the main contracts rest on."""
    yield "|contract|definitions|lines|\n|---|--:|--:|"
    yield from (f"|{name}|{number}|{lines}|" for name, number, lines in contracts())


PARTS = {
    "trusted": trusted, "api": api, "matrix": matrix, "crates": crates, "graph": graph, "promises": promises,
    "by hand": by_hand, "differences": differences, "inherent": inherent, "speed": speed, "slowest": slowest,
    "believe": believe, "unseen bug": unseen, "beside": beside,
}


def generated(page, text):
    """The page with its generated parts as the tree has them."""
    above = "../" * (len(page.relative_to(ROOT).parts) - 1)

    def part(found):
        kind, _, name = found[1].partition(" ")
        made = code(name).replace("PATH", above) if kind == "code" else "\n".join(PARTS[found[1]]())
        return f"<!-- generated: {found[1]} -->\n{made}\n<!-- end -->"

    return MARKED.sub(part, text)
