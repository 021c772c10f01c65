"""The definitions that a contract rests on: those that it names, and those that they name in turn, over all crates."""
import re
from functools import cache
from typing import NamedTuple

from pages.tree import CRATES

TOKEN = re.compile(r"[^\s(){}\[\],;.|λ:=]+|[(){}\[\],;.|λ:=]")  # A name or a sign: text_len, λ
# An import: use Rattle.iobufs.specs.Rows.{rest, first as front} or ghost use Rattle.iobufs.specs.Rows as R;
IMPORT = re.compile(r"(?:ghost |pub )?use (?:Rattle\.)?([\w.'\-]+?)(?:\.\{(.*)\})?(?: as (\w+))?;?$")
# The head of a declaration: pub record Table, or abbrev pub first : ℕ
HEAD = re.compile(r"(?:abbrev |unfoldable |pub )*(?:(?:record|data|ruleset) (\S+)|(\S+) : )")
CONSTRUCTOR = re.compile(r"^ +(\S+) : ")  # A constructor of a data type: Number : (n : ℕ) → Bound
FUNCTION = re.compile(r"\bpub fn (\w+)")  # A public function: pub fn run
BRACE = re.compile(r"^ *\{$", re.M)  # The brace before a body, on a line of its own.
CLAUSE = re.compile(r"^ *(?=(?:ensures|requires)\b)", re.M)  # What comes before a clause:     ensures moves { .. }
# The contracts whose definitions docs/ASSURANCE.md counts: the name there, the source, the function, and the clauses
# that aren't counted.
CONTRACTS = [
    ("`IoBufs::split_to`", "iobufs/src/bufs.rt", "split_to", ()),
    ("`Table::run`", "iobufs_run/src/table.rt", "run", ()),
    ("`Machine::run`, the promises", "iobufs_owner/src/owner.rt", "run", ("moves",)),
    ("`Machine::run`, with the step tables", "iobufs_owner/src/owner.rt", "run", ()),
    ("`Frames::run`", "iobufs_frames/src/lib.rt", "run", ()),
]


class There(NamedTuple):
    """Where a name comes from: a module, and the name there, or None if it is the module's own."""

    module: str
    name: str | None


def imported(lines):
    """The names that lines of imports bring in, each with where it comes from."""
    found = {}
    for line in lines:
        if not (m := IMPORT.match(line.strip())):
            continue
        module, names, alias = m.groups()
        if names is None:
            found[alias or module.split(".")[-1]] = There(module, None)
        for name in filter(None, map(str.strip, (names or "").split(","))):
            there, _, here = name.partition(" as ")
            found[here or there] = There(module, there)
    return found


def declared(lines):
    """The declarations of a file, each by its name: its lines without comments."""
    found, name = {}, None
    for line in lines:
        if not line.strip() or line.startswith(("--", "use ", "pub use ", "mod ", "pub mod ")):
            continue
        head = HEAD.match(line) if line[0] not in " )" else None
        if head and (head[1] or head[2]) != name:
            name = head[1] or head[2]
            found[name] = []
        if name:
            found[name].append(line)
    return found


def constructors(declarations):
    """The constructors of the data types among these declarations, each with the lines of its type."""
    types = [lines for lines in declarations.values() if lines[0].startswith(("data ", "pub data "))]
    return {found[1]: lines for lines in types for line in lines if (found := CONSTRUCTOR.match(line))}


@cache
def read_module(path):
    """A module's declarations and imports; a constructor counts as its type."""
    file = CRATES / (path.replace(".", "/") + ".antt")
    if not file.is_file():
        return {}, {}
    lines = file.read_text().splitlines()
    own = declared(lines)
    return constructors(own) | own, imported(it for it in lines if it.startswith(("use", "pub use")))


def find(path, name):
    """Where a name is declared that a module has or passes on; None if nowhere in the crates."""
    own, brought = read_module(path)
    if name in own:
        return There(path, name)
    there = brought.get(name)
    return find(there.module, there.name) if there and there.name else None


def named(text, brought, path=None):
    """Where each name of a text is declared: in its module, whose path may be given, or by the imports of its file."""
    tokens = TOKEN.findall(text)
    for i, token in enumerate(tokens):
        there = brought.get(token)
        if path and token in read_module(path)[0]:
            yield There(path, token)
        elif there and there.name is None:
            # A name of an imported module: R.rest is the tokens R, . and rest
            if tokens[i + 1 : i + 2] == ["."] and i + 2 < len(tokens):
                yield find(there.module, tokens[i + 2])
        elif there:
            yield find(there.module, there.name)


def contract(source, function, without):
    """The contract of a public function without some clauses, and the imports of its source."""
    text = source.read_text()
    begin = next(m.start() for m in FUNCTION.finditer(text) if m[1] == function)
    clauses = CLAUSE.split(text[begin : BRACE.search(text, begin).start()])
    kept = (it for it in clauses if it.split()[1] not in without)
    return "".join(kept), imported(it for it in text.splitlines() if it.startswith("ghost use"))


def trusted(source, function, without=()):
    """The definitions that a contract rests on, each with its lines."""
    found, left = {}, list(named(*contract(source, function, without)))
    while left:
        if (there := left.pop()) and there not in found:
            own, brought = read_module(there.module)
            found[there] = own[there.name]
            left += named("\n".join(found[there]), brought, there.module)
    return found


def contracts():
    """For each contract how many definitions it rests on, and how many lines they have."""
    for name, source, function, without in CONTRACTS:
        found = trusted(CRATES / source, function, without)
        yield name, len(found), sum(map(len, found.values()))
