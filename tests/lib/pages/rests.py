"""The parts of the relations that contracts rest on. Those on which no mutant and no law rests are compared with
tests/tables/unguarded: a list that only gets shorter, by mutants with a line `rests:` and by lines `part:` of laws."""
import re
from collections import Counter
from functools import cache
from typing import NamedTuple

from pages.tree import CRATES, DECLARATION, ROOT
from pages.trusted import imported, named, read_module

STORED = ROOT / "tests/tables/unguarded"
OF = "iobufs_core iobufs iobufs_frames iobufs_codec iobufs_run iobufs_owner iobuf iobufs_c".split()
# A function, public or not, and what is around those of traits: impl Buf for IoBufs {\n..\n}
FUNCTION = re.compile(r'^ *(pub )?(?:final |const |unsafe |extern "C" )*fn \w+', re.M)
OF_TRAIT = re.compile(r"^(?:impl\b[^{\n]* for |pub trait )[^{]*\{\n.*?^\}", re.M | re.S)
CLAUSES = re.compile(r"^ *(?:ensures|requires)\b.*", re.M | re.S)
GHOST = re.compile(r"^ *ghost \w+ = \{.*?\};", re.M | re.S)  #     ghost view = { λ g. g.entries };
STARTS = re.compile(r"^(?:abbrev |unfoldable )*(?:pub )?(?:record )?([\w-]+)")  # abbrev pub IsParts : List Part
RELATION = re.compile(r"\bType( 0)?( where)?$")  # abbrev pub MayWantMemory : List Slot → Cmd → Type 0
VALUE = re.compile(r"pub \w+ : (ℕ|Bool|[A-Z]\w+|\(?(List|Option|Result) .*)")  # pub front : List ℕ
BINDER = re.compile(r"\(?[\w' ]+ : [^≡≤<→]*")  # mid : List ℕ
LAMBDA = re.compile(r"^λ (?:\([^)]*\)|[^.(])*\. ")  # What is before the dot of a function: λ f (turn : List ℕ) g.
RELATED = re.compile(r"[≡≢≤<⊥×]|Unit")  # What a relation has, and a value hasn't: bytes ≡ []
NOTHING = "Unit {0}"  # What a part is weakened to.
TYPE = re.compile(r"ℕ|[A-Z]\w*|")  # A type in a product of types: List ℕ × Bool


class Part(NamedTuple):
    """A conjunct of a relation: its file, the definition, its text, and which one of that text it is there."""

    file: str
    definition: str
    text: str
    number: int

    def __str__(self):
        return f"{self.file}: {self.definition}: {self.text}{f' ({self.number})' if self.number > 1 else ''}"


def definitions(text):
    """The relations of a file of specs/, each with its name and its rows: equations, or fields that aren't values."""
    for block in re.split(r"\n\n+", text):
        lines = [line for line in block.splitlines() if line.strip() and not line.strip().startswith("--")]
        head, *lines = lines or [""]
        start = STARTS.match(head)
        rows = []
        for line in lines if start else []:
            if line.startswith((f"{start[1]} ", f"{start[1]} {{", "  pub ")):
                rows.append(line.strip())
            elif rows:
                rows[-1] += " " + line.strip()
            else:
                head += " " + line.strip()
        if RELATION.search(head):
            yield start[1], [row for row in rows if not VALUE.fullmatch(row)]


def end_of_bracket(text, at):
    """Where the bracket that opens at `at` closes."""
    depth = 0
    for i in range(at, len(text)):
        depth += (text[i] == "(") - (text[i] == ")")
        if depth == 0:
            return i
    return len(text)


def operands(text, sign):
    """The texts between these signs outside of brackets."""
    depth, begin = 0, 0
    for at, it in enumerate(text):
        depth += (it == "(") - (it == ")")
        if it == sign and depth == 0:
            yield text[begin:at].strip()
            begin = at + 1
    yield text[begin:].strip()


def groups(text):
    """What the outermost brackets of a text have."""
    at = 0
    while (at := text.find("(", at)) >= 0:
        end = end_of_bracket(text, at)
        yield text[at + 1 : end]
        at = end


def conjuncts(text):
    """The conjuncts of what a text concludes. Brackets with several part the one that they are in: then the cases
    beside them count, and what else is related in brackets."""
    for conjunct in operands(text, "×"):
        conclusion = LAMBDA.sub("", list(operands(conjunct, "→"))[-1])
        for case in operands(conclusion, "⊎") if any(map(has_several, groups(conclusion))) else [conclusion]:
            if f"({next(groups(case), '')})" == case:
                yield from conjuncts(case[1:-1])
            elif any(map(has_several, groups(case))):
                yield from (part for it in groups(case) if RELATED.search(it) for part in conjuncts(it))
            elif not BINDER.fullmatch(case) and not TYPE.fullmatch(case):
                yield case


def has_several(group):
    return len(list(conjuncts(group))) > 1


def parts(file, text):
    """The parts of the relations of a file."""
    seen = Counter()
    for name, rows in definitions(text):
        for row in rows:
            for part in conjuncts(row.partition(" : " if row.startswith("pub ") else " = ")[2]):
                seen[name, part] += 1
                if part not in (NOTHING, "⊤"):
                    yield Part(file, name, part, seen[name, part])


def clauses(text):
    """The clauses of the functions of a source that are public or of a trait, and what an impl gives the clauses of its
    trait."""
    spans = [it.span() for it in OF_TRAIT.finditer(text)]
    for impl in OF_TRAIT.findall(text):
        yield from GHOST.findall(impl) if " Model for " not in impl.partition("\n")[0] else ()
    for function in FUNCTION.finditer(text):
        at = function.start()
        if function[1] or any(begin < at < end for begin, end in spans):
            found = DECLARATION.search(text, function.end())
            yield from CLAUSES.findall(text[at : found.end() if found else len(text)])


@cache
def reached():
    """The definitions that the clauses name, and those that they are made of."""
    found, left = set(), []
    for source in (source for crate in OF for source in sorted((CRATES / crate / "src").rglob("*.rt"))):
        text = source.read_text()
        brought = imported(it for it in text.splitlines() if it.strip().startswith("ghost use"))
        left += [there for clause in clauses(text) for there in named(clause, brought)]
    while left:
        there = left.pop()
        own, brought = read_module(there.module) if there else ({}, {})
        if there not in found and there and there.name in own:
            found.add(there)
            left += named("\n".join(own[there.name]), brought, there.module)
    return found


def all_parts():
    """The parts of all relations that contracts rest on."""
    names = {(there.module, there.name) for there in reached()}
    for file in (file for crate in OF for file in sorted((CRATES / crate / "specs").rglob("*.antt"))):
        path = file.relative_to(CRATES)
        module = str(path.with_suffix("")).replace("/", ".")
        yield from (it for it in parts(str(path), file.read_text()) if (module, it.definition) in names)


def places(text, part):
    """Where a text of that part is that is a part, in order."""
    before = Counter(it[1:3] for it in parts(part.file, text))
    for place in re.finditer(r"\s+".join(map(re.escape, part.text.split())), text):
        after = Counter(it[1:3] for it in parts(part.file, f"{text[:place.start()]}{NOTHING}{text[place.end():]}"))
        if before - after == Counter([part[1:3]]):
            yield place.span()


def weakened(text, part):
    """The text of the part's file with nothing in its place, or None if it has no such part."""
    found = list(places(text, part))[part.number - 1 : part.number]
    return f"{text[:found[0][0]]}{NOTHING}{text[found[0][1]:]}" if found else None


def stored_parts(crate):
    """The parts that the laws of a crate rest on: those of lines `part:` in tests/faults/mutants/CRATE.laws."""
    file = ROOT / f"tests/faults/mutants/{crate}.laws"
    lines = file.read_text().splitlines() if file.is_file() else []
    wanted = {line.removeprefix("part: ") for line in lines if line.startswith("part: ")}
    return [it for it in all_parts() if f"{it}".startswith(f"{crate}/") and f"{it}".removeprefix(f"{crate}/") in wanted]


def rested(crate):
    """The parts that the mutants of a crate rest on. A line `rests:` counts if it has the whole part, and one alone."""
    file = ROOT / f"tests/faults/mutants/{crate}.edits"
    lines = file.read_text().splitlines() if file.is_file() else []
    for line in (line.removeprefix("rests: ") for line in lines if line.startswith("rests: specs/")):
        path, _, texts = line.partition(": ")
        old, _, new = texts.partition(" -> ")
        text = (CRATES / crate / path).read_text()
        begin = text.find(old)
        before, after = (list(parts(f"{crate}/{path}", it)) for it in (text, text.replace(old, new)))
        gone = Counter(it[1:3] for it in before) - Counter(it[1:3] for it in after)
        if gone.total() == 1:
            changed = [it for it in before if it[1:3] in gone]
            spans = list(places(text, changed[0]))
            yield from (it for it, (a, b) in zip(changed, spans) if begin <= a and b <= begin + len(old))


def unguarded():
    """Each part on which no mutant and no law rests."""
    guarded = {part for crate in OF for part in [*rested(crate), *stored_parts(crate)]}
    return [str(part) for part in all_parts() if part not in guarded]


def results(write):
    """What differs from the stored list. --write drops what a mutant or a law rests on now, and adds nothing."""
    head, *stored = STORED.read_text().splitlines()
    found = unguarded()
    if write:
        stored = [line for line in stored if line in found]
        head = f"# {len(stored)} of {len(list(all_parts()))} parts"
        STORED.write_text("".join(f"{line}\n" for line in [head, *stored]))
    if not head.startswith(f"# {len(stored)} of "):
        yield f"it has {len(stored)} parts, and says {head}"
    yield from (f"a mutant or a law rests on it: {line}" for line in stored if line not in found)
    yield from (f"no mutant and no law rests on it: {line}" for line in found if line not in stored)
