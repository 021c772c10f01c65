"""The prover, on a copy of a crate in which it reads few functions, and what it says of each."""
import json
import re
import shutil
import subprocess
import tempfile
from collections import defaultdict
from dataclasses import dataclass, field
from pathlib import Path

from common import CRATES, rattle

# The head of a function, with its indentation:     pub(crate) const fn len(
FUNCTION = re.compile(r"^( *)(?:pub(?:\([a-z ]+\))? )?(?:final )?(?:const )?fn (\w+)", re.M)
# A call, of a method of one's own or of what has no path: self.len(, Self::len(, len(
CALL = re.compile(r"(\bSelf::|\bself\.|(?<![.:\w]))(\w+)\(")
# What it says of a proof file that names what the edit took away, a goal, a place or a name: `n` is not in scope
MISFIT = re.compile(r"has no field|is not in scope|has no `|was not admitted|that can be named from here")
# A line with a place: ./proofs/lib/len/Answers.antt:3:5: error: `ends`: it is not proved that ..
PLACED = re.compile(r"(?:note: )?(?:\./)?((?:src|specs|proofs)/\S+?):\d+:\d+: (?:error: |note: |warning: )?(.*)")
# What became of a function: fn iobufs::bufs::len: not proved; did not prove `ends`; it calls ..
TOLD = re.compile(r"(?:fn|impl) (\S+?): (proved|no holes|depends on a hole|not proved|no proof|could not tell)(.*)")
NAMED = re.compile(r"error: (?:`[^`]*`: )(.*)")  # An error with a name: error: `ends`: `bytes` is not in scope
# What the prover says of a text that it can't read: `bytes` is not in scope
UNREAD = re.compile(r"is not in scope|has no field|is no name|operand is missing|expected the end|cannot continue")
LEMMA = re.compile(r": error: `([^`]+)`: ")  # A lemma that it refuses: error: `views_alike`: expected type
MADE = "expected type `Unit {0}`"  # What it says of a lemma that makes something in whose place nothing is
# A goal: it is not proved that the result is less than n (`ends`)
OPEN = re.compile(r"it is not proved that .*\(`([^`]+)`\)")
QUOTED = re.compile(r"`([^`]+)`")  # A name in backticks: `ends`


def built_file(crate, file):
    """A file of a crate's library, as rt ci built it. A program and a static library have none."""
    return CRATES / crate / f"out/rlib/{crate}.rlib" / file


def stale(crate):
    """Whether the built library of a crate is missing, or was put there before its sources."""
    marker = built_file(crate, "format")  # Each library has this file.
    if not marker.exists():
        return True
    # Its mtime may be that of an earlier run, whose build rt ci links here; its ctime is that of the link.
    put = marker.stat().st_ctime
    files = (it for part in ("src", "specs", "proofs") for it in (CRATES / crate / part).rglob("*") if it.is_file())
    return any(it.stat().st_mtime > put for it in files)


# ---- a copy in which it reads few functions


def copy_to(room, crate, changes):
    """A copy of the crate's sources in which each FILE has NEW in place of OLD."""
    for part in ("src", "specs", "proofs"):
        if (CRATES / crate / part).is_dir():
            shutil.copytree(CRATES / crate / part, room / part)
    for file, old, new in changes:
        (room / file).write_text((room / file).read_text().replace(old, new))
    return room


def functions(crate):
    """The names of a crate's functions: of a library's all, and else those at the roots of its files."""
    if (listed := built_file(crate, "toolchain/mir.json")).is_file():
        names = [it[0].partition("::")[2] for it in json.loads(listed.read_text())]
        # Closures, and what is made for traits, have names of their own.
        return [it for it in names if "+" not in it and "fn" not in it.split("::")]
    names, sources = [], CRATES / crate / "src"
    for file in sources.rglob("*.rt"):
        module = [] if file.stem in ("main", "lib") else file.relative_to(sources).with_suffix("").parts
        names += ["::".join([*module, it[2]]) for it in FUNCTION.finditer(file.read_text()) if not it[1]]
    return names


def calls_itself(head, body):
    """Whether a function calls itself: a method by `self.` or `Self::`, another by its name alone."""
    return (head[2], bool(head[1])) in {(name, bool(of)) for of, name in CALL.findall(body)}


def body_of(text, head, stop):
    """Where the body of a function is, before `stop`: with clauses, the brace before it is a line of its own."""
    close = text.find(f"\n{head[1]}}}\n", head.end(), stop) + 1
    for brace in (f"\n{head[1]}{{\n", " {\n") if close else ():
        if (begin := text.find(brace, head.end(), close)) >= 0:
            return begin + len(brace), close
    return None


def put_loops(crate, kept, room):
    """Has an empty loop in place of the body of each function but those with these names, so that nothing it calls is
    read. Methods keep theirs where put_holes doesn't know them."""
    has_methods = built_file(crate, "toolchain/mir.json").is_file()
    for file in (room / "src").rglob("*.rt"):
        text = file.read_text()
        stop = len(text)
        for head in reversed([*FUNCTION.finditer(text)]):
            body, stop = body_of(text, head, stop), head.start()
            is_kept = head[2] in kept or " const fn" in f" {head[0]}" or (head[1] and not has_methods)
            if body and not is_kept and not calls_itself(head, text[slice(*body)]):
                text = f"{text[: body[0]]}{head[1]}    loop {{}}\n{text[body[1] :]}"
        file.write_text(text)


def put_holes(crate, kept, room):
    """Has one lemma, with a hole for its proof, in place of the proof of each function but these."""
    (room / "proofs").mkdir(exist_ok=True)
    (room / "proofs/Unproved.antt").write_text("pub unproved {ℓ} : {A : Type ℓ} → A\nunproved = ?\n")
    with (room / "proofs/Lib.antt").open("a") as modules:
        modules.write("pub mod Unproved\n")
    for name in functions(crate):
        path = name.split("::")
        folder = room.joinpath("proofs", *path)
        # What calls itself has its proof in a folder with a plus.
        is_kept = any(f"::{name}".endswith(f"::{it}") for it in kept)
        if is_kept or folder.with_name(f"+{path[-1]}").is_dir():
            continue
        folder.mkdir(parents=True, exist_ok=True)
        for it in ("Invariants.antt", "Answers.antt"):
            (folder / it).unlink(missing_ok=True)
        (folder / "Proof.antt").write_text(
            f"use Rattle.{crate}.proofs.Unproved.{{unproved}}\n"
            f"use Rattle.{crate}.proofs.{'.'.join(path)}.Statement.{{statement}}\n\n"
            f"pub {path[-1]}_spec : {{M : Type 1}} → statement M\n{path[-1]}_spec = unproved\n"
        )


def refused_lemmas(crate, change, file):
    """The lemmas that it refuses if FILE has NEW in place of OLD, among those of a file of specs/ or proofs/ and of the
    files that this one imports. A function without a proof names the file, so that nothing else is read. A lemma that
    makes what is weakened isn't counted."""
    name = functions(crate)[0]
    module = f"Rattle.{crate}.{file.removesuffix('.antt').replace('/', '.')}"
    with tempfile.TemporaryDirectory(prefix="law-") as folder:
        room = copy_to(Path(folder), crate, [change])
        put_loops(crate, set(), room)
        put_holes(crate, [], room)
        proof = room.joinpath("proofs", *name.split("::"), "Proof.antt")
        proof.write_text(f"use {module} as Law\n{proof.read_text()}")
        words = rattle("check", crate, "--allow-holes", "--only", name)
        said = subprocess.run(words, cwd=room, capture_output=True, text=True, errors="replace")
    lines = (said.stdout + said.stderr).splitlines()
    found = [LEMMA.search(it) for it in lines if it.startswith(("./proofs/", "./specs/")) and MADE not in it]
    return {it[1] for it in found if it}


def check(crate, changes, wanted):
    """What it says of these functions, or of all if there are none, in a copy of the crate's sources in which each FILE
    has NEW in place of OLD."""
    with tempfile.TemporaryDirectory(prefix="mutant-") as name:
        room = copy_to(Path(name), crate, changes)
        if wanted:
            put_loops(crate, {it.split("::")[-1] for it in wanted}, room)
            put_holes(crate, wanted, room)
        holes = ["--allow-holes", *(word for it in wanted for word in ("--only", it))] if wanted else []
        ran = subprocess.run(rattle("check", crate, *holes), cwd=room, capture_output=True, text=True, errors="replace")
    return ran.stdout + ran.stderr


# ---- what it says


@dataclass
class Verdict:
    """What it says of a function: its state, the goals of its own that aren't proved, each with whether it says
    something of the contract in any case, and whether its proof file fits."""

    state: str = ""
    goals: list = field(default_factory=list)
    fits: bool = True

    def failing(self):
        """The failing goals that say something of its contract."""
        return [goal for goal, is_false in self.goals if is_false or self.fits]

    def take_state(self, state, rest, waiting):
        """Notes what became of the function, and its goals: those that wait for it, and those that it names."""
        self.state = "proved" if state in ("no holes", "depends on a hole") else state
        asked = QUOTED.findall(rest.partition("did not prove ")[2].partition("; it calls")[0])
        laws = QUOTED.findall(rest.partition("antt refuses ")[2].partition(" in `")[0])
        asked = [it for it in asked if it not in waiting]
        self.goals += [*waiting.items(), *((it, False) for it in asked), *((it, True) for it in laws)]

    def take_fault(self, said):
        """Notes an error in the function's proof file."""
        if MISFIT.search(said):
            self.fits = False
        else:
            goal = QUOTED.match(said)
            self.goals.append((goal[1] if goal else "an answer", True))


def is_unread(line):
    """Whether it couldn't read a text of src/ or specs/; a law that an edit makes false reads well."""
    named = NAMED.search(line)
    return not named or bool(UNREAD.search(QUOTED.sub("", named[1])))


def read_verdicts(output):
    """The verdict on each function, and the first line by which it read nothing, if there is one."""
    found, waiting, broken = defaultdict(Verdict), {}, ""
    # A long message goes on in lines that begin with two blanks.
    for line in output.replace("\n  ", " ").splitlines():
        placed, told = PLACED.match(line), TOLD.match(line)
        is_error = placed and ": error" in line
        if placed and (goal := OPEN.search(placed[2])):
            is_false = "allow values at which this goal is false" in line
            waiting[goal[1]] = waiting.get(goal[1], False) or is_false
        elif is_error and placed[1].startswith("proofs/"):
            # The folder of a function at a crate's root begins with a plus.
            found["::".join(Path(placed[1]).parts[1:-1]).removeprefix("+")].take_fault(placed[2])
        elif "its checked file" in line and "cannot be used" in line or is_error and is_unread(line):
            broken = broken or line
        elif told:
            found[told[1].partition("::")[2]].take_state(told[2], told[3], waiting)
        if told or line.startswith(("struct ", "enum ", "trait ")):
            waiting = {}
    return found, broken
