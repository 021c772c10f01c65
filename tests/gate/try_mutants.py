#!/usr/bin/env python3
"""try_mutants [--all] [--fits] [CRATE[/NAME] ..]

Tries mutants, functions changed to a wrong meaning: the prover must refuse each for a failure of its own. A mutant is
a block of tests/faults/mutants/CRATE.edits, and a blank line separates two:

    == NAME
    fails: PATH::FUNCTION    the function that it changes, as the prover names it, without the crate; or several, with
                             ', ' between them
    file: src/FILE.rt
    old: TEXT                one line, which occurs once in that file
    new: TEXT

and with a line `named: yes` if it is one of the named mutants, `shown: yes` if what the prover says of it is printed,
or `whole: yes` if it breaks the laws of an impl: then the whole crate is checked. A line `rests: specs/FILE.antt: OLD
-> NEW` weakens a definition: with that, the mutant has to be proved, so it is refused for what OLD says; one of
`proofs/FILE.antt` adapts a line of a proof to that.

A block of tests/faults/mutants/CRATE.laws has lines `part: specs/FILE.antt: DEFINITION: PART` after `law: FILE: LEMMA`:
with nothing in the place of one of these parts, the prover has to refuse the lemma.

With no argument it tries the named mutants, and draws by the commit's checksum DRAWN others and LAWS parts of laws:
first of what changed since the gate that docs/GATE.md records: a mutant, its function, proofs, or definitions. --all
tries all; CRATE tries those of a crate, CRATE/NAME one.

One check tries many mutants, a round, with one of a function at most. It reads the functions of its round alone, over
the libraries that rt ci leaves in out/: an empty loop replaces each other body, and a lemma with a hole its proof
(except of functions that call themselves, and of the methods of programs and static libraries).

A mutant is refused if the function that it names has a goal that isn't proved. An error in a proof file that names a
goal that is gone doesn't count: then a line `goal: NAME` says a goal that has to fail. Else the run fails, and if a
function has a failing goal and no mutant. tests/faults/not_mutants/CRATE.edits has edits that are no mutants, with a
line `fault: TEXT` in each, which has to be found. Each edit that can't be applied is told, drawn or not; --fits says no
more, in some seconds. Ends with a line `N passed, M failed`."""
import itertools
import os
import random
import re
import sys
from collections import defaultdict
from concurrent.futures import ThreadPoolExecutor
from pathlib import Path

sys.path.insert(0, str(Path(__file__).resolve().parents[1] / "lib"))
from common import CRATES, TESTS, Checks, arguments, below, commit
from pages import kept, rests
from pages.trusted import declared
from prover import FUNCTION, check, read_verdicts, refused_lemmas, stale

GIGABYTES_A_CHECK = 4
DRAWN = 60
LAWS = 8
NAME = re.compile(r"\bfn (\w+)")  # Any function: fn len
WORD = re.compile(r"\w+")  # A name in a contract: part_filled


class Edit:
    """A mutant: the lines of its block by their first word, and each change: the file, the old line, the new one."""

    def __init__(self, block, crate):
        title, *lines = block.splitlines()
        self.crate, self.path = crate, f"{crate}/{title.removeprefix('== ')}"
        self.said, self.changes, self.rests = {}, [], []
        for word, _, rest in (it.partition(":") for it in lines):
            self.said[word] = rest.removeprefix(" ")
            if word == "new":
                self.changes.append(tuple(self.said.get(it, "") for it in ("file", "old", "new")))
            if word == "rests":
                file, _, texts = self.said[word].partition(": ")
                self.rests.append((file, *texts.partition(" -> ")[::2]))
        self.named, self.whole, self.goal, self.fault = map(self.said.get, ("named", "whole", "goal", "fault"))
        self.fails = self.said.get("fails", "").split(", ")


class Weakening:
    """A part of a definition that a law rests on."""

    named = fault = None

    def __init__(self, crate, law, part):
        self.crate, self.part = crate, part
        self.file, _, self.lemma = law.partition(": ")
        self.path = f"{crate}/{self.lemma}: {part.definition}: {part.text}"

    def fault_found(self):
        """What is wrong with it: the prover takes the lemma without the part."""
        spec = self.part.file.partition("/")[2]
        text = (CRATES / self.part.file).read_text()
        refused = refused_lemmas(self.crate, (spec, text, rests.weakened(text, self.part)), self.file)
        return "" if self.lemma in refused else f"the prover takes the lemma; it refuses {sorted(refused) or 'none'}"


def read_laws():
    """The parts that laws rest on, and what is wrong with lines that name none."""
    found, faults, parts = [], {}, {str(it): it for it in rests.all_parts()}
    for file in sorted(TESTS.glob("faults/mutants/*.laws")):
        for law, *lines in (block.splitlines() for block in file.read_text().split("\n\n")):
            for name in (f"{file.stem}/{line.removeprefix('part: ')}" for line in lines):
                if name in parts:
                    found.append(Weakening(file.stem, law.removeprefix("law: "), parts[name]))
                else:
                    faults[f"{law} without {name}"] = "no such part"
    return found, faults


def complaint(edit):
    """Why the edit can't be tried, if it can't."""
    folder = CRATES / edit.crate
    for file, old, _ in edit.changes + edit.rests:
        found = (folder / file).read_text().count(old) if old and (folder / file).is_file() else 0
        if found != 1:
            return f"its 'old:' text occurs in {file} {found} times, and not once"
    names = {name for it in (folder / "src").rglob("*.rt") for name in NAME.findall(it.read_text())}
    gone = [it for it in edit.fails if it.split("::")[-1] not in names]
    if not edit.changes or (gone and not edit.whole):
        return f"names no function: {', '.join(gone)}"
    return ""


def by_crate(edits):
    crates = defaultdict(list)
    for edit in edits:
        crates[edit.crate].append(edit)
    return crates


def rounds_of(edits):
    """The edits in rounds, with one of a function at most in each, and one of a whole crate by itself."""
    rounds = []
    for edit in edits:
        for mates in rounds:
            if not any(it.whole or edit.whole or {*edit.fails} & {*it.fails} for it in mates):
                mates.append(edit)
                break
        else:
            rounds.append([edit])
    return rounds


def fault_in(found, wanted, edit):
    """The function that the edit names, and what is wrong with the edit by what the check says of it."""
    told = [name for name, verdict in found.items() if verdict.state]
    ends = [name for name in told if name.endswith(f"::{wanted}")]
    function = wanted if wanted in told else ends[0] if len(ends) == 1 else ""
    if not function:
        return function, f"names no function: {wanted}"
    verdict = found[function]
    if verdict.state == "proved":
        return function, f"is proved: {function}"
    if edit.goal and edit.goal not in [goal for goal, _ in verdict.goals]:
        return function, f"its goal {edit.goal} doesn't fail; these do: {verdict.goals}"
    if not edit.goal and not verdict.failing():
        return function, f"has no failure of its own in {function} but of a proof file that doesn't fit"
    return function, ""


def try_round(crate, edits):
    """What is wrong with each edit of a round, and with the round: functions that fail for a goal of their own, and
    that no edit names."""
    wanted = list(dict.fromkeys(name for it in edits for name in it.fails if not it.whole))
    output = check(crate, [change for it in edits for change in it.changes], wanted)
    found, broken = read_verdicts(output)
    for edit in (it for it in edits if "shown" in it.said):
        goals = [f"`{goal}`" for wanted in edit.fails for goal, _ in found[wanted].goals]
        told = (it for it in output.splitlines() if any(goal in it for goal in goals))
        print(*(f"prover: {it}" for it in told), sep="\n", flush=True)
    if broken or not any(it.state for it in found.values()):
        return {it.path: f"the prover can't read its round: {broken or output[-300:]}" for it in edits}, []
    faults, named = {}, set()
    for edit, wanted in ((edit, wanted) for edit in edits for wanted in edit.fails):
        function, why = fault_in(found, wanted, edit)
        named.add(function)
        faults |= {edit.path: why} if why else {}
    unproved = {name for name, it in found.items() if it.state not in ("", "proved") and (it.goals or not it.fits)}
    return faults, [f"{crate}: {it} has a failing goal, and no mutant" for it in sorted(unproved - named)]


def try_weakened(crate, edits):
    """What is wrong with each edit of a round, if the definitions that they rest on are weakened: it isn't proved."""
    changes = [*dict.fromkeys(change for it in edits for change in it.changes + it.rests)]
    found, broken = read_verdicts(check(crate, changes, list(dict.fromkeys(name for it in edits for name in it.fails))))
    told = [(it, fault_in(found, wanted, it)[1] or "it is refused") for it in edits for wanted in it.fails]
    refused = {it.path: f"rests on something else: {why}" for it, why in told if not why.startswith("is proved")}
    if broken:
        refused = {it.path: f"the prover can't read its weakened round: {broken}" for it in edits}
    if len(edits) == 1:
        return refused
    # Another weakened definition of the round may be why: alone it counts.
    again = (try_weakened(crate, [it]) for it in edits if it.path in refused)
    return {path: why for faults in again for path, why in faults.items()}


def tell(checks, edits, faults):
    """Counts these edits; each that failed is told."""
    for edit in edits:
        fault = faults.get(edit.path, "")
        good = edit.fault in fault if edit.fault else not fault
        wanted = f", and not as wanted: {edit.fault}" if edit.fault else ""
        checks.say(f"mutant {edit.path}", [] if good else [f"{fault or 'has no fault'}{wanted}"])


def try_all(checks, edits, laws, faults):
    """Tries these edits and laws; each that failed is told, and each function that fails without one."""
    if late := sorted({it for edit in [*edits, *laws] for it in below(edit.crate) if stale(it)}):
        sys.exit(f"rt ci or rt all check first: the built libraries of {', '.join(late)} are missing or old")
    crates = by_crate(it for it in edits if it.path not in faults)
    rounds = [(crate, mates) for crate, own in crates.items() for mates in rounds_of(own)]
    with ThreadPoolExecutor(lanes_here()) as pool:
        for found, strange in pool.map(try_round, *zip(*rounds)):
            faults.update(found)
            checks.say_all(("a round", [why]) for why in strange)
        resting = by_crate(it for it in edits if it.rests and it.path not in faults)
        weakened = [(crate, mates) for crate, own in resting.items() for mates in rounds_of(own)]
        for found in pool.map(try_weakened, *zip(*weakened)):
            faults.update(found)
        found = zip(laws, pool.map(Weakening.fault_found, laws))
        checks.say_all((f"law {it.path}", [why] * bool(why)) for it, why in found)
    print(f"{len(edits)} mutants in {len(rounds) + len(weakened)} checks, and {len(laws)} parts of laws", flush=True)
    tell(checks, edits, faults)


def lanes_here():
    """How many checks there are processors and memory for."""
    free = next(int(it.split()[1]) // 2**20 for it in open("/proc/meminfo") if it.startswith("MemAvailable:"))
    return max(1, min(len(os.sched_getaffinity(0)), free // GIGABYTES_A_CHECK))


def changed(edits):
    """Those of edits that changed since the last recorded gate, or whose function did, its proofs or a definition that
    its contract names."""
    before, now = kept.tree_at(kept.RECORDED.search(kept.GATE.read_text())[1]) or {}, kept.tree_now()
    files = {path for path in now if now[path] != before.get(path)}
    names = set()
    for path in (it for it in files if "/specs/" in it):
        one, other = (declared(texts.get(path, "").splitlines()) for texts in (now, before))
        names |= {name for name, lines in one.items() if lines != other.get(name)}

    def is_so(edit):
        block = f"{edit.path.partition('/')[2]}\nfails"
        if block not in before.get(f"tests/faults/mutants/{edit.crate}.edits", ""):
            return True
        for name, (file, *_) in itertools.product((it.split("::")[-1] for it in edit.fails), edit.changes):
            path = f"crates/{edit.crate}/{file}"
            one, other = (function_of(texts.get(path, ""), name) for texts in (now, before))
            is_new = one != other or names & {*WORD.findall(one)}
            if is_new or any(f"/{name}/" in it for it in files if "/proofs/" in it):
                return True
        return False

    return [it for it in edits if is_so(it)]


def function_of(text, name):
    """A function of a source, from its head to that of the next one."""
    heads = [*FUNCTION.finditer(text), None]
    found = ((one, other) for one, other in zip(heads, heads[1:]) if one[2] == name)
    return "".join(text[one.start() : other and other.start()] for one, other in found)


def drawn(edits, laws):
    """The named ones; DRAWN of those that changed, or if there are fewer of all; and LAWS."""
    found, draw = [it for it in edits if it.named or it.fault], random.Random(commit())
    left = [it for it in edits if not (it.named or it.fault)]
    new = changed(left)
    print(f"{len(new)} mutants changed since the last recorded gate, or what they are of", flush=True)
    rest = [it for it in left if it not in new]
    some = [*draw.sample(new, len(new)), *draw.sample(rest, len(rest))][:DRAWN]
    for crate, own in by_crate(some).items():
        print(f"drawn by the commit: {len(own)} of {crate}", flush=True)
    return found + some, draw.sample(laws, min(LAWS, len(laws)))


def chosen(edits, laws, flags):
    """The edits and the parts of laws that the arguments name."""
    names = lambda it: {it.crate, it.path, it.path.split(":")[0]}
    if unknown := {*flags.only} - {name for it in [*edits, *laws] for name in names(it)}:
        sys.exit(f"no mutant is named so: {', '.join(unknown)}")
    if flags.only:
        return [[it for it in some if names(it) & {*flags.only}] for some in (edits, laws)]
    return (edits, laws) if flags.all or flags.fits else drawn(edits, laws)


def main():
    reader, checks = arguments(__doc__), Checks()
    reader.add_argument("--all", action="store_true")
    reader.add_argument("--fits", action="store_true")
    reader.add_argument("only", nargs="*", metavar="CRATE[/NAME]")
    flags = reader.parse_args()
    files = sorted(it for folder in ("mutants", "not_mutants") for it in (TESTS / "faults" / folder).glob("*.edits"))
    all_edits = [Edit(block, it.stem) for it in files for block in it.read_text().split("\n\n")]
    faults = {it.path: why for it in all_edits if (why := complaint(it))}
    all_laws, lost = read_laws()
    edits, laws = chosen(all_edits, all_laws, flags)
    # One that isn't tried is told if it can't be applied. A check alone may find the fault of an edit of not_mutants.
    tried = {it.path for it in all_edits if it.fault or (it in edits and not flags.fits)}
    fit = [(it.path, [faults[it.path]] if it.path in faults else []) for it in all_edits if it.path not in tried]
    checks.say_all([*fit, *((name, [why]) for name, why in lost.items())])
    if not flags.fits:
        try_all(checks, edits, laws, faults)
    return checks.end()


if __name__ == "__main__":
    sys.exit(main())
