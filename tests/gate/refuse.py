#!/usr/bin/env python3
"""refuse [--cargo] [--write]

Fails each allocation of the program iobuf in turn, by the library refuse.c, which is loaded before it.
tests/gate/costs.py fails those of each call.

The program runs its stored session and those of tests/sessions, which call what a line can say on every kind of
storage. Each allocation belongs to the reading, the answering or the printing of one line; the beginnings of the
session tell which. The lines before it are answered as without a failure. Then there are four endings:

answered   The line returns `Memory`. Each name holds what it held before, or the line consumed it, and it is free.
           All later lines are answered as in a session without that line.
ended      The program ends with status 3 and 'cannot continue'.
unchanged  Nothing changes: std tries again with less, or a step doesn't need what was reserved for it.
aborted    Rust's std aborts, with --cargo alone: it allocates before the first line.

tests/tables/requests has how many there are of each, of a run of our own, which shows what changed. Every command that
may allocate has to return `Memory` in some session. The program is that of crates/iobuf/out, as rt ci and rt run leave
it there, or with --cargo rust/target/debug/iobuf, which cargo builds of the proved source.

A program that ends at any failure, with status 3 and no reply, has to be found out. With --write tests/tables/requests
is written. Ends with a line `N passed, M failed`."""
import signal
import subprocess
import sys
import tempfile
from pathlib import Path
from typing import NamedTuple

sys.path.insert(0, str(Path(__file__).resolve().parents[1] / "lib"))
from common import CRATES, TESTS, TOP, Checks, arguments, as_text, library, sessions_of

PROGRAMS = {"": CRATES / "iobuf/out/iobuf", " cargo": TOP / "rust/target/debug/iobuf"}
TABLE = TESTS / "tables/requests"
ENDINGS = ("answered", "ended", "unchanged", "aborted")

# The commands that allocate. `show` doesn't: the bytes are printed from their storage.
COMMANDS = "new zeroed adopt bytes freeze clone split take gather gathermut append prepend coalesce build encode decode"

# Which of its names a command consumes if its allocation fails: the first, the second, or those after the first.
CONSUMED = {
    **dict.fromkeys(["freeze", "coalesce"], slice(0, 1)),
    **dict.fromkeys(["append", "prepend"], slice(1, 2)),
    **dict.fromkeys(["gather", "gathermut"], slice(1, None)),
}


class Ran(NamedTuple):
    """A run of the program: what it prints, and how many allocations it asks for."""

    replies: list
    status: int
    errors: str
    allocations: int


class Session:
    """A stored session, and a program that runs it while an allocation fails. If cargo built the program, the
    allocations that it makes before it reads a line may abort it."""

    def __init__(self, program, lines, half, room, by_cargo):
        self.program, self.lines, self.half, self.room = program, lines, half, Path(room)
        self.memory_reply = "refused N9 Memory" if half == "buf" else "refused O10 Room"
        self.whole = self.run(self.lines)
        self.allocations_at_start = self.run([]).allocations if by_cargo else 0

    def run(self, lines, failing=0):
        """A run on these lines in which the allocation of this number fails, or none for 0."""
        counted = self.room / "requests"
        env = {"LD_PRELOAD": str(self.room / "refuse.so"), "REFUSE": str(failing), "REQUESTS": str(counted)}
        counted.write_text("0")
        how = {"input": as_text(lines), "env": env, "capture_output": True, "text": True, "timeout": 60}
        done = subprocess.run([self.program, self.half], **how)
        return Ran(done.stdout.splitlines(), done.returncode, done.stderr, int(counted.read_text()))

    def line_of_each_allocation(self):
        """For each allocation the index of its line; those before the first line count as the first's."""
        made = [self.run(self.lines[:n]).allocations for n in range(1, len(self.lines) + 1)]
        return [next(at for at, most in enumerate(made) if it <= most) for it in range(1, self.whole.allocations + 1)]


def consumed(line):
    """The names that a line of `iobuf buf` consumes if its allocation fails."""
    word, *names = line.split()
    if word == "build":
        return [item[1:] for item in names[2:] if item.startswith("p")]
    return names[CONSUMED.get(word, slice(0))]


def questions_after(session, lines):
    """Questions that show all that the lines may have changed."""
    if session.half == "buf":
        return [f"show {name}" for name in range(16)]
    made = sum(len(line.split()) > 1 for line in lines)
    return [f"{what} {number}" for what in ("handle", "record") for number in range(made)] + ["freed"]


def kept(session, at, number):
    """What the failed line left wrong, and the names that it freed."""
    before, line = session.lines[:at], session.lines[at]
    questions = questions_after(session, before)
    then = session.run(before + questions).replies[at:]
    *told, again = session.run(before + [line] + questions + [line], number).replies
    now = told[at + 1 :]
    costs = consumed(line) if session.half == "buf" and len(now) == len(then) else []
    freed = [name for name in costs if now[int(name)] == "refused N2 WrongKind" != then[int(name)]]
    looked = [it for it in zip(questions, then, now) if it[0].split()[-1] not in freed]
    faults = [f"{ask} is answered {b!r} after the failure, {a!r} before" for ask, a, b in looked if a != b]
    reply = session.whole.replies[at]
    if not freed and again != reply:
        faults.append(f"is answered {again!r} when it is tried again, and {reply!r} without a failure")
    return faults, freed


def try_allocation(session, at, number):
    """How a session ends in which this allocation, one of this line, fails, and what is wrong with it."""
    answers, status, errors, _ = session.run(session.lines, number)
    replies = session.whole.replies
    if answers[:at] != replies[:at]:
        return "ended", [f"the lines before {session.lines[at]!r} are answered {answers[:at]}"]
    if status == -signal.SIGABRT and number <= session.allocations_at_start:
        return "aborted", [] if not answers else [f"aborted after {answers}"]
    if status == 3:
        whole = len(answers) == at and "cannot continue" in errors
        return "ended", [] if whole else [f"status 3 after {answers[at:]}, {errors!r}"]
    if status or len(answers) != len(replies):
        return "ended", [f"status {status}, {len(answers)} replies, {errors!r}"]
    if answers[at] == replies[at]:
        same = answers == replies
        return "unchanged", [] if same else ["later lines are answered in another way"]
    line = session.lines[at]
    if answers[at] != session.memory_reply:
        return "answered", [f"{line!r} is answered {answers[at]!r}"]
    faults, freed = kept(session, at, number)
    without = session.lines[:at] + [f"drop {name}" for name in freed] + session.lines[at + 1 :]
    later = session.run(without).replies
    if answers[at + 1 :] != later[at + len(freed) :]:
        faults.append("later lines are answered in another way than in a session without it")
    return "answered", [f"{line!r}: {fault}" for fault in faults]


def try_sessions(sessions):
    """How these end for each allocation, what is wrong, and the commands that returned `Memory`."""
    endings, faults, allocating = [], [], set()
    for session in sessions:
        if session.whole.status or session.memory_reply in session.whole.replies:
            return [], [f"without a failing allocation: {session.whole.status}, {session.whole.errors!r}"], set()
        for number, at in enumerate(session.line_of_each_allocation(), 1):
            ending, found = try_allocation(session, at, number)
            endings.append(ending)
            faults += [f"allocation {number}: {fault}" for fault in found]
            allocating |= {session.lines[at].split()[0]} if ending == "answered" else set()
    return endings, faults, allocating


def stored_files():
    """The name of each file of sessions, the half of the program, and the file."""
    found = [(path.name, path.suffix[1:], path) for path in sorted((TESTS / "sessions").iterdir())]
    return [("stdin", "buf", CRATES / "iobuf/stdin"), *found]


def ending_at_once(program, room):
    """A program that answers as the given one does, and ends if any allocation fails."""
    made = Path(room) / "ending_at_once"
    made.write_text(f'#!/bin/sh\n[ "$REFUSE" = 0 ] && exec {program} "$@"\necho cannot continue >&2\nexit 3\n')
    made.chmod(0o755)
    return made


def row_of(name, half, path, program, room, build):
    """A file's row of tests/tables/requests, how many allocations that is, what is wrong, and the commands that
    allocate."""
    sessions = [[line for line, _ in lines] for lines in sessions_of(path)]
    endings, faults, allocating = try_sessions([Session(program, it, half, room, bool(build)) for it in sessions])
    numbers = [endings.count(it) for it in ENDINGS]
    print(f"{name}: {len(endings)} allocations: " + ", ".join(map("{} {}".format, numbers, ENDINGS)), flush=True)
    return " ".join([*map("{:3}".format, numbers), name + build]), len(endings), faults, allocating


def try_program(checks, stored, program, room, build):
    """Tries each stored session, and returns the rows of tests/tables/requests."""
    library("refuse", room)
    rows, met, wanted = [], set(), {*COMMANDS.split()}
    for name, half, path in stored_files():
        row, tried, faults, allocating = row_of(name, half, path, program, room, build)
        rows.append(row)
        checks.passed += max(0, tried - len(faults))
        checks.say(f"session {name}", faults + [f"{TABLE.name} hasn't the row {row}"] * (row not in stored))
        met |= allocating if half == "buf" else set()
    lacking = [f"{word} never returns Memory" for word in sorted(wanted - met)]
    checks.say("commands that allocate", lacking + [f"{word} returns Memory" for word in sorted(met - wanted)])
    row, _, faults, _ = row_of(*stored_files()[0], ending_at_once(program, room), room, build)
    checks.find("a program that ends at once", [*faults, *[row] * (row not in rows)][:1])
    return rows


def main():
    reader, checks = arguments(__doc__), Checks()
    reader.add_argument("--write", action="store_true")
    reader.add_argument("--cargo", action="store_const", const=" cargo", default="")
    flags, stored = reader.parse_args(), TABLE.read_text().splitlines()
    program = PROGRAMS[flags.cargo]
    if not program.is_file():
        sys.exit(f"there is no {program}: rt ci builds the kit's, and cargo build in rust the other")
    with tempfile.TemporaryDirectory() as room:
        rows = try_program(checks, stored, program, room, flags.cargo)
    if flags.write:
        others = [row for row in stored if row.endswith(" cargo") != bool(flags.cargo)]
        TABLE.write_text(as_text(sorted([*rows, *others], key=lambda it: it.split()[4:])))
    return checks.end()


if __name__ == "__main__":
    sys.exit(main())
