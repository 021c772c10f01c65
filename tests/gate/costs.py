#!/usr/bin/env python3
"""costs [--write] [--program PATH]

Counts what each call costs at size: its allocations, and their bytes. Then fails each allocation. The calls are those
of tests_allocation: Rattle has calls and kinds of storage that C hasn't (`Bytes`). A test prints a line before
each call, one after it, and then what the call was made on and how it ended; the library refuse.c counts and refuses.

1. Each call is a row of a table in the module `costs`, and so is each kind of storage. Its value is that of a plain
   model, a list of bytes that is cut at multiples of a length. The tests compare it.
2. A call that only shares allocates as many bytes whatever the size: of views and writable buffers of 64 to 1,048,577
   bytes, and of as many chunks, up to 65,537, that are longer. A word in its row says on which kinds of storage it
   shares (SHARED). It also has the same outcome: storage isn't declined above a size.
3. A call that copies allocates at most the bytes of the buffer and MORE.
4. No call allocates more often than the original, where its row has that number. A copy allocates once more: the header
   of native storage, or of a `Bytes`.
5. The first allocation of each call fails, then the second, and so on, of buffers of up to LARGEST bytes or chunks. The
   call reports it, leaves its buffer as it was, or consumes it, and gives the second time what it gives without a
   failure: the tests compare that. Calls of frames, values, builders, commands and the machine are tests of their own.
6. The same rules hold at lengths, numbers of chunks and offsets that the commit draws, of up to 2^22 bytes and 2^16
   chunks. No table shows which they are; a failure names the draw.
7. Bytes that are received hold at most twice as much memory as they are, and two blocks: after each 1,000 bytes or
   read, of short and long frames, kept or dropped. So do buffers that are coalesced. A body that is kept alone, of
   frames of drawn lengths, holds at most its own frame or a block, whichever is more, and RECORD.
8. A frame that is put and sent allocates nothing. An echo allocates blocks up to the largest, and a header of 32 bytes
   each time that one is filled: SENT has the numbers, worked out by hand.
9. The table is that of the file costs.txt: CALL, ALLOCATIONS/BYTES for each size, the kinds of storage. So no failure
   is tried of fewer allocations than are stored. Its numbers are of our own run, within the bounds of 2 to 4: they
   show what changed.

The program is that of crates/tests_allocation/out, as rt ci and rt test build it, or PATH. With --write the file
is written. The script first changes a line of each kind in what it read, and has to find that. Ends with `N passed, M
failed`."""
import os
import re
import subprocess
import sys
import tempfile
from collections import Counter
from concurrent.futures import ThreadPoolExecutor
from pathlib import Path
from typing import NamedTuple

sys.path.insert(0, str(Path(__file__).resolve().parents[1] / "lib"))
from common import CRATES, TESTS, Checks, arguments, as_text, commit, library

PROGRAM = CRATES / "tests_allocation/out/tests_allocation_tests"
STORED = TESTS / "tables/costs.txt"

# The tables of the module `costs`, and whether a buffer there has several chunks.
TABLES = {"views": False, "makers": False, "parts": False, "texts": True, "rows": True}
# Those that a test has at drawn sizes too.
DRAWN = ("views", "parts", "texts", "rows")

# The kinds of storage that a call shares, by the word of its row. `Shares` stands for all.
BYTES = "Static StaticBytes Bytes SharedBytes Emptied"
SHARED = {
    "Copies": "",
    "SharesBytes": BYTES,
    "SharesWhole": f"{BYTES} Full Aligned LoneHalf",
    "SharesSole": "Full Roomy Advanced Aligned LoneHalf Emptied",
}

SLACK = 10  # A varint length takes so many bytes more at most.
MORE = 96  # What a copy allocates beside the bytes: headers.
LARGEST = 64  # The length of the largest views, and the most chunks, of which each allocation fails.

# How large a block of received bytes is, unless a frame is longer, and how much its header and the like add at most.
BLOCK, AROUND = 1 << 16, 1024
# What a block has beside its bytes: its header, and what the C library rounds a large allocation up by.
RECORD = 4096 + 128
# A line of costs::held: the allocated memory, by refuse.c, and the received bytes that are held: 70000 held 65536
HELD = re.compile(r"(\d+) (\S+) (\d+)")
LEAST_HELD = 1000  # How many such lines there are at least.
# A header of a block that is shared, and the blocks that an echo allocates after its first one of 4 KiB.
HEADER, BLOCKS = 32, [1 << 13, 1 << 14, 1 << 15, BLOCK]


def echoing(frames, size=65):
    """What an echo of so many frames of 64 bytes allocates: the blocks before the last are filled once."""
    fills = len(BLOCKS) + -(-(frames * size - sum([BLOCKS[0] // 2, *BLOCKS[:-1]])) // BLOCK)
    return len(BLOCKS) + fills, sum(BLOCKS) + fills * HEADER


# The allocations and their bytes of a frame that is sent, and of an echo.
SENT = {
    **dict.fromkeys(("an_empty_frame_is_sent", "a_frame_is_sent", "a_frame_is_sent_byte_by_byte"), (0, 0)),
    **dict.fromkeys(("a_frame_of_five_chunks_is_sent", "a_frame_of_long_chunks_is_sent"), (0, 0)),
    "an_echo_of_60_frames": (1, HEADER),
    "an_echo_of_20000_frames": echoing(20000),
    "an_echo_of_40000_frames": echoing(40000),
}

# How a call ends that gives what it should: it is done, hands back a shared buffer, or one of several chunks.
WELL = ("Done", "Declined", "Several")
OUTCOMES = (*WELL, "Refused", "Wrong", "Failed", "Changed")


class Call(NamedTuple):
    """A call, or the dearest of a case: what it was made on, how it ended, its allocations and their bytes, whether it
    shares the storage, and how often the original allocates."""

    name: str
    storage: str
    chunks: int
    length: int
    outcome: str
    requests: int
    spent: int
    is_shared: bool = False
    original: int = 0

    @property
    def case(self):
        """What was called, and what on, without how it ended."""
        return self[:4]


def most_memory(name, held):
    """How much memory so many received bytes may hold: twice as much, and two blocks. A frame that is alone may hold
    itself or a block."""
    return max(held, BLOCK) + RECORD if name == "alone" else 2 * held + 2 * BLOCK + AROUND


def is_small(call, test):
    """Whether each allocation of a call fails in turn, by how many chunks or bytes its buffer has."""
    return (call.chunks if TABLES.get(test.removeprefix("costs::")) else call.length) <= LARGEST


def read_call(test, words, outcome, cost):
    """The call that a line tells of. A test without a table prints a case, or only the outcome."""
    if len(words) == 6:
        name, kind, chunks, length, sharing, original = words
        is_shared = kind in SHARED.get(sharing, kind).split()
        return Call(name, kind, int(chunks), int(length), outcome, *cost, is_shared, int(original))
    return Call("".join(words) or test.rpartition("::")[2], "-", 0, 0, outcome, *cost)


class Program:
    """The tests, with the library that counts allocations."""

    def __init__(self, path, room):
        self.path, self.env = path, {**os.environ, "LD_PRELOAD": str(library("refuse", room))}

    def tests(self):
        """The tests that have no table."""
        listed = subprocess.run([self.path, "--list"], capture_output=True, text=True, check=True).stdout.splitlines()
        names = [line.removesuffix(": test") for line in listed if line.endswith(": test")]
        return [name for name in names if not name.startswith("costs::")]

    def calls(self, test, refused=0, draw=""):
        """The calls of a test. With an allocation of each call refused, those on small buffers.

        A line begins with the allocations since the line before it, and their bytes (refuse.c). A test prints `call`,
        `done` after the call, and then what it was made on, and how it ended. A case of several calls has a line `done`
        for each, of which the dearest counts."""
        env = {**self.env, "COSTS": "1", "REFUSE": str(refused), "DRAW": draw}
        ran = subprocess.Popen(["timeout", "300", self.path, test], env=env, stdout=subprocess.PIPE, text=True)
        found, costs = [], []
        for line in ran.stdout:
            *words, last = line.split() or [""]
            if last == "done":
                costs.append(tuple(map(int, words)))
            elif last in OUTCOMES and costs:
                call, costs = read_call(test, words[2:], last, max(costs)), []
                if refused and not is_small(call, test):
                    ran.terminate()
                    return found
                found.append(call)
        if ran.wait() or not found:
            found.append(Call("Ended", f"status {ran.returncode}", 0, 0, "Wrong", 0, 0))
        return found

    def refusals(self, test, calls):
        """How many allocations of a test were refused, and what is wrong with a call that met a refusal."""
        small, tried, faults = [it for it in calls if is_small(it, test)], 0, []
        for number in range(1, max(it.requests for it in small) + 1):
            seen = self.calls(test, number)
            if [it.case for it in seen] != [it.case for it in small]:
                return tried, [*faults, f"{test} with allocation {number} of each call refused ends at {seen[-1]}"]
            for before, after in zip(small, seen):
                is_refused = before.requests >= number
                tried += is_refused
                if after.outcome != ("Refused" if is_refused else before.outcome):
                    told = f"{test} {before.case} with allocation {number} of {before.requests} refused"
                    faults.append(f"{told}: {after}")
        return tried, faults

    def held(self):
        """How many times received bytes were compared with the memory that they hold, and what is wrong."""
        command = ["timeout", "300", self.path, "costs::held::held"]
        env = {**self.env, "HELD": "1", "DRAW": commit()}
        ran = subprocess.run(command, env=env, stdout=subprocess.PIPE, text=True)
        lines = [found for line in ran.stdout.splitlines() if (found := HELD.fullmatch(line))]
        above = [line for line in lines if int(line[1]) > most_memory(line[2], int(line[3]))]
        faults = [f"DRAW={commit()} {line[2]}: {line[3]} received bytes hold {line[1]} of memory" for line in above]
        if ran.returncode or len(lines) < LEAST_HELD:
            faults.append(f"costs::held::held ends with status {ran.returncode} after {len(lines)} lines")
        return len(lines), faults


def by_call(calls):
    """The calls of each name on each kind of storage. A call that has several rows is numbered."""
    seen, found = Counter(), {}
    for call in calls:
        seen[call.case] += 1
        number = seen[call.case]
        found.setdefault((call.name if number == 1 else f"{call.name}-{number}", call.storage), []).append(call)
    return found


def faults_of(table, found):
    """What is wrong with the calls of a table, each on a kind of storage, at each size."""
    for (name, _), calls in found.items():
        for call in calls:
            alike = [it for it in calls if it.chunks == call.chunks or not TABLES[table]]
            costs_more = call.spent > min(it.spent for it in alike) + SLACK or call.requests != alike[0].requests
            is_one_copy = not call.is_shared and not TABLES[table]
            rules = {
                "it doesn't end well": call.outcome not in WELL,
                "it shares, and allocates more than at another size": call.is_shared and costs_more,
                "it allocates more than one copy": is_one_copy and call.spent > call.length + MORE,
                f"it ends as {alike[0].outcome} at another size": call.outcome != alike[0].outcome,
                "it allocates more often than the original's": call.requests > call.original + (not call.is_shared),
            }
            yield from (f"{table} {name} {call}: {rule}" for rule, is_broken in rules.items() if is_broken)


def faults_of_sent(calls):
    """What is wrong with the allocations of frames that are sent, of SENT."""
    found = {call.name: (call.requests, call.spent) for call in calls}
    wrong = {name: wanted for name, wanted in SENT.items() if found.get(name) != wanted}
    return [f"{name}: allocations and bytes {found.get(name)}, not {wanted}" for name, wanted in wrong.items()]


def rows_of(name, found):
    """The rows of the table: kinds of storage with the same numbers share one."""
    rows = {}
    for (call, storage), calls in found.items():
        ends = ["" if it.outcome == "Done" else it.outcome[0].lower() for it in calls]
        numbers = tuple(f"{it.requests}/{it.spent}{end}" for it, end in zip(calls, ends))
        rows.setdefault((call, numbers), []).append(storage)
    return [f"{name} {call} {' '.join(numbers)} {','.join(kinds)}" for (call, numbers), kinds in rows.items()]


# A call of each kind that is wrong: another value, a copy at the last size, an outcome, two copies.
FALSE = {
    "views": [
        Call("Clone", "Full", 1, 99, "Done", 0, 99, True),
        Call("Slice", "Bytes", 1, 9, "Wrong", 0, 0, True),
        Call("Recover", "Roomy", 1, 9, "Declined", 0, 0, True),
        Call("ToVec", "Full", 1, 9, "Done", 1, 200, False, 1),
    ],
    "texts": [
        Call("Clone", "Static", 65537, 128, "Done", 1, 9**9, True, 1),
        Call("SplitTo", "Full", 5, 4160, "Done", 2, 112, True, 1),
    ],
}


def try_false(checks, found, sent):
    """Each wrong call has to be found among the others of its kind, and each frame that allocates once more."""
    for table, call in ((table, call) for table, calls in FALSE.items() for call in calls):
        key = call.name, call.storage
        faults = faults_of(table, {key: [*found[table].get(key, []), call]})
        checks.find(f"{table} {call.name} {call.storage}", [*faults][:1])
    more = [it._replace(requests=it.requests + 1) for it in sent]
    checks.find("a frame that is sent", faults_of_sent(more), len(SENT))


def table_faults(rows, is_written):
    """What the stored table lacks, or has alone, after it is written, if it is to be."""
    if is_written:
        STORED.write_text(as_text(rows))
    stored = STORED.read_text().splitlines()
    yield from (f"not in {STORED.name}: {row}" for row in rows if row not in stored)
    yield from (f"only in {STORED.name}: {row}" for row in stored if row not in rows)


def measured(path):
    """The calls of each test, how many of its allocations failed with what is wrong then, the calls of each table at
    drawn sizes, and what `held` finds."""
    with tempfile.TemporaryDirectory() as room, ThreadPoolExecutor() as pool:
        program = Program(path, room)
        tests = [*(f"costs::{name}" for name in TABLES), *program.tests()]
        calls = dict(zip(tests, pool.map(program.calls, tests)))
        refused = [*pool.map(program.refusals, calls, calls.values())]
        drawn = {name: by_call(program.calls(f"costs::drawn::{name}", draw=commit())) for name in DRAWN}
        return calls, refused, drawn, program.held()


def main():
    reader, checks = arguments(__doc__), Checks()
    reader.add_argument("--write", action="store_true")
    reader.add_argument("--program", type=Path, default=PROGRAM)
    flags = reader.parse_args()
    if not flags.program.is_file():
        sys.exit(f"there is no {flags.program}: rt test in crates/tests_allocation builds it, and so does rt ci")
    calls, refused, drawn, (looked, faults) = measured(flags.program)
    found = {name: by_call(calls.pop(f"costs::{name}")) for name in TABLES}
    rows = [row for name in TABLES for row in rows_of(name, found[name])]
    rows += [row for test in calls for row in rows_of(test.partition("::")[0], by_call(calls[test]))]
    sent = [call for test in calls if test.startswith("streams::") for call in calls[test]]
    try_false(checks, found, sent)
    faults += [*faults_of_sent(sent), *table_faults(rows, flags.write)]
    faults += [fault for name in TABLES for fault in faults_of(name, found[name])]
    faults += [f"DRAW={commit()} {fault}" for name in DRAWN for fault in faults_of(name, drawn[name])]
    faults += [f"{test} {call}" for test in calls for call in calls[test] if call.outcome not in WELL]
    faults += [fault for _, of_test in refused for fault in of_test]
    tried = sum(number for number, _ in refused)
    compared = sum(len(calls) for of_table in (*found.values(), *drawn.values()) for calls in of_table.values())
    checks.say("costs", faults)
    checks.passed += max(0, 1 + looked + len(SENT) + tried + compared - len(faults))
    print(f"{len(rows)} rows of {sum(map(len, found.values()))} calls on kinds of storage, {tried} failed allocations")
    return checks.end()


if __name__ == "__main__":
    sys.exit(main())
