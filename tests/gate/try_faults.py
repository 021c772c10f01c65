#!/usr/bin/env python3
"""try_faults [NAME ..]

Tries the faults of tests/faults/faults.edits, or those that are named: changes of Rust and C by hand, each of which the
suite that it names has to find. A blank line separates two:

    == NAME
    by: SUITE      one of SUITES; `iobufs` with a file of rust/iobufs/tests (`unit` has the tests of its src), `bounds`
                   with a workload of its bench, `program` with tests, `loom` with a module of rust/dev/loom, `c` with a
                   file of c/tests; `unseen` is all of cargo test, which must not find it: the prover does
    file: PATH     below the top
    old: TEXT      one line, which occurs once in that file
    new: TEXT

The suites run in a copy, first without a fault. One finds a fault if it then fails, and not for an error of the
compiler, or takes a minute more than three times as long. A suite that needs a tool that is missing is left out if
IOBUFS_WITHOUT names it (cargo, bytes, tokio, loom, valgrind, cc). Ends with a line `N passed, M failed`."""
import os
import re
import shutil
import signal
import subprocess
import sys
import tempfile
import time
from pathlib import Path

sys.path.insert(0, str(Path(__file__).resolve().parents[1] / "lib"))
from common import TESTS, TOP, WITHOUT, Checks, arguments

CARGO = ["cargo", "--offline"]
OF_RUST = ["--manifest-path", "rust/Cargo.toml", "-p"]
OF_CRATE = ["--manifest-path", "rust/iobufs/Cargo.toml", "--config", "rust/iobufs/offline.toml", "--all-features"]
OF_TOKIO = ["--manifest-path", "rust/tokio/Cargo.toml", "--config", "rust/tokio/offline.toml"]
OF_LOOM = ["--manifest-path", "rust/dev/loom/Cargo.toml", "--config", "rust/dev/loom/offline.toml"]
# The command of each suite but `c`, which its further word follows.
SUITES = {
    "kit": [*CARGO, "test", *OF_RUST, "kit"],
    "tests": [*CARGO, "test", *OF_RUST, "tests", "--", "tests_buffers", "tests_callers", "failing"],
    "program": [*CARGO, "test", *OF_RUST, "iobuf"],
    "iobufs": [*CARGO, "test", *OF_CRATE, "--test"],
    "unit": [*CARGO, "test", *OF_CRATE, "--lib"],
    "strip": [*CARGO, "test", *OF_RUST, "strip"],
    "loom": [*CARGO, "test", *OF_LOOM],
    "tokio": [*CARGO, "test", *OF_TOKIO],
    "bounds": ["bench/compare", "--bounds"],
    "unseen": [*CARGO, "test", "--manifest-path", "rust/Cargo.toml"],
    "bindings": ["tests/gate/bindings.py", "--cargo", "--archive", "target/release/libiobufs.a", "--calls", "1000"],
}
OF_C = ["-Ic/include", "-DIOBUFS_BUILT=IOBUFS_BUILT_BY_CARGO", "target/debug/libiobufs.a", "-o", "target/c"]
# What a suite needs, if not cargo alone.
TOOLS = {"iobufs": {"cargo", "bytes"}, "loom": {"cargo", "loom"}, "tokio": {"cargo", "tokio"}, "c": {"cargo", "cc"}}
TOOLS["unit"] = TOOLS["iobufs"]
TOOLS |= {"bounds": {"cargo", "bytes", "valgrind"}, "bindings": {"cargo", "cc", "pkg-config"}}
NO_BUILD = "error: could not compile"  # What cargo says
SECONDS = 1200  # that a suite runs at most without a fault
RESULT = re.compile(r"^test result: ok\. (\d+) passed; 0 failed", re.M)  # test result: ok. 31 passed; 0 failed; ..


def read_faults():
    """The faults, each by its name: its suite, and what is changed."""
    for block in (TESTS / "faults/faults.edits").read_text().strip().split("\n\n"):
        title, *lines = block.splitlines()
        by, file, old, new = (line.partition(": ")[2] for line in lines)
        yield title.removeprefix("== "), (by, file, old, new)


def copy_to(room):
    """Copies what git knows of, and links what tests/fetch_crates fetched."""
    names = subprocess.run(["git", "ls-files", "-z"], cwd=TOP, capture_output=True, text=True, check=True).stdout
    for name in names.split("\0")[:-1]:
        (room / name).parent.mkdir(parents=True, exist_ok=True)
        shutil.copy(TOP / name, room / name)
    (room / "rust/out").symlink_to(TOP / "rust/out")


def commands(by):
    """The commands of a suite, of which the last one finds faults."""
    suite, *more = by.split()
    if suite == "c":
        return [*CARGO, "build", *OF_RUST, "iobufs_c"], ["cc", f"c/tests/{more[0]}.c", *OF_C], ["target/c"]
    if suite == "bindings":
        return [*CARGO, "build", "--release", *OF_RUST, "iobufs_c"], SUITES[suite]
    return [[*SUITES[suite], *more]]


def run(room, by, seconds=SECONDS):
    """Whether a suite passes, and what it says. One that doesn't end in so many seconds fails."""
    *builds, last = commands(by)
    how = {"cwd": room, "text": True}
    how["env"] = {**os.environ, "CARGO_TARGET_DIR": str(room / "target"), "IOBUFS_ROUNDS": "500"}
    if by == "bindings":
        how["env"]["IOBUFS_WITHOUT"] = "valgrind"  # It finds races, and takes long.
    for words in builds:
        done = subprocess.run(words, capture_output=True, **how)
        if done.returncode:
            return False, f"{done.stderr[-1000:]}\n{NO_BUILD}"
    pipes = {"stdout": subprocess.PIPE, "stderr": subprocess.PIPE, "start_new_session": True}
    with subprocess.Popen(last, **how, **pipes) as process:
        try:
            said = process.communicate(timeout=seconds)
        except subprocess.TimeoutExpired:
            return False, "it doesn't end"
        finally:
            if process.poll() is None:
                os.killpg(process.pid, signal.SIGKILL)  # The tests that cargo started too.
    return process.returncode == 0, "".join(said)


def try_fault(room, limits, by, file, old, new):
    """What is wrong with a fault: it can't be planted, or isn't found."""
    text = (room / file).read_text()
    if text.count(f"{old}\n") != 1:
        return [f"its 'old:' text occurs {text.count(old)} times in {file}"]
    (room / file).write_text(text.replace(f"{old}\n", f"{new}\n"))
    passes, said = run(room, by, limits.get(by, SECONDS))
    (room / file).write_text(text)
    if by == "unseen" and passes:
        print(f"unseen: {sum(map(int, RESULT.findall(said)))} tests of cargo test pass", flush=True)
    return [] if passes == (by == "unseen") and NO_BUILD not in said else [f"passes: {passes}: {said[-1000:]}"]


def main():
    reader, checks = arguments(__doc__), Checks()
    reader.add_argument("names", nargs="*")
    given, faults = reader.parse_args(), dict(read_faults())
    chosen = {name: faults[name] for name in given.names or faults}
    chosen = {name: it for name, it in chosen.items() if not TOOLS.get(it[0].split()[0], {"cargo"}) & {*WITHOUT}}
    if any(it[0].startswith(("iobufs", "unit")) for it in chosen.values()):
        checks.run("fetch_crates", [TESTS / "fetch_crates"])
    with tempfile.TemporaryDirectory() as folder:
        copy_to(room := Path(folder))
        limits = {}
        for by in dict.fromkeys(it[0] for it in chosen.values()):
            began = time.monotonic()
            passes, said = run(room, by)
            limits[by] = 60 + 3 * (time.monotonic() - began)
            checks.say(f"{by} without a fault", [] if passes else [said[-1000:]])
        file, old = "rust/iobufs/layer/deque.rs", "/// A deque, whose capacity never shrinks."
        for new, wanted in ("/// A list.", "passes: True"), ("A list.", "passes: False"):
            found = try_fault(room, limits, "kit", file, old, new)
            checks.find(f"the fault {new!r}", [it for it in found if it.startswith(wanted)])
        for name, fault in chosen.items():
            checks.say(f"the fault {name}", try_fault(room, limits, *fault))
            print(f"{fault[0]}: {name}", flush=True)
    return checks.end()


if __name__ == "__main__":
    sys.exit(main())
