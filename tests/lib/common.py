"""What the scripts of this folder share: they count checks and false samples, run commands and other scripts, read the
stored sessions, build the libraries that are loaded before a program, and call the kit's compiler."""
import argparse
import os
import re
import shutil
import subprocess
from functools import cache
from pathlib import Path

HERE = Path(__file__).resolve().parent
TESTS = HERE.parent
TOP = TESTS.parent
CRATES = TOP / "crates"
# Tools that may be missing: IOBUFS_WITHOUT="cargo valgrind".
WITHOUT = os.environ.get("IOBUFS_WITHOUT", "").split()
COUNTS = re.compile(r"(\d+) passed, (\d+) failed")  # The last line of a script: 12 passed, 0 failed


def arguments(doc):
    """A reader of a script's arguments, whose help is the script's docstring."""
    return argparse.ArgumentParser(description=doc, formatter_class=argparse.RawDescriptionHelpFormatter)


class Checks:
    """How many checks passed; each that fails is told at once."""

    def __init__(self):
        self.passed = self.failed = 0

    def say(self, name, faults):
        """Counts a check that found these faults."""
        self.passed += not faults
        self.failed += bool(faults)
        for fault in faults:
            print(f"FAILED {name}: {fault}", flush=True)

    def say_all(self, results):
        for name, faults in results:
            self.say(name, faults)

    def find(self, name, faults, number=1):
        """Counts a false input, in which this many faults have to be found."""
        found = [] if len(faults) == number else [f"{len(faults)} faults are found: {faults}"]
        self.say(f"{name} that is false", found)

    def run(self, name, words, wanted=None, limit=1800, **how):
        """Runs a command, which has to end with status 0 and, if this is given, to print just it. Returns what it
        prints, or nothing if that was wrong."""
        how |= {"capture_output": True, "text": True, "errors": "replace", "timeout": limit}
        done = subprocess.run([str(it) for it in words], **how)
        good = done.returncode == 0 and wanted in (None, done.stdout)
        self.say(name, [] if good else [f"status {done.returncode}\n{done.stdout[-2000:]}{done.stderr[-2000:]}"])
        return done.stdout if good else None

    def has(self, name, is_there=None):
        """Whether a tool is there, and isn't left out. One that is missing counts as failed, unless IOBUFS_WITHOUT
        names it."""
        is_there = shutil.which(name) is not None if is_there is None else is_there
        if not is_there:
            print(f"no {name}: what needs it is left out", flush=True)
            if name not in WITHOUT:
                self.say(f"{name} (IOBUFS_WITHOUT={name} leaves it out)", ["missing"])
        return is_there and name not in WITHOUT

    def add(self, name, words):
        """Runs another script, adds the numbers of its last line, and counts the run as a check too."""
        done = subprocess.run([str(it) for it in words], stdout=subprocess.PIPE, text=True)
        print(done.stdout, end="", flush=True)
        found = COUNTS.fullmatch((done.stdout.strip().splitlines() or [""])[-1])
        passed, failed = map(int, found.groups()) if found else (0, 1)
        self.passed, self.failed = self.passed + passed, self.failed + failed
        self.say(name, [f"status {done.returncode}, {failed} failed"] * (done.returncode != 0 or failed > 0))

    def end(self):
        """Prints how many passed and failed, and returns the status."""
        print(f"{self.passed} passed, {self.failed} failed")
        return self.failed > 0


@cache
def commit():
    """The checksum of the commit, by which cases are drawn."""
    words = ["git", "rev-parse", "HEAD"]
    return subprocess.run(words, cwd=HERE, capture_output=True, text=True, check=True).stdout.strip()


@cache
def uses():
    """Each crate of crates.txt with those that it uses, the kit's too."""
    rows = [line.split("#")[0].partition(":") for line in (TOP / "crates.txt").read_text().splitlines()]
    return {name.split()[0]: used.split() for name, colon, used in rows if colon}


@cache
def below(crate):
    """The crates of this repository that a crate needs, each after those that it needs itself."""
    own = [it for it in uses()[crate] if it in uses()]
    return list(dict.fromkeys(it for dep in own for it in [*below(dep), dep]))


@cache
def kit():
    """The folder of the kit."""
    return Path(shutil.which("rt")).resolve().parent.parent


def rattle(action, crate, *more):
    """The command of the kit that checks or builds a crate, in its folder or a copy, over what rt ci leaves in out/."""
    root = "main" if (CRATES / crate / "src/main.rt").is_file() else "lib"
    is_static = f"\n{crate} staticlib:" in (TOP / "crates.txt").read_text()
    words = [kit() / "bin/rattle", action, "--crate-name", crate, f"src/{root}.rt"]
    for name in ["std", *uses()[crate]]:
        folder = CRATES / name / "out/rlib" if name in uses() else kit() / "rlibs"
        words += ["--extern", f"{name}={folder / name}.rlib"]
    for folder in [kit() / "rlibs", *(CRATES / it / "out/rlib" for it in below(crate))]:
        words += ["-L", f"dependency={folder}"]
    words += ["--antt-project", kit() / "rattle/logic/antt-project.json", "--logic-built", kit() / "logic_built"]
    return [*words, "--links", f"{crate}=", "--jobs", "1", *["--crate-type", "staticlib"] * is_static, *more]


def sessions_of(path):
    """The sessions of a file, between blank lines: each line with its reply, if it has one, without comments."""
    lines = "\n".join(it for it in path.read_text().splitlines() if not it.startswith("#"))
    blocks = (block.strip().splitlines() for block in lines.split("\n\n"))
    return [[tuple(line.partition(" -> ")[::2]) for line in block] for block in blocks if block]


def stored_sessions():
    """The stored sessions: the name, the half of the program, and each line with its reply."""
    for path in sorted([*TESTS.glob("rows/*.*"), *TESTS.glob("sessions/*")]):
        if path.name != "machines.owner":  # It has no replies: tests/gate/refuse.py compares a run of it with another.
            for number, lines in enumerate(sessions_of(path), 1):
                yield f"{path.name}, session {number}", path.suffix[1:], lines


def as_text(lines):
    return "".join(f"{line}\n" for line in lines)


def library(name, room):
    """The library of NAME.c, built in this folder."""
    made = Path(room) / f"{name}.so"
    subprocess.run(["cc", "-O2", "-shared", "-fPIC", "-o", made, HERE / f"{name}.c"], check=True)
    return made
