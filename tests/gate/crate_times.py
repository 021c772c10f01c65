#!/usr/bin/env python3
"""crate_times COMMAND..

Runs a command, such as `rt ci`, without the lines that say that something is proved as it should be, or that a test
prints. Says which crates are in work as these change. Prints before the last line those again that say what failed, and
the CPU seconds that the prover's processes in this tree took for each crate and its tests, the slowest first. It looks
once a second, so a process of less than a second isn't seen. Ends with the command's status."""
import os
import re
import subprocess
import sys
import threading
import time
from collections import Counter
from pathlib import Path

sys.path.insert(0, str(Path(__file__).resolve().parents[1] / "lib"))
from common import TOP, uses

TICKS = os.sysconf("SC_CLK_TCK")
# Lines that say nothing new, how a crate's last one is, and what a line has that says what failed.
ROUTINE = re.compile(r"(statements |by-macro: |logic |    ).*|.*: proved(, may abort)?$|test .* ok$")
DONE = re.compile(r"rt: \w+ proved$")
FAILURES = ("error:", ": not proved", "it is not proved that", "FAILED", "NOT REFUSED")


class Watch:
    """Watches the prover's processes: the ticks of each by its number and its crate, and the crates in work."""

    def __init__(self):
        self.spent, self.working, self.began, self.done = {}, set(), time.monotonic(), 0

    def look(self):
        working = set()
        for process in Path("/proc").glob("[0-9]*"):
            try:
                words = (process / "cmdline").read_text().split("\0")
                is_ours = os.readlink(process / "cwd").startswith(f"{TOP}/")
                if is_ours and "--crate-name" in words and "rattle" in words[0]:
                    ticks = (process / "stat").read_text().rpartition(")")[2].split()[11:13]
                    name = words[words.index("--crate-name") + 1] + " (tests)" * ("--test" in words)
                    self.spent[process.name, name] = sum(map(int, ticks))
                    working.add(name)
            except OSError:
                continue  # It has ended.
        if working and working != self.working:
            minutes, now = (time.monotonic() - self.began) / 60, ", ".join(sorted(working))
            print(f"{minutes:.0f} min, {self.done} of {len(uses())} crates done, in work: {now}", flush=True)
        self.working = working

    def run(self, ended):
        while not ended.wait(1):
            self.look()

    def table(self):
        """A line for each crate with its seconds."""
        crates = Counter()
        for (_, name), ticks in self.spent.items():
            crates[name] += ticks / TICKS
        return [f"{seconds:7.0f} CPU seconds: {name}" for name, seconds in crates.most_common()]


def main():
    watch, ended, last, failures = Watch(), threading.Event(), "", []
    watcher = threading.Thread(target=watch.run, args=(ended,))
    watcher.start()
    with subprocess.Popen(sys.argv[1:], stdout=subprocess.PIPE, text=True) as command:
        for line in command.stdout:
            watch.done += bool(DONE.match(line))
            failures += [line] * any(it in line for it in FAILURES)
            if not ROUTINE.match(line):
                print(last, end="", flush=True)
                last = line
    ended.set()
    watcher.join()
    print("".join(failures[-20:]), end="")
    print("\n".join(watch.table()))
    print(last, end="")
    return command.returncode


if __name__ == "__main__":
    sys.exit(main())
