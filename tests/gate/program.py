#!/usr/bin/env python3
"""program [--program PATH] [--null]

Runs the program iobuf over faults that only a C library makes, and compares what it prints, its messages and its status
with those expected. rust/iobuf/tests/program.rs runs the sessions, bad lines and large inputs.

1. An output that takes only its first bytes, an input that fails in the middle, closed descriptors.
2. The library interrupt.c interrupts each read and write a thousand times in a row, or has it take at most 7 bytes.

PATH is crates/iobuf/out/iobuf, as rt ci and rt run leave it there, if it isn't given. With --null its runtime opens
/dev/null in the place of an input or output that is closed, as Rust's std does. Ends with `N passed, M failed`."""
import os
import pty
import resource
import signal
import subprocess
import sys
import tempfile
import tty
from pathlib import Path

sys.path.insert(0, str(Path(__file__).resolve().parents[1] / "lib"))
from common import CRATES, Checks, arguments, library

PROGRAM = CRATES / "iobuf/out/iobuf"
SECONDS = 120
CANNOT = b"cannot continue\n"
LINES = 20_000  # of a session that is interrupted

# Sessions of both halves that end with a line that is no command: the input, the replies and the message.
SESSIONS = [
    ("buf", b"new 0 4 1\n" + b"show 0\n" * LINES + b"show\n", b"ok\n" + b"part -+4\n" * LINES, LINES + 2),
    ("buf", b"new 0 4 1\nshow\n", b"ok\n", 2),
    ("owner", b"machine 1 9 64\nstop\n", b"ok\n", 2),
]


def run(program, half, text, **how):
    """What is printed (nothing if it goes elsewhere), the message and the status."""
    how = {"stdout": subprocess.PIPE, "stderr": subprocess.PIPE, **({} if "stdin" in how else {"input": text}), **how}
    done = subprocess.run([program, half], timeout=SECONDS, **how)
    return done.stdout or b"", done.stderr or b"", done.returncode


def faults(ran, *wanted):
    """What is wrong with a run that has to print, say and end with these."""
    return [f"{got!r:.80}, not {it!r:.80}" for got, it in zip(ran, wanted, strict=True) if got != it]


def limit_files(most):
    """No file gets longer than this; a write past it fails."""
    signal.signal(signal.SIGXFSZ, signal.SIG_IGN)
    resource.setrlimit(resource.RLIMIT_FSIZE, (most, most))


def short_outputs(program):
    """Outputs that take only the first bytes of the replies."""
    with open("/dev/full", "wb") as full:
        for most in range(6):
            with tempfile.TemporaryFile() as file:
                how = {"stdout": file, "stderr": full, "preexec_fn": lambda: limit_files(most)}
                ran = run(program, "buf", b"new 0 1 1\nnew 1 1 1\n", **how)
                file.seek(0)
                yield f"an output of {most} bytes", faults((file.read(), *ran[1:]), b"ok\nok\n"[:most], b"", 3)


def broken_streams(program, opens_null):
    """An input that fails after some lines, and descriptors that are closed."""
    terminal, lines = pty.openpty()
    tty.setraw(lines)
    os.write(lines, b"new 0 1 1\nshow 0\nshow")
    os.close(lines)
    ran = run(program, "buf", b"", stdin=terminal)
    yield "an input that fails in a line", faults(ran, b"ok\npart -+1\n", CANNOT, 3)
    os.close(terminal)
    # A closed output can't be told from a full one; of a closed standard error nothing is told.
    fails = (b"", b"", 0) if opens_null else (b"", CANNOT, 3)
    for number, text, wanted in [(0, b"", fails), (1, b"new 0 1 1\n", fails), (2, b"new\n", (b"", b"", 2))]:
        ran = run(program, "buf", text, preexec_fn=lambda: os.close(number))
        yield f"descriptor {number} closed", faults(ran, *wanted)


def interrupted(program):
    """Sessions of both halves, interrupted a thousand times at each read and write."""
    with tempfile.TemporaryDirectory() as room:
        interrupt, told = str(library("interrupt", room)), Path(room) / "interrupted"
        for half, text, printed, line in SESSIONS:
            wanted, name = (printed, b"line %d: bad command\n" % line, 2), f"{line} lines of {half}"
            env = {"LD_PRELOAD": interrupt, "INTERRUPT": "1000", "INTERRUPTED": str(told)}
            found = faults(run(program, half, text, env=env), *wanted)
            number = int(told.read_text()) if told.is_file() else 0
            yield f"{name}, interrupted", found + [f"{number} interruptions"] * (number < 3000)
            ran = run(program, half, text, env={"LD_PRELOAD": interrupt, "AT_MOST": "7"})
            yield f"{name}, at most 7 bytes in each read and write", faults(ran, *wanted)


def main():
    reader, checks = arguments(__doc__), Checks()
    reader.add_argument("--program", default=PROGRAM)
    reader.add_argument("--null", action="store_true")
    given = reader.parse_args()
    checks.say_all(short_outputs(given.program))
    checks.say_all(broken_streams(given.program, given.null))
    checks.say_all(interrupted(given.program))
    return checks.end()


if __name__ == "__main__":
    sys.exit(main())
