#!/usr/bin/env python3
"""bindings [--cargo] [--archive FILE] [--calls N]

Builds and runs the tests of the buffers for C, over crates/iobufs_c/out/libiobufs_c.a, or FILE. rt ci proves a static
library, and builds none, so it is built first if it is older than its sources: that proves it once more, except for
what crates/iobufs_c/out/incremental keeps. With --cargo the library is what cargo builds of the proved source in
rust/c. It is installed (c/install) into a folder of its own, and into some with odd names. Wrong words, and an
archive of the other builder, are refused. An install that can't write or rename a file changes none, one with DESTDIR
stays below it, and programs are linked while others run. Of cargo's, the archive links beside another one of Rust, and
a program runs with the shared library. Header, manifests and pkg-config have one version. And then

1. the header is read as C99 and as C++. It has each call that the library exports, and no other, each with a comment
   of its own and is called in c/tests/calls.c, protocols.c or test.h; those that only look are in threads.c too. The
   types of each prototype are those that the signature in Rattle gives, and `const` is where a clause says that all
   stays. A call that returns a status has a clause that says which, and those that its clauses list are those of the
   line `Fails:` in its comment. Its sizes are those of the contracts. A status that is ignored is warned of. The
   program of docs/C.md is built and run as it says, below a folder with a space, and static; of cargo's archive it is
   small;
2. of c/tests: `calls`, `sizes` and `protocols` under AddressSanitizer; `refused`, which fails each allocation in
   turn: these four meet each status of a line `Fails:`, except those that are `(reserved)` there or in UNMET;
   `threads`, eight on views of one block, and eight that only look at the same buffers, by itself and under valgrind's
   helgrind; `fuzz`, ten million random calls compared with a plain model, or N; `pipe`, a sender and a reader over a
   socketpair, and the same by plain copies; and `single`, which prints what single calls cost, for a few calls. The
   program c/examples/frames.c prints frames.

A tool that is missing (cc, c++, pkg-config, valgrind or cargo) counts as failed, unless the variable IOBUFS_WITHOUT
names it, as in IOBUFS_WITHOUT="cargo valgrind"; what needs it is left out. After each part it says how long that
took, and how many CPU seconds. Ends with a line `N passed, M failed`."""
import os
import re
import subprocess
import sys
import tempfile
import time
from contextlib import contextmanager
from pathlib import Path

sys.path.insert(0, str(Path(__file__).resolve().parents[1] / "lib"))
import common
from common import CRATES, TOP, arguments, below, kit, rattle
from pages.header import HANDLES

C = TOP / "c/tests"
HEADER = (TOP / "c/include/iobufs.h").read_text()
WRAP = ["-Wl,--wrap=malloc,--wrap=calloc,--wrap=realloc,--wrap=free"]
STRICT = ["-std=c99", "-Wall", "-Wextra", "-pedantic", "-Werror", "-Wno-unused-function"]
ASAN = ["-fsanitize=address,undefined"]

# An export, with its signature and clauses: pub extern "C" fn iobuf_len(src: &mut ViewAt) -> usize\n    ensures ..\n{
EXPORT = re.compile(r'^pub (?:unsafe )?extern "C" fn (\w+)(.*?)^\{', re.M | re.S)
# A clause that says which statuses a call may return: ensures memory { IsDoneUnless result Status.Memory }
BOUND = re.compile(r"IsDoneUnless|IsReadCode|IsViewReadCode|\bTakes\w+|result\s+≡ \(if|result ≡ 0 \}|⊎")
STATUS = re.compile(r"\bStatus\.(\w+)")  # A status in a clause: Status.TooLong
TAKES = re.compile(r"\bTakes\w+")  # The relations of a call that takes a frame
TAKING = ["EndOfBuffer", "InvalidLength", "InvalidVarint", "Memory"]  # Their statuses, by IsTold and TakesFirst
# The size of a handle's memory in a contract, and in the header: #define IOBUF_SIZE 48
OWN_SIZE = re.compile(r"value \{ result ≡ (\d+) \}")
SIZE = re.compile(r"^#define (\w+_SIZE) (\d+)$", re.M)
CAPITAL = re.compile(r"(?<=.)(?=[A-Z])")  # Before a capital that isn't the first letter: Too|Long
# A call that the header declares, and the comment before it: /* Drops it. */\nvoid iobuf_drop(struct iobuf_at *src);
DECLARED = re.compile(r"(?:/\*((?:(?!\*/).)*)\*/\n)?^\w[\w ]*[ *](\w+)\([^;{}]*\);\n", re.M | re.S)
# A call that only looks at a buffer, or lends its bytes: size_t iobuf_len(const struct iobuf_at *src);
LOOKS = re.compile(r"^\w[\w ]*[ *](\w+)\(const struct \w+_at \*|^size_t (\w+_chunk)\(", re.M)
# A function that the header defines: static inline uint16_t iobufs_swap16(uint16_t n) {\n    ..\n}
INLINE = re.compile(r"^static inline .*?^}", re.M | re.S)
# A status of the header: IOBUFS_MEMORY = 1,         /* an allocation failed */
CODE = re.compile(r"IOBUFS_([A-Z_]+) = (\d),? +/\*")
# The part of a comment that says when a call fails: Fails: IOBUFS_MEMORY (reserved). Keeps: ..
FAILS = re.compile(r"Fails:(.*?)(?:Keeps:|$)")
# A status there, at the start or after a semicolon: IOBUFS_TOO_LONG if ..; IOBUFS_MEMORY (reserved).
FAILURE = re.compile(r"(?:^|;) IOBUFS_([A-Z_]+)( \(reserved\))?")
WORD = re.compile(r"\w+")  # A word of a program in C: iobuf_len

# Statuses that no test meets, and their calls: it takes 2^64 bytes, or 2^63.
UNMET = {
    "TOO_LONG": "iobufs_append iobufs_prepend iobufs_builder_push iobufs_frames_feed iobufsmut_from_parts",
    "BAD_LAYOUT": "iobufs_coalesce iobufsmut_coalesce",
}
# Cargo's build allocates there only for a body in a block above 64 KiB, which no test refuses.
UNMET_BY_CARGO = {("iobufs_received_next", "MEMORY"), ("iobufs_received_next_whole", "MEMORY")}


class Checks(common.Checks):
    """Checks of what is installed below a folder, built by the kit or by cargo."""

    def __init__(self, prefix, build):
        super().__init__()
        self.prefix, self.build_by = prefix, build
        self.install = [TOP / "c/install", *["--cargo"] * (build == "cargo")]

    def build(self, name, flags, source=None):
        """Builds a test of c/tests, and returns the program, if it was built."""
        program = self.prefix / name
        words = ["cc", "-g", f"-I{self.prefix}/include", source or C / f"{name.partition('-')[0]}.c", "-o", program]
        built = self.run(f"cc {name}", [*words, *flags, self.prefix / "lib/libiobufs.a"])
        return program if built is not None else None


@contextmanager
def timed(name):
    """Says what a part took."""
    began, used = time.monotonic(), os.times()
    yield
    now = os.times()
    spent = now.children_user + now.children_system - used.children_user - used.children_system
    print(f"{name}: {time.monotonic() - began:.0f} seconds, {spent:.0f} of processors", flush=True)


def library(checks):
    """The static library, built by rattle itself over the libraries that rt ci leaves in out/, if it is older than what
    it is made of. (rt lib would prove those libraries again.)"""
    crate = CRATES / "iobufs_c"
    archive = crate / "out/libiobufs_c.a"
    made_of = [it for folder in ("src", "specs", "proofs") for it in (crate / folder).rglob("*.*")]
    made_of += [CRATES / it / f"out/rlib/{it}.rlib/format" for it in below("iobufs_c")]
    if archive.is_file() and all(it.is_file() and it.stat().st_mtime <= archive.stat().st_mtime for it in made_of):
        return archive
    archive.parent.mkdir(exist_ok=True)
    how = ["--incremental", "out/incremental", "--toolchain", kit() / "toolchain", "--backend", "llvm", "-o", archive]
    built = checks.run("rattle build", rattle("build", "iobufs_c", *how), limit=3600, cwd=crate)
    return archive if built is not None else None


def cargo_library(checks):
    """The static library that cargo builds of the proved source."""
    words = ["cargo", "build", "--release", "--quiet", "--offline", "-p", "iobufs_c"]
    built = checks.run("cargo build", [*words, "--manifest-path", TOP / "rust/Cargo.toml"])
    return TOP / "rust/target/release/libiobufs.a" if built is not None else None


def exports():
    """Each export with its signature and clauses."""
    return dict(EXPORT.findall("".join(it.read_text() for it in (CRATES / "iobufs_c/src").glob("*.rt"))))


def in_c(status):
    """The name of a status in the header: of TooLong it is TOO_LONG."""
    return CAPITAL.sub("_", status).upper()


def statuses_in_contracts():
    """The statuses that the clauses of each export list, in the header's words, if it returns one."""
    with_status = {name: clauses for name, clauses in exports().items() if " -> u8\n" in clauses}
    taking = {name: TAKING if TAKES.search(clauses) else [] for name, clauses in with_status.items()}
    return {name: {*map(in_c, STATUS.findall(clauses) + taking[name])} for name, clauses in with_status.items()}


def failures_of(comment):
    """The statuses after `Fails:` in a comment of the header, and whether each is reserved."""
    found = FAILS.search(" ".join(comment.replace("\n *", " ").split()))
    return {status: bool(reserved) for status, reserved in FAILURE.findall(found[1])} if found else {}


def statuses_in_comments():
    """The statuses of the line `Fails:` of each call of the header, and whether each is reserved."""
    return {name: failures_of(comment) for comment, name in DECLARED.findall(HEADER)}


# What a parameter of an export, or its result, is in C. A buffer's handle is const in a call that leaves it the same,
# except one that lends bytes to write.
IN_C = {
    "": "void", "usize": "size_t", "bool": "bool", "u32": "uint32_t", "u64": "uint64_t", "&mut u64": "uint64_t *",
    "&mut usize": "size_t *", "&mut *const u8": "const uint8_t **", "&mut *mut u8": "uint8_t **",
    "&[u8]": "const uint8_t *, size_t", "&'static [u8]": "const uint8_t *, size_t", "&mut [u8]": "uint8_t *, size_t",
    "&mut [Chunk]": "struct iobufs_iovec *, size_t", "&mut [PartAt]": "struct iobufmut_at *, size_t",
    "&LayoutInC": "const struct iobufs_layout *",
}
LENDING = ("iobufmut_chunk", "iobufsmut_chunk")
# The parameters of an export, its result and its clauses: (src: &mut ViewAt) -> usize\n    ensures ..
SIGNATURE = re.compile(r"\((.*?)\)(?: -> (\w+))?\n(.*)", re.S)
# A prototype of the header: its result, its name and its parameters.
PROTOTYPE = re.compile(r"^((?:IOBUFS_CHECKED )?\w+) (\w+)\(([^;{}]*)\);", re.M)
NAMED = re.compile(r"\w+$")  # The name of a parameter in C, or of one without a name


def type_in_c(call, name, rust, clauses):
    """The types in C of an export's parameter."""
    handle = HANDLES.get(rust.removeprefix("&mut "))
    if handle:
        same = f"({name}.new.at ≡ {name}.old.at) × ({name}.new.value ≡ {name}.old.value)"
        kept = f"{{ {same}" in clauses or f"same {{ {name}.new.value ≡ {name}.old.value }}" in clauses
        return f"{'const ' * (kept and call not in LENDING)}struct {handle}_at *"
    return {"*mut u8": f"struct {call.removesuffix('_init')} *", "u8": "uint8_t"}.get(rust) or IN_C[rust]


def prototypes_of_sources():
    """The types in C of each export's result and parameters, of its signature in Rattle."""
    for call, text in exports().items():
        params, result, clauses = SIGNATURE.match(text).groups()
        pairs = [it.strip().split(": ", 1) for it in params.split(",") if it.strip()]
        types = [type_in_c(call, *it, clauses) for it in pairs if it[1] != "Global"]
        made = "IOBUFS_CHECKED iobufs_status" if result == "u8" else IN_C[result or ""]
        yield call, (made, ", ".join(types) or "void")


def prototypes_of_header():
    """The types of each prototype's result and parameters."""
    for result, call, params in PROTOTYPE.findall(HEADER):
        types = [NAMED.sub("", it.strip()).strip() or it.strip() for it in params.split(",")]
        yield call, (result, ", ".join(types))


def sizes_in_contracts():
    """The size of each handle's memory in the kit's build, as the header names it."""
    sizes = {name: OWN_SIZE.search(clauses) for name, clauses in exports().items() if name.endswith("_size")}
    return {name.upper(): found[1] for name, found in sizes.items() if found}


def faults_of_header():
    """Calls that aren't exported, declared, commented or tested, statuses that contract and comment don't share, and
    sizes that aren't those of the kit's build, which are the larger ones."""
    comments = {name: comment for comment, name in DECLARED.findall(HEADER)}
    called = "".join((C / it).read_text() for it in ("calls.c", "protocols.c", "test.h"))
    called += "".join(INLINE.findall(HEADER))
    looks = {"".join(it) for it in LOOKS.findall(HEADER)}
    at_once = "".join((C / it).read_text() for it in ("threads.c", "test.h"))
    promised = statuses_in_contracts()
    faults = {
        "isn't declared": exports().keys() - comments.keys(),
        "isn't exported": comments.keys() - exports().keys(),
        "has no comment": {name for name, comment in comments.items() if not comment},
        "isn't called by c/tests/calls.c or protocols.c": exports().keys() - {*WORD.findall(called)},
        "isn't called by c/tests/threads.c": looks - {*WORD.findall(at_once)},
        "has no clause on its status": {name for name in promised if not BOUND.search(exports()[name])},
    }
    yield from (f"{name} {fault}" for fault, names in faults.items() for name in sorted(names))
    declared = dict(prototypes_of_header())
    yield from (f"{name} is {types} in the sources, and {declared.get(name)} here"
                for name, types in prototypes_of_sources() if declared.get(name) != types)
    yield from (f"{name} {size} isn't both proved and there" for name, size in
                sorted({*sizes_in_contracts().items()} ^ {*SIZE.findall(HEADER)}))
    for name, statuses in statuses_in_comments().items():
        if statuses.keys() != promised.get(name, set()):
            yield f"{name} fails by {sorted(promised.get(name, []))}, and its comment has {sorted(statuses)}"


def recorder(checks):
    """Writes what records the statuses that calls return, over c/tests/recorder.h, and returns the flags to include
    it before a test."""
    names = sorted(statuses_in_contracts())
    numbered = "".join(f'    "{name}",\n' for name in names)
    made = f'static const char *const names[] = {{\n{numbered}}};\n#include "{C}/recorder.h"\n'
    made += "".join(f"#define {name}(...) meet({i}, ({name})(__VA_ARGS__))\n" for i, name in enumerate(names))
    (checks.prefix / "recorder.h").write_text(made)
    return ["-include", checks.prefix / "recorder.h"]


def unmet(lines, build):
    """Statuses that a call's clauses list and no test met, and those that were met, but are reserved or in UNMET."""
    codes = {code: name for name, code in CODE.findall(HEADER)}
    met = {(name, codes[code]) for name, code in map(str.split, lines)}
    wanted = {(name, it) for name, statuses in statuses_in_contracts().items() for it in {"OK", *statuses}}
    left = {(name, status) for status, names in UNMET.items() for name in names.split()}
    for name, statuses in statuses_in_comments().items():
        left |= {(name, status) for status, is_reserved in statuses.items() if is_reserved}
    left |= UNMET_BY_CARGO if build == "cargo" else set()
    yield from (f"{name} never returns {status}" for name, status in sorted(wanted - met - left))
    yield from (f"{name} has no {status}, which UNMET has" for name, status in sorted(left - wanted))
    yield from (f"{name} returns {status}, which is reserved or in UNMET" for name, status in sorted(met & left))


def refusals(checks, archive):
    """What install refuses: wrong words, and an archive of the other builder."""
    source, other = checks.prefix / "other.c", checks.prefix / "other.a"
    source.write_text("int rust_eh_personality;\n" if checks.build_by == "kit" else "int other;\n")
    subprocess.run(["cc", "-c", source, "-o", source.with_suffix(".o")], check=True)
    subprocess.run(["ar", "rcs", other, source.with_suffix(".o")], check=True)
    to = checks.prefix / "refused"
    cases = [([], archive), ([to, "--cargo"], archive), ([to, to], archive), (["--static", to], archive), ([to], other)]
    cases += [(["--shared", to], archive)] * (checks.build_by == "kit")
    for words, source in cases:
        place = {**os.environ, "ARCHIVE": str(source)}
        done = subprocess.run([*checks.install, *words], env=place, capture_output=True)
        good = done.returncode == 1 and done.stderr.startswith(b"install: ") and not to.exists()
        checks.say(f"install {words} of {source}", [] if good else [f"status {done.returncode}: {done.stderr}"])


# A tool that writes half of the file that FULL names, and fails, or that doesn't rename a new file to HELD; any other
# file as cp, ln or mv does.
FULL = """#!/bin/sh
for to; do from=${last-}; last=$to; done
case $to in */older/$FULL.new.*) echo half >"$to"; exit 1 ;; esac
case $from:$to in *.new.*:*/older/$HELD) exit 1 ;; esac
exec /bin/${0##*/} "$@"
"""


def whole(checks, archive):
    """An install that can't write or rename one of its files leaves all those of the older one, and no other. One that
    can't rename a file where none is leaves none."""
    older, tools = checks.prefix / "older", checks.prefix / "tools"
    tools.mkdir()
    for tool in ("cp", "ln", "mv"):
        (tools / tool).write_text(FULL)
        (tools / tool).chmod(0o755)
    words = [*checks.install, *["--shared"] * (checks.build_by == "cargo"), older]
    place = {**os.environ, "ARCHIVE": str(archive)}
    checks.run("the older install", words, env=place)
    files = sorted(it for it in older.rglob("*") if not it.is_dir())
    for file in files:
        if not file.is_symlink():
            file.write_bytes(b"older")
    place["PATH"] = f"{tools}:{place['PATH']}"
    for word, file in ((word, file) for word in ("FULL", "HELD") for file in files):
        which = {"FULL": "", "HELD": "", word: str(file.relative_to(older))}
        ended = subprocess.run(words, env={**place, **which}, capture_output=True)
        left = sorted(it for it in older.rglob("*") if not it.is_dir())
        good = ended.returncode == 1 and left == files and all(it.read_bytes() == b"older" for it in files)
        checks.say(f"an install with {which}", [] if good else [ended.stderr, *left])
    for file in files:
        file.unlink()
    ended = subprocess.run(words, env={**place, "FULL": "", "HELD": "lib/pkgconfig/iobufs.pc"}, capture_output=True)
    left = [it for it in older.rglob("*") if not it.is_dir()]
    checks.say("a first install that can't rename", left if ended.returncode == 1 else [ended.stderr])


def staged(checks, archive):
    """With DESTDIR all files are below the stage, and iobufs.pc names the final folder."""
    stage, prefix = checks.prefix / "a stage", "/opt/some iobufs"
    place = {**os.environ, "ARCHIVE": str(archive), "DESTDIR": str(stage)}
    checks.run("install with DESTDIR", [*checks.install, prefix], env=place)
    files = {str(it.relative_to(stage)) for it in stage.rglob("*") if it.is_file()}
    wanted = {f"opt/some iobufs/{it}" for it in ("lib/libiobufs.a", "include/iobufs.h", "lib/pkgconfig/iobufs.pc")}
    checks.say("files of install with DESTDIR", files ^ wanted)
    lines = (stage / "opt/some iobufs/lib/pkgconfig/iobufs.pc").read_text().splitlines()
    checks.say("prefix with DESTDIR", [] if lines[0] == f"prefix={prefix}" else lines)
    checks.say("prefix with DESTDIR", [prefix] if Path(prefix).exists() else [])


def links(checks, archive):
    """A program is linked while five installs run."""
    place = {**os.environ, "ARCHIVE": str(archive)}
    source = checks.prefix / "link.c"
    source.write_text("#include <iobufs.h>\nint main(void) { return iobufs_build() > 1; }\n")
    words = ["cc", f"-I{checks.prefix}/include", source, "-o", checks.prefix / "link", f"-L{checks.prefix}/lib"]
    words += ["-liobufs", "-lpthread", "-lm", "-ldl"]
    running = subprocess.Popen(["sh", "-ec", 'for i in 1 2 3 4 5; do "$@"; done', "sh", *checks.install, checks.prefix],
                               env=place, stdout=subprocess.DEVNULL)
    failed, count = [], 0
    while running.poll() is None:
        done, count = subprocess.run(words, capture_output=True, text=True), count + 1
        failed += [done.stderr[-300:]] * (done.returncode != 0)
    checks.say(f"{count} links while five installs run", failed + ["no install"] * (running.returncode != 0))


OTHER = "#[unsafe(no_mangle)]\npub extern \"C\" fn other(n: u32) -> u32 {\n    println!(\"other {n}\");\n    n + 1\n}\n"
BESIDE = """#include <iobufs.h>
#include <stdio.h>
unsigned other(unsigned);
int main(void) {
    struct iobuf_at view = IOBUF_INIT;
    iobuf_from_static((const uint8_t *)"ab", 2, &view);
    printf("%u %zu\\n", other(1), iobuf_len(&view));
    iobuf_drop(&view);
    return 0;
}
"""


def neighbours(checks, archive):
    """Cargo's archive has the header's names alone, and links beside another archive of Rust, of each rustc that is
    there, in both orders; a program runs with the shared library, from another folder."""
    printed = checks.run("nm", ["nm", "-g", "--defined-only", checks.prefix / "lib/libiobufs.a"]) or ""
    found = {line.split()[-1] for line in printed.splitlines() if len(line.split()) == 3}
    others = found ^ statuses_in_comments().keys()
    checks.say("names of libiobufs.a", [f"{name} isn't in both the header and the library" for name in others])
    rust, source = checks.prefix / "other.rs", checks.prefix / "beside.c"
    rust.write_text(OTHER)
    source.write_text(BESIDE)
    ours, include, program = checks.prefix / "lib/libiobufs.a", f"-I{checks.prefix}/include", checks.prefix / "beside"
    for rustc in filter(lambda it: it == "rustc" or it.is_file(), ("rustc", TOP / "rust/out/rustc/rustc")):
        other = checks.prefix / "libother.a"
        checks.run("rustc", [rustc, "--crate-type", "staticlib", "--edition", "2024", "-O", rust, "-o", other])
        for pair in (ours, other), (other, ours):
            checks.run("cc", ["cc", include, source, *pair, "-o", program, "-lpthread", "-lm", "-ldl"])
            checks.run("a program with two archives of Rust", [program], wanted="other 1\n2 2\n")
    shared = checks.prefix / "with shared"
    place = {**os.environ, "ARCHIVE": str(archive)}
    checks.run("install --shared", [*checks.install, "--shared", shared], env=place)
    version = re.search(r'IOBUFS_VERSION "(\d+\.\d+)', HEADER)[1]
    link = os.readlink(shared / "lib/libiobufs.so")
    checks.say("the link libiobufs.so", [] if link == f"libiobufs.so.{version}" else [link])
    words = [include, checks.prefix / "link.c", f"-L{shared}/lib", "-liobufs", "-o", checks.prefix / "shared"]
    checks.run("cc with libiobufs.so", ["cc", *words])
    needed = checks.run("readelf", ["readelf", "-d", checks.prefix / "shared"]) or ""
    checks.say("SONAME", [] if f"[libiobufs.so.{version}]" in needed else [needed])
    found = {**os.environ, "LD_LIBRARY_PATH": str(shared / "lib")}
    checks.run("a program with libiobufs.so", [checks.prefix / "shared"], env=found, cwd="/")


def versions(checks):
    """Header, manifests and pkg-config have one version. The last says who built the library, and what it needs."""
    files = [TOP / "rust/Cargo.toml", TOP / "rust/iobufs/Cargo.toml", TOP / "rust/tokio/Cargo.toml"]
    found = {re.search(r'^version = "(.*)"', file.read_text(), re.M)[1] for file in files}
    found |= {*re.findall(r'IOBUFS_VERSION "(.*)"', HEADER)}
    lines = (checks.prefix / "lib/pkgconfig/iobufs.pc").read_text()
    found |= {*re.findall(r"^Version: (.*)", lines, re.M)}
    checks.say("versions", [] if len(found) == 1 else [sorted(found)])
    libs = ["-lpthread", "-lm", "-ldl"] if checks.build_by == "cargo" else []
    checks.say("the builder in iobufs.pc", [] if f"\nbuild={checks.build_by}\n" in lines else [lines])
    said = re.search(r"^Libs: (.*)", lines, re.M)[1]
    checks.say("libraries of iobufs.pc", [] if said.split()[1:] == ["-liobufs", *libs] else [said])


def installs(checks, archive):
    """A folder with any name gets the library, and nothing else; a damaged archive is refused."""
    damaged = checks.prefix / "damaged.a"
    damaged.write_bytes(Path(archive).read_bytes()[:1000])
    outer, room = checks.prefix / "others", checks.prefix / "room"
    outer.mkdir()
    room.mkdir()
    cases = [("in st", archive, True), ("ü", archive, True), ("no", damaged, False)]
    cases += [(name, archive, False) for name in ("ha#sh", 'quo"te', "new\nline", "dol$lar")]
    for name, source, wanted in cases:
        place = {**os.environ, "ARCHIVE": str(source), "TMPDIR": str(room)}
        status = subprocess.run([*checks.install, outer / name], env=place, capture_output=True).returncode
        is_there = (outer / name / "lib/libiobufs.a").is_file()
        good = (status == 0) == is_there == wanted
        checks.say(f"install below {name!r}", [] if good else [f"status {status}, there: {is_there}"])
    checks.say("files of install", {it.name for it in outer.iterdir()} - {"in st", "ü"})
    checks.say("temporary files of install", [*room.iterdir()])


# A status that nobody looks at, of an export and of an inline call.
IGNORES = """#include <iobufs.h>
void f(struct iobuf_at *view) { iobuf_advance(view, 1); }
void g(struct iobufmut_at *part) { iobufmut_put_u16(part, 1); }
"""


def ignored(checks):
    """A compiler that is told to takes an ignored status for an error, at an export and at an inline call."""
    source = checks.prefix / "ignores.c"
    source.write_text(IGNORES)
    words = ["cc", f"-I{checks.prefix}/include", "-Werror", "-c", source, "-o", source.with_suffix(".o")]
    done = subprocess.run(words, capture_output=True, text=True, env={**os.environ, "LC_ALL": "C"})
    told = done.stderr.count("[-Werror=unused-result]")
    checks.say("an ignored status", [] if done.returncode and told == 2 else [done.stderr])


def headers(checks, archive):
    """The header by itself, and the symbols of cargo's shared library."""
    checks.say("iobufs.h", [*faults_of_header()])
    ignored(checks)
    if checks.build_by == "cargo":
        printed = checks.run("nm", ["nm", "-D", "--defined-only", Path(archive).with_suffix(".so")]) or ""
        others = {line.split()[-1] for line in printed.splitlines() if " T " in line} ^ statuses_in_comments().keys()
        checks.say("libiobufs.so", [f"{name} isn't in both the header and the library" for name in others])
    include = [f"-I{checks.prefix}/include", "-fsyntax-only", "-Wall", "-Wextra", "-pedantic", "-Werror"]
    header = checks.prefix / "include/iobufs.h"
    checks.run("iobufs.h as C99", ["cc", "-std=c99", *include, "-x", "c", header])
    if checks.has("c++"):
        flags = ["-std=c++11", "-Wold-style-cast", "-Wconversion"]
        checks.run("iobufs.h as C++", ["c++", *flags, *include, "-x", "c++", header])


def page_program(checks, archive):
    """The program of docs/C.md, below a folder with a space: as the page says, static, and small."""
    room = checks.prefix / "a page"
    checks.run("install of the page", [*checks.install, room], env={**os.environ, "ARCHIVE": str(archive)})
    (room / "frame.c").write_text((TOP / "docs/C.md").read_text().partition("```c\n")[2].partition("```")[0])
    place = {**os.environ, "PKG_CONFIG_PATH": f"{room}/lib/pkgconfig"}
    small = checks.build_by == "cargo" and os.uname().machine == "x86_64"
    # Flags before and after, and how many bytes the program may have, stripped, of cargo's archive.
    ways = [("", "", 400_000), ("-Wl,--gc-sections", "", 300_000), ("-static", "--static", None)]
    for flags, more, most in ways if checks.has("pkg-config") else []:
        line = f'eval "cc {flags} frame.c $(pkg-config {more} --cflags --libs iobufs)" && strip a.out'
        if checks.run(f"the page's program, {flags}", ["sh", "-c", line], env=place, cwd=room) is not None:
            checks.run("the page's program", [room / "a.out"], wanted="world\n")
            size = (room / "a.out").stat().st_size
            checks.say(f"its size, {flags}", [size] if small and most and size > most else [])


def of_c(checks, calls):
    """The programs of c/tests."""
    built = f"-DIOBUFS_BUILT=IOBUFS_BUILT_BY_{checks.build_by.upper()}"
    met = checks.prefix / "statuses"
    # A program, named by its source, or by its source and a way to run it; flags of cc; and its arguments.
    plan = (
        ("calls", [*STRICT, *ASAN, built, *recorder(checks)], []),
        ("sizes", [*STRICT, *ASAN, *recorder(checks)], []),
        ("protocols", [*STRICT, *ASAN, *recorder(checks)], []),
        ("refused", [*STRICT, *WRAP, *recorder(checks)], []),
        ("threads", ["-std=c11", "-O1", "-Wall", *WRAP, "-pthread"], []),
        ("fuzz", [*STRICT, "-O2"], [calls]),
        ("pipe", ["-std=gnu99", "-O2", "-Wall"], [64]),
        ("pipe-plain", ["-std=gnu99", "-O2", "-Wall"], [64, 4096, "plain"]),
        ("single", ["-std=gnu99", "-O2", "-Wall"], [100_000]),
    )
    for name, flags, words in plan:
        if program := checks.build(name, flags):
            printed = checks.run(name, [program, *words], env={**os.environ, "STATUSES": str(met)})
            lines = ["failed"] if printed is None else printed.strip().splitlines()
            print(f"{name}: {lines[0] if len(lines) == 1 else 'passed'}", flush=True)
    if program := checks.build("frames", [*STRICT, "-D_POSIX_C_SOURCE=200809L"], TOP / "c/examples/frames.c"):
        checks.run("frames", [program], wanted="5 hello\n0 \n", input="\x05hello\0")
    lines = sorted({*met.read_text().splitlines()} if met.is_file() else ())
    checks.say("statuses that tests meet", [*unmet(lines, checks.build_by)])
    checks.find("a status that tests meet", [*unmet(lines[1:], checks.build_by)])
    if checks.has("valgrind"):
        races = ["valgrind", "--tool=helgrind", "--error-exitcode=1", "-q", checks.prefix / "threads", 40]
        passed = checks.run("threads under helgrind", races) is not None
        print(f"threads under helgrind: {'passed' if passed else 'failed'}", flush=True)


def main():
    reader = arguments(__doc__)
    reader.add_argument("--archive", type=Path)
    reader.add_argument("--cargo", action="store_true")
    reader.add_argument("--calls", type=int, default=10_000_000)
    given = reader.parse_args()
    with tempfile.TemporaryDirectory() as folder:
        checks = Checks(Path(folder), "cargo" if given.cargo else "kit")
        with timed("the library"):
            archive = given.archive or (cargo_library if given.cargo else library)(checks)
        place = {**os.environ, "ARCHIVE": str(archive)}
        if archive is not None and checks.run("install", [*checks.install, folder], env=place) is not None:
            installs(checks, archive)
            versions(checks)
            if checks.has("cc"):
                with timed("install"):
                    refusals(checks, archive)
                    whole(checks, archive)
                    staged(checks, archive)
                    links(checks, archive)
                    if given.cargo:
                        neighbours(checks, archive)
                with timed("from C"):
                    headers(checks, archive)
                    page_program(checks, archive)
                    of_c(checks, given.calls)
    return checks.end()


if __name__ == "__main__":
    sys.exit(main())
