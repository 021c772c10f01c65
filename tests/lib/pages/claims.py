"""Versions, figures and counts that pages, comments and the header name, each compared with where it comes from."""
import re
import subprocess

from common import kit
from pages.tree import ROOT

RUST = ROOT / "rust/iobufs"


def first(file, pattern):
    """The first group of a pattern's first match in a file."""
    return re.search(pattern, (ROOT / file).read_text(), re.M)[1]


def kit_logic():
    """The end of what `rt version` prints: it names the logic. The kit's own name changes without it."""
    said = subprocess.run([kit() / "bin/rt", "version"], capture_output=True, text=True, check=False)
    return " ".join(said.stdout.split()[-2:])


def lines_of(name):
    """How many lines a table of rust/iobufs/tests/same has."""
    return str(len((RUST / "tests/same" / name).read_text().splitlines()))


def unsafe_files():
    """The files of the Rust crate that have unsafe code, as its page lists them."""
    listed = re.search(r"## Unsafe code\n(.*?)\n## ", (RUST / "README.md").read_text(), re.S)[1]
    found = {word.split("/", 1)[1] for word in re.findall(r'"(iobufs/[^"]+\.rs)":', (ROOT / "tests/rust").read_text())}
    return sorted(re.findall(r"`((?:src|layer)/[^`]+)`", listed)), sorted(found)


def claims():
    """Each claim: what it is about, its value, where it comes from, the pages, and how they say it."""
    manifest = "rust/iobufs/Cargo.toml"
    version = first(manifest, r'^version = "(.*)"')
    pages = ["README.md", "rust/iobufs/README.md"]
    rustc, manifests = first(manifest, r'^rust-version = "(.*)"'), ["rust/Cargo.toml", "rust/tokio/Cargo.toml"]
    yield "rustc", rustc, [*pages, *manifests], r"rust(?:c|-version =) \"?(1\.\d+)"
    bytes_least = first(manifest, r'^bytes = "(.*)"')
    others = ["rust/tokio/Cargo.toml", "rust/dev/over_bytes/Cargo.toml"]
    yield "bytes", bytes_least, pages[1:], r"`bytes` \((\S+) or later\)"
    yield "bytes", bytes_least, others, r'^bytes = "(.*)"'
    yield "bytes", bytes_least, ["rust/iobufs/src/spare/block.rs"], r"read in version (\d[\d.]*\d)"
    original = first(manifest, r"commonware-runtime (\d+\.\d+\.\d+)")
    everywhere = [*pages, "rust/iobufs/CHANGELOG.md", "c/include/iobufs.h", "bench/README.md"]
    yield "the original", original, everywhere, r"commonware-runtime (\d+\.\d+\.\d+)"
    yield "the version", version, manifests, r'^version = "(.*)"'
    yield "the version", version, pages[:1], r"Version (\S+) is"
    yield "the version", version, ["c/include/iobufs.h"], r'#define IOBUFS_VERSION "(.*)"'
    yield "the version", version, ["rust/iobufs/CHANGELOG.md"], r"\A# Changes\n[^#]*## (\S+)"
    yield "the kit", kit_logic(), pages[:1], r"`rt version` ends in `([^`]*)`"
    yield "answers", lines_of("original"), ["docs/DIFFERENCES.md", "README.md"], r"(\d+) answers"
    with_unsafe = [RUST / it for it in unsafe_files()[1] if it != "src/lib.rs"]  # That one only names the others.
    lines = re.findall(r"^(?! *//).*\bunsafe\b", "\n".join(it.read_text() for it in with_unsafe), re.M)
    yield "unsafe files", str(len(with_unsafe)), pages[:1], r"`unsafe` in \[(\d+) files\]"
    yield "unsafe lines", str(len(lines)), pages[:1], r"(\d+) lines of `unsafe`"
    yield "uses", lines_of("uses"), ["docs/DIFFERENCES.md"], r"compiles (\d+) uses"
    batch = first("crates/iobufs/src/bufs/writing.rt", r"const BATCH: usize = (\d+);")
    yield "a batch", batch, ["docs/GUIDE.md", "rust/iobufs/src/text.rs"], r"(?:each of )?up to (\d+) (?:of them|chunks)"
    block = str(2 ** int(first("crates/iobufs_frames/src/block.rt", r"const MOST: usize = 1 << (\d+);")) // 1024)
    keepers = ["docs/GUIDE.md", "docs/C.md", "rust/iobufs/README.md", "rust/iobufs/src/streams.rs"]
    yield "a block", block, keepers, r"frame\s+or (\d+) KiB, whichever"


def faults_of(value, text, pattern):
    """What a text says otherwise, or that it doesn't say it."""
    found = re.findall(pattern, text, re.M)
    yield from (f"{it}, and not {value}" for it in found if it != value)
    if not found:
        yield f"nothing like {pattern}"


def faults_of_claims():
    """Claims that aren't so."""
    for name, value, files, pattern in claims():
        for file in files:
            yield from (f"{file} on {name}: {it}" for it in faults_of(value, (ROOT / file).read_text(), pattern))
    listed, found = unsafe_files()
    if listed != found:
        yield f"rust/iobufs/README.md on unsafe code: {listed}, and not {found}"
