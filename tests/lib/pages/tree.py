"""What the other modules read: pages, sources, declarations, and how crates use each other."""
import re
from functools import cache

import common
from common import CRATES, TOP as ROOT

PAGES = [ROOT / it for it in ("README.md", "rust/iobufs/README.md", "rust/tokio/README.md")]
PAGES += [page for folder in ("docs", "bench") for page in sorted((ROOT / folder).glob("*.md"))]
# A generated part of a page: <!-- generated: crates -->\n..\n<!-- end -->
MARKED = re.compile(r"<!-- generated: ([^>]*) -->\n(.*?)<!-- end -->", re.S)
BLOCK = re.compile(r"^```\w*\n(.*?)^```$", re.M | re.S)  # A block of code: ```rust\n..\n```
# A line of a quotation, or where a link leads: > I refuse.    [bytes]: https://docs.rs/bytes
QUOTATION = re.compile(r"^(?:\[[^\]]+\]: |> ).*$", re.M)
TARGET = re.compile(r"\]\([^)]*\)|\]\[[^\]]*\]")  # The target of a link: ](docs/MODEL.md) or ][bytes]
HEAD = re.compile(r"(?://[^\n]*\n)*")  # The comment at the head of a source: // Frames.
STOP = re.compile(r"(?<=\.)\s")  # The end of a sentence, and its blank: first. Second
TRAIT = re.compile(r"^pub trait .*?^\}", re.M | re.S)  # A public trait: pub trait Buf {\n..\n}
# A function with its comment and attributes: /// Drops.\n    #[inline]\n    pub const fn clear(
FUNCTION = re.compile(r"((?:^ *///[^\n]*\n)*)(?:^ *#\[[^\n]*\n)*^( *)((?:pub |final |const )*)fn (\w+)", re.M)
# Where the methods of a type or a trait begin: impl<T: Drop> FrameReader<T> {    impl Decoder for FrameCodec {
OWNER = re.compile(r"^(?:impl(?:<.*>)? (?:([\w:]+)(?:<.*>)? for )?(\w+)|pub trait (\w+))", re.M)
# The end of its declaration: with clauses a brace on a line of its own, else one at the end of a line; or a semicolon.
DECLARATION = re.compile(r"^ *\{$|^(?! *(?:requires|ensures)).*\{$|;$", re.M)


def prose(text):
    """A page without its blocks of code, its quotations, its generated parts and the targets of its links."""
    return TARGET.sub("]", QUOTATION.sub("", BLOCK.sub("", MARKED.sub("", text))))


def sources(folder):
    """The sources, specs and proofs of a crate."""
    for kind in ("src/**/*.rt", "specs/**/*.antt", "proofs/**/*.antt"):
        yield from sorted(folder.glob(kind))


@cache
def texts():
    """The sources, specs and proofs of all crates, by their paths below crates/."""
    files = (file for crate in sorted(CRATES.iterdir()) for file in sources(crate))
    return {str(file.relative_to(CRATES)): file.read_text() for file in files}


@cache
def uses():
    """Each crate with the crates of this repository that it uses."""
    used = common.uses()
    return {name: [dep for dep in deps if dep in used] for name, deps in used.items()}


def layer(crate):
    """0 for a crate that uses no other; else one more than the highest that it uses."""
    return 1 + max((layer(dep) for dep in uses()[crate]), default=-1)


def direct(crate):
    """The used crates that no other used crate uses."""
    return [dep for dep in uses()[crate] if not any(dep in common.below(other) for other in uses()[crate])]


def by_layer():
    """The crates, the lowest first."""
    return sorted(uses(), key=lambda crate: (layer(crate), crate))


def purpose(crate):
    """The first sentence at the head of a crate's root file."""
    root = next(file for name in ("lib", "main") if (file := CRATES / crate / f"src/{name}.rt").exists())
    said = " ".join(line.lstrip("/!").strip() for line in HEAD.match(root.read_text())[0].split("\n"))
    return STOP.split(said.strip())[0].rstrip(".")


def declarations(text):
    """Each public function of a source, and each function of a public trait: its comment, its type or trait, its name,
    its declaration."""
    owners = [(m.start(), m[2] or m[3]) for m in OWNER.finditer(text)]
    traits = [m.span() for m in TRAIT.finditer(text)]
    for m in FUNCTION.finditer(text):
        comment, indent, public, name = m.groups()
        if "pub" in public or ("///" in comment and any(a < m.start() < b for a, b in traits)):
            rest = text[m.start(4) :]
            end = DECLARATION.search(rest)
            lines = (line.strip() for line in comment.splitlines())
            said = " ".join(line.removeprefix("///").strip() for line in lines if "///" in line)
            owner = next((it for start, it in reversed(owners) if start < m.start() and indent), "")
            yield said, owner, name, rest[: end.end() if end else 400]
