"""The declarations of c/include/iobufs.h: each export of crates/iobufs_c as a prototype in C, after its comment."""
import re
from textwrap import fill

from pages.tree import CRATES, HEAD, ROOT

HEADER = ROOT / "c/include/iobufs.h"
SOURCES = "built view part text parts builder lengths numbers frames layouts received".split()
# What --write writes: /* generated: exports */\n..\n/* end */
MARKED = re.compile(r"(?<=^/\* generated: exports \*/\n).*?(?=^/\* end \*/$)", re.M | re.S)
# An export with its comment: /// Drops it.\n#[unsafe(no_mangle)]\npub extern "C" fn iobuf_drop(src: &mut ViewAt)
EXPORT = re.compile(r'((?:^///.*\n)*)(?:^#.*\n)*^pub (?:unsafe )?extern "C" fn (\w+)\(([^)]*)\)(?: -> (\w+))?$', re.M)
# A parameter, whether it is borrowed, mutably, as a slice, and what: out: &mut [u8]
PARAMETER = re.compile(r"(\w+): (&(?:'static )?)?(mut )?(\[)?([\w* ]+)\]?")
HANDLES = {
    "ViewAt": "iobuf", "PartAt": "iobufmut", "TextAt": "iobufs", "PartsAt": "iobufsmut", "BuilderAt": "iobufs_builder",
    "FramesAt": "iobufs_frames", "ReceivedAt": "iobufs_received",
}
IN_C = {
    "": "void ", "u8": "uint8_t ", "u32": "uint32_t ", "u64": "uint64_t ", "usize": "size_t ", "bool": "bool ",
    "*const u8": "const uint8_t *", "*mut u8": "uint8_t *", "Chunk": "struct iobufs_iovec ",
    "LayoutInC": "struct iobufs_layout ", **{name: f"struct {of}_at " for name, of in HANDLES.items()},
}
# How the number of a slice's items is called, if that isn't n.
COUNTS = {"around: &[u8]": "count", "out: &mut [u8]": "room"}
# The calls that only look at a handle's buffer, by their names after the handle's.
LOOKING = "len capacity remaining_mut eq clone slice chunk chunks chunks_from chunk_count part_count locate peek rest"


def parameter(text, call, lends):
    """A parameter in C: a slice is two, and the memory of `.._init` is a struct. The handle of a call that lends bytes
    to write isn't const."""
    name, borrowed, changed, several, kind = PARAMETER.fullmatch(text).groups()
    if not borrowed and kind == "*mut u8":
        return f"struct {call.removesuffix('_init')} *{name}"
    looks = call.removeprefix(f"{HANDLES.get(kind)}_") in LOOKING.split() and name != "out" and not lends
    count = f", size_t {COUNTS.get(text, 'n')}" * bool(several)
    return "const " * bool(borrowed and (looks or not changed)) + IN_C[kind] + "*" * bool(borrowed) + name + count


def prototype(call, parameters, result):
    """An export in C, broken between parameters."""
    listed = [it for it in map(str.strip, parameters.split(",")) if it and it != "alloc: Global"]
    made = ", ".join(parameter(it, call, "&mut *mut" in parameters) for it in listed) or "void"
    line = f"{'IOBUFS_CHECKED iobufs_status ' if result == 'u8' else IN_C[result]}{call}({made});"
    kept = re.sub(r"(?<!,) ", "\xa0", line)
    return fill(kept, 120, subsequent_indent="    ", break_on_hyphens=False).replace("\xa0", " ")


def comment(lines, rule=""):
    """Lines of a comment of Rattle as one of C."""
    return f"/*{rule}" + "\n *".join(line.lstrip("/") for line in lines.splitlines()) + f"{rule} */"


def declarations():
    """The exports of each source, after what its head says."""
    for name in SOURCES:
        text = (CRATES / f"iobufs_c/src/{name}.rt").read_text()
        head = HEAD.match(text)[0].rstrip(".\n")
        yield f"\n{comment(head, ' ----')}\n"
        yield from (f"{comment(said)}\n{prototype(*export)}" for said, *export in EXPORT.findall(text))
    yield "\n"


def made(text):
    """The header with its generated part as the sources have it."""
    return MARKED.sub(lambda _: "\n".join(declarations()), text)
