"""What bench/compare measured, as results.csv holds it, and the page RESULTS.md, which says it to a person."""
import csv
import math
import re
import statistics
from pathlib import Path
from typing import NamedTuple

HERE = Path(__file__).resolve().parent
STORED, PAGE = HERE / "results.csv", HERE / "RESULTS.md"
CAUSE = re.compile(r"^\| (\w+) \| ((?:`\w+`(?:, )?)+) \|", re.M)  # | a | `from_vec64`, `header_body` | the count is ..
EVERYDAY_TEXT = HERE.parent / "rust/iobufs/examples/bench/everyday.rs"

# The compiler folds these loops away, or changes them, on our side or on both: nothing keeps a value from it.
FOLDED = set(
    "clone_drop_static put_u8_64k_freeze numbers_put read_view_bytewise_1m text4_len text64_len text4096_len".split()
)
# The Rust crate has `black_box`, so only the original's lengths are folded away.
FOLDED_OF = {"kit": FOLDED, "rust": {it for it in FOLDED if it.endswith("_len")}}
# In these the original walks over many chunks or buffers, and ours doesn't: the gain grows with their number. The means
# of equal steps leave them out.
OTHER_STEPS = set(
    "text4096_take300 text4096_split1000 text4096_split_mid text64_split1000 text64_split_mid text64_take300"
    " parts64_put64 parts64_put96 parts64_put3 decode64_chunks48 decode64_chunks48_take decode64_chunks1024"
    " decode64_chunks1024_take parts4096_put64 parts4096_chunk_mut".split()
)
BUILDS = {"kit": "Rattle", "rust": "the Rust crate"}


class Row(NamedTuple):
    """A row of results.csv: its table, its name, the number of chunks or buffers if it has one, and what each side
    gave. Times are those of each round, with blanks between them; a field is empty if that side lacks it."""

    table: str
    name: str
    size: str = ""
    original_ns: str = ""
    ours_ns: str = ""
    original_instructions: str = ""
    ours_instructions: str = ""
    original_allocations: str = ""
    ours_allocations: str = ""
    original_kept: str = ""
    ours_kept: str = ""
    original_faults: str = ""
    ours_faults: str = ""

    def times(self):
        """The times of each round: the original's and ours."""
        return [[float(it) for it in ns.split()] for ns in (self.original_ns, self.ours_ns)]

    def least(self):
        """The least times, or none of a side that lacks the row."""
        return [min(it, default=None) for it in self.times()]

    def instructions(self):
        return [float(it) if it else None for it in (self.original_instructions, self.ours_instructions)]

    def has_both(self):
        return bool(self.original_ns and self.ours_ns)


def read(path=STORED):
    """The lines that say what was measured, and the rows."""
    head, *lines = path.read_text().split("\n\n", 1)
    return head.splitlines(), [Row(*it) for it in list(csv.reader(lines[0].splitlines()))[1:]]


def write(said, rows, path=STORED):
    with path.open("w", newline="") as to:
        to.write("\n".join(said) + "\n\n")
        writer = csv.writer(to, lineterminator="\n")
        writer.writerows([Row._fields, *rows])


def everyday():
    """The workloads that were made to be fair to the original."""
    text = EVERYDAY_TEXT.read_text()
    names = re.findall(r'\("(\w+)", ?\w+', text)
    for sizes, form in re.findall(r'for n in \[([\d, ]+)\] \{\s+add\(format!\("(\w*\{n\}\w*)"\)', text):
        names += [form.replace("{n}", n) for n in sizes.split(", ")]
    return set(names)


def sets_of(table, rows):
    """The sets of comparable rows of a table, each with what a page calls it."""
    both = [it for it in rows if it.table == table and it.has_both() and it.name not in FOLDED_OF[table]]
    yield "with the same steps", [it for it in both if it.name not in OTHER_STEPS]
    yield "all comparable", both
    yield "everyday calls", [it for it in both if it.name in everyday()]


def mean(ratios):
    """The geometric mean."""
    return math.exp(sum(map(math.log, ratios)) / len(ratios))


class Means(NamedTuple):
    """Of a set of rows: how many there are, the mean of instructions, the median of the rounds' means of time and the
    range of these, and how many rows are above 1."""

    count: int
    instructions: float
    more: int
    time: float
    rounds: list
    slower: int


def means(rows):
    counted = [ours / theirs for theirs, ours in map(Row.instructions, rows) if theirs and ours]
    pairs = [it.times() for it in rows]
    rounds = min(len(ns) for pair in pairs for ns in pair)
    each = [mean([ours[n] / theirs[n] for theirs, ours in pairs]) for n in range(rounds)]
    slower = sum(ours > theirs for theirs, ours in map(Row.least, rows))
    return Means(len(rows), mean(counted), sum(it > 1 for it in counted), statistics.median(each), each, slower)


def slowest(table, rows):
    """The slowest comparable rows by time."""
    both = list(sets_of(table, rows))[1][1]
    ratio = lambda row: row.least()[1] / row.least()[0]
    return ", ".join(f"`{it.name}` {ratio(it):.2f}" for it in sorted(both, key=ratio)[:-4:-1])


BESIDE = re.compile(r"beside_here_(\w+)")  # A call that `bytes` has too: beside_here_split_to, and beside_bytes_split_to


def beside(rows):
    """The calls that `bytes` has too, each with the instructions of ours over those of `bytes`."""
    spent = {it.name: it.instructions()[1] for it in rows if it.name.startswith("beside_")}
    for name in (it[1] for it in map(BESIDE.fullmatch, spent) if it):
        yield name.replace("_", " "), spent[f"beside_here_{name}"] / spent[f"beside_bytes_{name}"]


# ---- the page


def table(columns, rows):
    """A table of a page: the names of its columns, and the cells of its rows."""
    yield "|" + "|".join(columns) + "|"
    yield "|---|" + "---:|" * (len(columns) - 1)
    yield from ("|" + "|".join(row) + "|" for row in rows)


def number(value, digits=2):
    """The text of a number with so many digits after its point; none of None."""
    return "" if value is None else f"{value:.{digits}f}"


def ratio(pair):
    return number(pair[1] / pair[0]) if all(pair) else ""


def causes():
    """For each workload the letters of its causes in bench/README.md."""
    found = {}
    for letter, names in CAUSE.findall((HERE / "README.md").read_text()):
        for name in re.findall(r"`(\w+)`", names):
            found[name] = f"{found.get(name, '')} {letter}".strip()
    return found


def compared(name, rows):
    """The table of workloads: three ratios, and the letters of the causes. Of a row of ours alone our numbers are
    there, in place of ratios."""
    known, cells = causes(), []
    for row in (it for it in rows if it.table == name):
        shown = f"`{row.name}`{' *' if row.name in FOLDED_OF[name] else ''}"
        counts = [f"{float(it):g}" for it in (row.original_allocations, row.ours_allocations) if it]
        allocated = " / ".join(counts) if len({*counts}) == len(counts) else ""
        both = [ratio(row.least()), ratio(row.instructions())]
        alone = [row.ours_ns and f"{row.least()[1]:.2f} ns", f"{row.ours_instructions} instr."]
        cells.append([shown, *(both if row.has_both() else alone), allocated, known.get(row.name, "")])
    return table(["workload", "time", "instructions", "allocations, there / here, if they differ", "cause"], cells)


def summary(name, rows):
    for said, some in sets_of(name, rows):
        of = means(some)
        yield (
            f"- {of.count} rows, {said}: time mean **{of.time:.2f}** ({min(of.rounds):.2f} to {max(of.rounds):.2f}),"
            f" {of.slower} above 1; instructions mean **{of.instructions:.2f}**, {of.more} above 1."
        )
    yield f"- Slowest by time {slowest(name, rows)}."


def growth(rows):
    """For each call the times at each size, and the largest over that at 64."""
    sizes = list(dict.fromkeys(it.size for it in rows))
    yield from ("", "## Growth", "", GROWTH_SAYS, "")
    cells = []
    for name in dict.fromkeys(it.name for it in rows):
        each = {it.size: it.least() for it in rows if it.name == name}
        more = [low and high and high / low for low, high in zip(each["64"], each[sizes[-1]])]
        cells.append([name, *(" / ".join(number(it, 1) for it in pair) for pair in (*each.values(), more))])
    yield from table(["calls", *(f"{int(it):,}" for it in sizes), "growth"], cells)


GROWTH_SAYS = (
    "Nanoseconds of two rounds, the original's / ours: an operation, or for each chunk or buffer where an operation goes"
    " over many. The last column is the largest size over 64. A cell is empty if the original lacks the workload, or"
    " runs for more than five seconds."
)
NOTES = (
    "Up to *The Rust crate* ours is Rattle's build. Time and instructions are ours over the original's, of the timed part,"
    " an operation; allocations are counts. Rows with * aren't comparable: the compiler folds their loop away, or changes"
    " it. Letters: [causes](README.md#causes). [results.csv](results.csv) has each number."
)
# As README.md in this folder has both built.
PROFILES = (
    "The original is built with LTO (`lto = \"fat\"`, `codegen-units = 1`); the crate's example is a plain"
    " `cargo build --release`, without."
)


def chunks(rows):
    sizes = list(dict.fromkeys(it.size for it in rows))
    yield from ("", "## By number of chunks", "")
    yield "Instructions a call; `iobufs` is the Rust crate. The caller of a `VecDeque<Bytes>` walks to the chunk, and"
    yield "takes bytes by `pop_front` and `Bytes::split_to`."
    yield ""
    counts = {name: [it for it in rows if it.name == name] for name in dict.fromkeys(it.name for it in rows)}
    of = lambda row: number(next(it for it in row.instructions() if it is not None), 0)
    yield from table(["call", *(f"{int(it):,}" for it in sizes)], ([name, *map(of, counts[name])] for name in counts))


def page():
    """The lines of RESULTS.md."""
    said, rows = read()
    of = lambda name: [it for it in rows if it.table == name]
    yield from ("# Compared with the original", "", "<!-- generated whole, by compare -->", "")
    yield from said
    yield from ("", *summary("kit", rows), "", NOTES, "", *compared("kit", rows))
    yield from growth(of("growth"))
    held = ([it.name, number(float(it.original_kept), 0), number(float(it.ours_kept), 0)] for it in of("memory"))
    yield from ("", "## Memory", "", *table(["bytes beside the bytes themselves", "original", "ours"], held))
    lines = ([it.name, number(it.least()[1], 0), ratio(it.least()), ratio(it.instructions())] for it in of("program"))
    columns = ["lines", "ns a line", "time, over the original's driver", "instructions, over them"]
    yield from ("", "## The program, by lines", "", *table(columns, lines))
    yield from ("", "## The Rust crate", "", *summary("rust", rows), "", PROFILES, "", *compared("rust", rows))
    columns = ["call, also of `bytes`", "instructions, over those of `bytes`"]
    yield from ("", "## Beside bytes", "", *table(columns, ([name, number(it)] for name, it in beside(rows))))
    yield from chunks(of("chunks"))
    yield "<!-- end -->"
