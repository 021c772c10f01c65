"""The rules of style that a script can see."""
import re

from pages.tree import MARKED, PAGES, ROOT, prose


def any_of(words):
    """What finds each of these words or phrases, whether in capitals or not."""
    return re.compile(rf"\b(?:{words})\b", re.I)


# A rule, and what it looks for in prose.
RULES = [
    ("word of the past", any_of("since then|today|no longer|anew|not kept|earlier")),
    ("date", re.compile(r"\b20\d\d-\d\d-\d\d\b")),  # 2026-11-27
]
# Words that a sentence may have, and the aim of each page, without what is generated. A page above its aim is told.
LONGEST = 40
MOST = {
    "README.md": 950, "docs/API.md": 1800, "docs/ASSURANCE.md": 1600, "docs/C.md": 900, "docs/CONTRIBUTING.md": 1400,
    "docs/DECISIONS.md": 1500, "docs/DESIGN.md": 900, "docs/DIFFERENCES.md": 800, "docs/GUIDE.md": 2000,
    "docs/MODEL.md": 1700, "docs/OWNER.md": 1300, "docs/PROGRAMS.md": 1400, "bench/README.md": 500,
    "rust/iobufs/README.md": 1200,
}
SCRIPTS = "gate_page rust same trusted gate/[b-d]*s.py gate/[prt]*.py lib/*.py lib/pages/*.py"
# How many columns a line may have, and how many have more.
LONG = {
    "crates/*/src/**/*.rt": (120, 1),
    "crates/*/[ps]*/**/*.antt": (140, 0),
    "c/include/*.h": (120, 0),
    **{f"tests/{name}": (120, 0) for name in [*SCRIPTS.split(), "../bench/compare"]},
}
USE = re.compile(r"\s*(?:pub |ghost |unfoldable )*use ")  # pub use Rattle.std.specs.Prelude.{List}
PART = re.compile(r"\n(?=\s*[-*\d]|\s*\n|\||#)")  # Before an item, an empty line, a row or a heading: \n- One
STOP = re.compile(r"(?<=[.!?])[*)\"]*\s+")  # Between two sentences: (One.) Two.
CODE = re.compile(r"`[^`\n]*`")  # In backticks: `IoBuf`


def sentences(text):
    """The sentences of a text without its headings and tables."""
    for part in PART.split(text):
        if not part.lstrip().startswith(("|", "#")):
            yield from filter(None, STOP.split(" ".join(part.split())))


def faults_of_style(text):
    """Words that a page's prose may not have, and long sentences."""
    said = CODE.sub("`..`", prose(text))
    yield from (f"{rule}: {m[0].strip()}" for rule, pattern in RULES for m in pattern.finditer(said))
    for sentence in sentences(prose(text)):
        if len(sentence.split()) > LONGEST:
            yield f"{len(sentence.split())} words: {sentence[:60]}.."


def tell_length():
    """Says which pages have more words than their aim, which is no fault."""
    words = {str(page.relative_to(ROOT)): len(MARKED.sub("", page.read_text()).split()) for page in PAGES}
    for name in sorted(words.keys() & MOST.keys()):
        if words[name] > MOST[name]:
            print(f"docs: {name} has {words[name]} words; its aim is {MOST[name]}", flush=True)


def faults_of_width():
    """More long lines than there were: their number may only fall. A `use` is as long as it needs."""
    for pattern, (width, most) in LONG.items():
        lines = (line for file in ROOT.glob(pattern) if file.is_file() for line in file.read_text().splitlines())
        found = sum(len(line) > width and not USE.match(line) for line in lines)
        if found > most:
            yield f"{found} lines of {pattern} are above {width} columns, more than {most}"
