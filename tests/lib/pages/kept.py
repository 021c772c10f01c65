"""The names of tests, tables of cases, sessions, mutants, faults and steps at the commit of the last gate. Each
is in the tree, or in tests/tables/dropped with a reason. Files may move: a name has no path."""
import io
import re
import subprocess
import tarfile
from collections import Counter
from hashlib import sha256

from common import COUNTS, WITHOUT
from pages.tree import ROOT

DROPPED = ROOT / "tests/tables/dropped"
GATE = ROOT / "docs/GATE.md"
RECORDED = re.compile(r"^`.ci/run` on \S+, of commit (\w+): \*\*(.*)\*\*", re.M)
STEP_ROW = re.compile(r"^\|([^|]+)\|(\d+)\|(\d+)\|\d+\|$", re.M)  # |tests/gate/docs.py|97|0|9|
BLANK = re.compile(r"\n\n+")  # What is between two sessions, or two edits
TABLE = re.compile(r"^const (\w+):\s+&?\[", re.M)  # const RANGES: [(&'static [u8], bool); 10] = [
TOKEN = re.compile(r"""b?"(?:\\.|[^"\\])*"|'.'|.""", re.S)
TEST = re.compile(r"^ *#\[test\]\n(?: *#\[.*\n)* *(?:pub )?fn (\w+)", re.M)
STEP = re.compile(r"^ *(?:\w+=\S+ )?step (\S.*)$", re.M)  #     step cargo_test


def digits(text):
    """The first digits of a text's hash."""
    return sha256(text.encode()).hexdigest()[:8]


def sessions(text):
    """The sessions of a file: each with its heading, or without one with its last line, and the hash of its lines."""
    for block in BLANK.split(text.strip()):
        lines = [line for line in block.splitlines() if not line.startswith("#")]
        headings = [line[2:] for line in block.splitlines() if line.startswith("#")]
        if lines:
            yield f"session {(headings or lines[-1:])[0]} [{digits(chr(10).join(lines))}]"


def statement(text):
    """A statement at the beginning of a text, up to the semicolon outside of brackets and literals."""
    depth = 0
    for token in TOKEN.finditer(text):
        depth += (token[0] in "([{") - (token[0] in ")]}")
        if token[0] == ";" and depth == 0:
            return text[: token.end()]
    return text


def tests(text):
    """The tests of a source, and its tables of cases, each with the hash of its words."""
    yield from (f"test {name}" for name in TEST.findall(text))
    for table in TABLE.finditer(text):
        yield f"table {table[1]} [{digits(' '.join(statement(text[table.start() :]).split()))}]"


def edits(text):
    """The mutants, the edits that are none, and the faults of a file."""
    for block in BLANK.split(text.strip()):
        kind = "fault" if "\nby: " in block else "no mutant" if "\nfault: " in block else "mutant"
        yield f"{kind} {block.splitlines()[0].removeprefix('== ')}"


def steps(text):
    """The steps of .ci/run, as it runs them, without a folder or an ending."""
    for words in STEP.findall(text):
        yield "step " + " ".join(re.sub(r"^.*/|\.(py|sh)$", "", it) for it in words.strip('"').replace('"', "").split())


def names(files):
    """The names in a tree, whose texts are given by their paths, and how many there are of each."""
    found = Counter()
    tested = {path.split("/src/")[0] for path, text in files.items() if "#[test]\n" in text}
    for path, text in files.items():
        if path.endswith(".edits"):
            found.update(edits(text))
        elif path == ".ci/run":
            found.update(steps(text))
        elif path.endswith((".buf", ".owner")) or path.endswith("bad_lines"):
            found.update(sessions(text))
        elif path in tested or path.endswith(".rt") and path.split("/src/")[0] in tested:
            found.update(tests(text))
    return found


def tree_now():
    """The texts of the tree."""
    listed = subprocess.run(["git", "ls-files", "-co", "--exclude-standard"], cwd=ROOT, capture_output=True, text=True)
    paths = [it for it in listed.stdout.splitlines() if (ROOT / it).is_file()]
    return {it: (ROOT / it).read_text(errors="ignore") for it in paths}


def tree_at(commit):
    """The texts of the tree at a commit, or None if it isn't there, and can't be fetched."""
    git = ["git", "-C", ROOT]
    if subprocess.run([*git, "cat-file", "-e", f"{commit}^{{commit}}"], capture_output=True).returncode:
        subprocess.run([*git, "fetch", "-q", "--unshallow"], capture_output=True)
    packed = subprocess.run([*git, "archive", commit], capture_output=True)
    if packed.returncode:
        return None
    with tarfile.open(fileobj=io.BytesIO(packed.stdout)) as tar:
        files = (it for it in tar if it.isfile())
        return {it.name: tar.extractfile(it).read().decode(errors="ignore") for it in files}


def faults_of_names(before, now, dropped):
    """Names that are gone without a reason, and reasons of names that aren't."""
    reasons = dict(line.split(" | ", 1) for line in dropped)
    gone = before - now
    yield from (f"gone without a line in {DROPPED.name}: {name}" for name in sorted(gone - Counter(reasons.keys())))
    yield from (f"{DROPPED.name} has what isn't gone: {name}" for name in sorted(reasons.keys() - gone.keys()))


def faults_of_gate(page, before):
    """What docs/GATE.md says otherwise than the steps that it lists: their sum, and which they are."""
    rows, total = STEP_ROW.findall(page), COUNTS.fullmatch(RECORDED.search(page)[2])
    sums = tuple(str(sum(int(row[n]) for row in rows)) for n in (1, 2))
    if sums != total.groups():
        yield f"docs/GATE.md: the steps sum up to {sums[0]} passed, {sums[1]} failed"
    listed = set(steps("".join(f"step {row[0]}\n" for row in rows)))
    run = {it for it in before if it.startswith("step ")}
    yield from (f"docs/GATE.md lacks or invents a row: {it}" for it in sorted(listed ^ run))


def results(write):
    """What is wrong. --write drops the reasons of names that aren't gone."""
    if "git" in WITHOUT:
        return
    page = GATE.read_text()
    before = tree_at(commit := RECORDED.search(page)[1])
    if before is None:
        yield f"the commit {commit} of docs/GATE.md isn't there (IOBUFS_WITHOUT=git leaves this out)"
        return
    before, now, dropped = names(before), names(tree_now()), DROPPED.read_text().splitlines()
    if write:
        dropped = [line for line in dropped if line.split(" | ")[0] in before - now]
        DROPPED.write_text("".join(f"{line}\n" for line in dropped))
    yield from faults_of_names(before, now, dropped)
    yield from faults_of_gate(page, before)
