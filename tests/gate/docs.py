#!/usr/bin/env python3
"""docs [--write]

Compares README.md, docs/*.md and bench/*.md with the tree, and proves nothing. The modules of tests/lib/pages/ do the
work:

1. generate  Each part between `<!-- generated: NAME -->` and `<!-- end -->` is what the tree gives: docs/API.md,
             tables of figures, the graph of crates, the fields of `Promises`, and the code between `// [docs: NAME]`
             and `// [docs end]` of a source. So are the declarations of c/include/iobufs.h (header.py). --write writes
             them. No cell of docs/API.md has a notation of contracts.
2. lint      The rules of docs/CONTRIBUTING.md that a script can see. A page above its aim of words is only told.
3. checks    Each name in backticks is a file, or a word of the sources or of the kit, or of tests/tables/known_names.
             Each link leads somewhere. Versions, figures and counts are those of their sources (claims.py). The head of
             each file of crates/*/specs/ lists its definitions; a cited lemma has a comment; no two modules import each
             other; no name of specs/ and no public type has two meanings; rt fmt would change no source.

False samples, one of each kind, have to be found first. Ends with `N passed, M failed`, and with status 1 if any
failed."""
import sys
from collections import Counter
from functools import partial
from tempfile import NamedTemporaryFile
from pathlib import Path

sys.path.insert(0, str(Path(__file__).resolve().parents[1] / "lib"))
from common import Checks
from pages import checks, claims, generate, header, kept, lint, rests
from pages.tree import CRATES, PAGES, ROOT, texts

CITED = "-- Laws.\n\npub bare : 0 ≡ 0\nbare = refl\n"
CITING = "-- Laws.\nuse Rattle.one.proofs.Laws.{bare}\n"
ROWS = "-- Rows.\n--     first   one\nabbrev pub first : ℕ\nabbrev pub other : ℕ\n"
PATHS = {"one": ["a/specs/A.antt", "b/specs/B.antt"], "two": ["a/src/a.rt", "a/specs/A.antt"]}
RELATION = "abbrev pub Holds : ℕ → Type 0\nHolds zero = ⊥\nHolds (suc n) = Unit {0}\n"
STALE = "<!-- generated: crates -->\n<!-- end -->"
STALE_HEADER = "/* generated: exports */\n/* end */"


def unformatted():
    """What is found in a source that rt fmt would change."""
    with NamedTemporaryFile("w", suffix=".rt") as source:
        source.write("pub fn f()   {}\n")
        source.flush()
        return checks.faults_of_layout([source.name])


def false_samples(page):
    """A sample for each check, which has one fault, and what is found in it."""
    yield "a name", checks.faults_of_names("`IoBufs::locate` and `IoBufs::locate_all`")
    yield "a name in capitals", checks.faults_of_names("`HANDLES` and `DEMOTIONS_OF`")
    yield "a path", checks.faults_of_names("`crates/iobufs/src/lib.rt` and `crates/iobufs/src/lab.rt`")
    yield "a link", checks.faults_of_links(page, "[one](docs/MODEL.md) and [other](docs/NONE.md)")
    yield "a heading", checks.faults_of_links(page, "[one](#more) and [other](#mores)")
    yield "a reference", checks.faults_of_links(page, "[one][a] and [other][b]\n\n[a]: README.md\n")
    yield "a word", lint.faults_of_style("A call that no longer fails.")
    yield "a long sentence", lint.faults_of_style("one " * 41 + "end.")
    yield "a head", checks.faults_of_head(ROWS, {"first": 2, "other": 2})
    yield "a lemma", checks.faults_of_lemmas({"one/proofs/Laws.antt": CITED, "two/proofs/Laws.antt": CITING})
    yield "an import", checks.faults_of_imports({"a": {"b"}, "b": {"a"}, "c": {"a"}})
    yield "a name with two meanings", checks.faults_of_meanings(PATHS)
    yield "a layout", unformatted()
    yield "a condition", generate.faults_of_conditions([("empty", "n ≡ 0", "n ≡ 1")])
    yield "a cell", generate.faults_of_cells(["|`new(n)`|Makes|`n < len`|", "|`at(i)`|Borrows it|`i < length (it)`|"])
    yield "a claim", claims.faults_of("1.85", "rustc 1.84", r"rustc (1\.\d+)")
    yield "a lost name", kept.faults_of_names(Counter("abc"), Counter("a"), ["b | a reason"])
    yield "a reason of what isn't lost", kept.faults_of_names(Counter("ab"), Counter("a"), ["b | a reason", "a | none"])
    gate = "`.ci/run` on 2026, of commit 1: **3 passed, 0 failed**.\n|docs|1|0|9|\n|costs|2|0|9|\n"
    yield "a step that GATE lacks", kept.faults_of_gate(gate, ["step docs", "step costs", "step rust"])
    yield "a sum of GATE", kept.faults_of_gate(gate.replace("|2|", "|4|"), ["step docs", "step costs"])
    yield "a row", set(dict(rests.definitions(RELATION))["Holds"]) - {"Holds zero = ⊥"}
    one, other = (set(kept.tests(f"const A: [u8; 1] = [{n}];")) for n in (1, 2))
    yield "a changed case", one - other
    yield "a generated part", ["it is made"] if generate.generated(page, STALE) != STALE else []
    yield "a stale header", ["it is made"] if "iobuf_len(" in header.made(STALE_HEADER) else []


def faults_of_generated(file, make, write):
    """What differs from what the tree gives, after it is written, if it is to be."""
    try:
        made = make()
    except LookupError as fault:
        return [fault]
    if write and made != file.read_text():
        file.write_text(made)
    return [] if made == file.read_text() else ["tests/gate/docs.py --write would change it"]


def results_of_page(page, write):
    """Each check of a page with what it finds. The others read what the first has written, if it is to write."""
    name = page.relative_to(ROOT)
    made = partial(generate.generated, page, page.read_text())
    yield f"generated parts of {name}", faults_of_generated(page, made, write)
    text = page.read_text()
    if page.name != "GATE.md":  # a record has the paths of the commit that it names
        yield f"names of {name}", sorted(set(checks.faults_of_names(text)))
    yield f"links of {name}", checks.faults_of_links(page, text)
    if page.name not in ("RESULTS.md", "GATE.md"):  # scripts write these whole
        yield f"style of {name}", lint.faults_of_style(text)


def results(write):
    """Each check with what it finds."""
    for page in PAGES:
        yield from results_of_page(page, write)
    declared = partial(header.made, header.HEADER.read_text())
    yield "declarations of c/include/iobufs.h", faults_of_generated(header.HEADER, declared, write)
    crates = sorted(CRATES.iterdir())
    yield "examples of conditions", generate.faults_of_conditions([*generate.SHORT, *generate.SURE])
    yield "cells of docs/API.md", generate.faults_of_cells((ROOT / "docs/API.md").read_text().splitlines())
    yield "claims", claims.faults_of_claims()
    yield "width of lines", lint.faults_of_width()
    yield "heads of specs", checks.faults_of_heads()
    yield "meanings", checks.faults_of_meanings(checks.meanings())
    yield "lemmas", checks.faults_of_lemmas(texts())
    yield "names at the last recorded gate", kept.results(write)
    yield "bench/RESULTS.md", generate.faults_of_results()
    yield "definitions without a mutant", rests.results(write)
    yield "layout", checks.faults_of_layout([CRATES / path for path in texts()])
    yield "imports", (fault for crate in crates for fault in checks.faults_of_imports(checks.imports(crate)))


def main():
    if sys.argv[1:] not in ([], ["--write"]):
        sys.exit("usage: docs [--write]")
    counted = Checks()
    for kind, found in false_samples(PAGES[0]):
        counted.find(kind, list(found))
    counted.say_all((name, list(found)) for name, found in results(sys.argv[1:] == ["--write"]))
    lint.tell_length()
    sys.exit(counted.end())


if __name__ == "__main__":
    main()
