#!/usr/bin/env python3
"""Counts lines of crates, tests, edits and words of the pages, and compares the lines with docs/guarantees.md.

    checks/page_counts.py
    checks/page_counts.py --root FOLDER    the page and the crates of another copy

The page says how many lines of code, definitions, proofs and tests there are. Each number may differ from the count by
one percent. The crates worked_* count as tests, with all their files. The script also prints how many tests and edits
there are. README.md and docs/*.md may have 15000 words together: what has a letter or a digit, outside of blocks of
code.
"""
import pathlib
import re

from common.check import CannotRun, Check, end, status_of
from common.program import ROOT

CHECK = Check(
    text=__doc__,
    needs=(),
    takes="1 s",
    replay="run it again; the counts are printed.",
)

PAGE = pathlib.Path("docs") / "guarantees.md"
# How far a number of the page may be from the count.
TOLERANCE = 0.01
BLOCK = re.compile(r"^```.*?^```$", re.MULTILINE | re.DOTALL)
# How many words all pages may have.
MOST_WORDS = 15000
# The folder of a crate, the suffix of its files, and the line of the page.
KINDS = {
    "code": ("src", ".rt"),
    "definitions": ("specs", ".antt"),
    "proofs": ("proofs", ".antt"),
}


def lines(files: list[pathlib.Path]) -> int:
    return sum(len(it.read_bytes().splitlines()) for it in files)


def files_below(folder: pathlib.Path, suffix: str = "") -> list[pathlib.Path]:
    """The files below a folder with this suffix, without what was built."""
    found = (it for it in folder.rglob(f"*{suffix}") if it.is_file())
    return [it for it in found if "out" not in it.relative_to(folder).parts]


def counts(root: pathlib.Path) -> dict[str, int]:
    """The lines of each kind, and how many tests and edits there are."""
    crates = sorted(it for it in (root / "crates").iterdir() if it.is_dir())
    if not crates:
        raise CannotRun(f"{root} has no crates")
    worked = [it for it in crates if it.name.startswith("worked_")]
    found = {
        kind: sum(lines(files_below(it / folder, suffix)) for it in crates if it not in worked)
        for kind, (folder, suffix) in KINDS.items()
    }
    found["tests"] = sum(lines(files_below(it)) for it in worked)
    sources = [it.read_text(encoding="utf-8") for crate in crates for it in files_below(crate / "src", ".rt")]
    found["functions with #[test]"] = sum(len(re.findall(r"^\s*#\[test\]", it, re.MULTILINE)) for it in sources)
    found["must-fail edits"] = sum(len(list(it.glob("must-fail/*.edit"))) for it in crates)
    return found


def said(root: pathlib.Path, kind: str) -> int:
    """How many lines of a kind the page says there are: `code 19,800`, perhaps with words between."""
    text = (root / PAGE).read_text(encoding="utf-8")
    number = re.search(rf"^- {kind}\b[^\n]*?: ([\d,]+)$", text, re.MULTILINE)
    if number is None:
        raise CannotRun(f"{PAGE} does not say how many lines of {kind} there are")
    return int(number[1].replace(",", ""))


def words(root: pathlib.Path) -> int:
    """The words of all pages."""
    pages = [root / "README.md", *sorted((root / "docs").glob("*.md"))]
    prose = (BLOCK.sub("", it.read_text(encoding="utf-8")) for it in pages if it.is_file())
    return sum(len(re.findall(r"\S*\w\S*", it)) for it in prose)


def main() -> int:
    parser = CHECK.parser()
    parser.add_argument(
        "--root", type=pathlib.Path, default=ROOT, help="the folder of docs and crates (this repository)"
    )
    root = CHECK.options(parser).root.resolve()
    found, wrong = counts(root), 0
    for kind, count in found.items():
        print(f"{kind}: {count}")
    compared = [*KINDS, "tests"]
    for kind in compared:
        number = said(root, kind)
        if abs(number - found[kind]) > TOLERANCE * found[kind]:
            wrong += 1
            print(f"differs: {PAGE} says {number} lines of {kind}; there are {found[kind]}")
    count = words(root)
    print(f"words of the pages: {count}")
    if count > MOST_WORDS:
        wrong += 1
        print(f"differs: the pages have more than {MOST_WORDS} words")
    print(f"{len(compared) + 1 - wrong} counts hold, {wrong} differ")
    return status_of(len(compared) + 1, wrong)


if __name__ == "__main__":
    end(main)
