#!/usr/bin/env python3
"""Executes the notebook of examples/, and looks at what its cells show.

    checks/notebook.py

Debian's Python executes a copy by nbconvert. The notebook has to be one of format 4, without outputs. Each cell has to
run, and the pictures, the population and the period have to be there. Where a cell fails, nbconvert has to say so.
"""
import json
import os
import pathlib
import subprocess
import tempfile

from common.check import BUILT_PIPE, DEBIAN_PYTHON, NOTEBOOKS, Check, end, sum_up
from common.program import ROOT

CHECK = Check(
    text=__doc__,
    needs=(BUILT_PIPE, *NOTEBOOKS),
    takes="20 s",
    replay="run it again.",
)
BOOK = ROOT / "examples" / "patterns.ipynb"
# How many seconds the notebook may take.
SECONDS = 300
VALIDATE = "import nbformat, sys; it = nbformat.read(sys.argv[1], 4); nbformat.validate(it)"
# What the cells show: the last population, and periods.
TEXTS = ["(116, Bounds(left=-240, top=-258, right=260, bottom=266))", "Period(generations=4, dx=1, dy=1)\nNone\n"]
FAILING = {
    "cell_type": "code",
    "execution_count": None,
    "id": "fails",
    "metadata": {},
    "outputs": [],
    "source": "1 / 0",
}


class Folder:
    """A folder for what is executed, and for the settings of Jupyter."""

    def __init__(self, path: pathlib.Path, pipe: pathlib.Path):
        self.path = path
        self.settings = {**os.environ, "LIFEBATCH_PIPE": str(pipe), "HOME": str(path), "PYTHONPATH": ""}

    def run(self, *words: str) -> subprocess.CompletedProcess:
        words = [DEBIAN_PYTHON, *words]
        return subprocess.run(words, cwd=self.path, env=self.settings, capture_output=True, text=True, timeout=SECONDS)

    def executed(self, book: dict) -> tuple[subprocess.CompletedProcess, list[dict]]:
        """Executes a notebook in examples/'s place, and returns how that ended, and its cells of code."""
        place = self.path / "examples"
        (place / "book.ipynb").write_text(json.dumps(book))
        ran = self.run(
            "-m", "nbconvert", "--to", "notebook", "--execute", "--output", "done.ipynb", str(place / "book.ipynb")
        )
        done = place / "done.ipynb"
        return ran, codes(json.loads(done.read_text(encoding="utf-8"))) if done.exists() else []


def codes(book: dict) -> list[dict]:
    return [it for it in book["cells"] if it["cell_type"] == "code"]


def text_of(cell: dict) -> str:
    """The text that a cell shows."""
    parts = (it.get("text") or it.get("data", {}).get("text/plain", "") for it in cell["outputs"])
    return "".join("".join(it) for it in parts)


def pictures_of(cell: dict) -> int:
    return sum("image/png" in it.get("data", {}) for it in cell["outputs"])


def rows(folder: Folder) -> dict[str, bool]:
    book = json.loads(BOOK.read_text(encoding="utf-8"))
    is_bare = all(it["outputs"] == [] and it["execution_count"] is None for it in codes(book))
    valid = folder.run("-c", VALIDATE, str(BOOK)).returncode == 0
    ran, cells = folder.executed(book)
    if ran.returncode:
        print(ran.stderr)
    failed, _ = folder.executed({**book, "cells": [*book["cells"], FAILING]})
    text = "".join(map(text_of, cells))
    return {
        "it is a notebook of format 4, without outputs": book["nbformat"] == 4 and is_bare and valid,
        "each cell runs": ran.returncode == 0 and all(it["execution_count"] for it in cells),
        "three cells show pictures": [pictures_of(it) for it in cells if pictures_of(it)] == [1, 1, 1],
        "the population, the bounds and the periods are right": all(it in text for it in TEXTS),
        "a cell that fails is reported": failed.returncode != 0 and "ZeroDivisionError" in failed.stderr,
    }


def main() -> int:
    options = CHECK.options(CHECK.parser())
    with tempfile.TemporaryDirectory() as name:
        path = pathlib.Path(name)
        (path / "examples").mkdir()
        for it in (ROOT / "examples").glob("*.rle"):
            (path / "examples" / it.name).symlink_to(it)
        (path / "python").symlink_to(ROOT / "python")
        found = rows(Folder(path, options.pipe.resolve()))
    for says, holds in found.items():
        print(f"{'holds  ' if holds else 'differs'}  {says}")
    return sum_up(list(found.values()), "rows")


if __name__ == "__main__":
    end(main)
