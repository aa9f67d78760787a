"""The cells of pattern files of Conway's Life, in plain Python, and what such a file is cut into."""
import pathlib
import re

from common.cells import Cell

RUN = re.compile(r"(\d*)([bo$!])")


def comments(path: pathlib.Path) -> str:
    """The comment lines of a file, each without its first two characters."""
    lines = path.read_text(encoding="latin-1").splitlines()
    return "\n".join(line[2:] for line in lines if line.startswith("#"))


def rle_cells(path: pathlib.Path) -> set[Cell]:
    """The live cells of an RLE file with a header."""
    lines = [line for line in path.read_text(encoding="latin-1").splitlines() if not line.startswith("#")]
    cells, x, y = set(), 0, 0
    for digits, tag in RUN.findall("".join(lines[1:])):
        count = int(digits or 1)
        if tag == "!":
            break
        if tag == "$":
            x, y = 0, y + count
            continue
        if tag == "o":
            cells |= {(x + i, y) for i in range(count)}
        x += count
    return cells


def near(cell: Cell, gap: int) -> list[Cell]:
    return [(cell[0] + dx, cell[1] + dy) for dx in range(-gap, gap + 1) for dy in range(-gap, gap + 1)]


def objects(cells: set[Cell], gap: int) -> list[set[Cell]]:
    """The cells, cut where no two are within so many columns and rows of each other."""
    left, found = set(cells), []
    while left:
        reached = [left.pop()]
        for cell in reached:
            close = [it for it in near(cell, gap) if it in left]
            left.difference_update(close)
            reached += close
        found.append(set(reached))
    return found
