"""Cells, generations and texts in plain Python, one cell after the other, as docs/formats.md has them.

It shares nothing with the program, which is compared with it.
"""
from collections import Counter
from collections.abc import Collection, Iterable, Sequence

Cell = tuple[int, int]
Cells = Collection[Cell]
# A count and a tag.
Item = tuple[int, str]

MOORE = [(-1, -1), (0, -1), (1, -1), (-1, 0), (1, 0), (-1, 1), (0, 1), (1, 1)]
NEIGHBOURHOODS = {
    "": MOORE,
    "V": [(0, -1), (-1, 0), (1, 0), (0, 1)],
    "H": [(-1, -1), (0, -1), (-1, 0), (1, 0), (0, 1), (1, 1)],
}

# Coordinates lie from -END to END - 1, and generations up to LAST.
END = 2**62
LAST = 2**63

# No RLE text has a side as large as this.
TOO_WIDE = 2**31


class Rule:
    """The numbers of live neighbours by which a cell is born and survives, in one of the neighbourhoods."""

    def __init__(self, birth: Iterable[int], survival: Iterable[int], letter: str = ""):
        self.birth, self.survival, self.letter = frozenset(birth), frozenset(survival), letter
        self.offsets = NEIGHBOURHOODS[letter]

    def text(self) -> str:
        birth, survival = ("".join(map(str, sorted(digits))) for digits in (self.birth, self.survival))
        return f"B{birth}/S{survival}{self.letter}"

    def next(self, cells: Cells) -> set[Cell]:
        """The live cells one generation on."""
        counts = Counter((x - dx, y - dy) for x, y in cells for dx, dy in self.offsets)
        born = {cell for cell, count in counts.items() if count in self.birth and cell not in cells}
        return born | {cell for cell in cells if counts[cell] in self.survival}


def box(cells: Cells) -> tuple[int, int, int, int]:
    """The left, top, right and bottom of some cells."""
    columns, rows = [x for x, _ in cells], [y for _, y in cells]
    return min(columns), min(rows), max(columns), max(rows)


def is_too_far(cells: Cells, start: int, generations: int) -> bool:
    """Whether a run leaves the range of generations or of cells."""
    if start + generations > LAST:
        return True
    if not cells:
        return False
    left, top, right, bottom = box(cells)
    return min(left, top) - generations < -END or max(right, bottom) + generations >= END


def is_too_wide(cells: Cells) -> bool:
    """Whether no RLE text can hold the box of some cells."""
    if not cells:
        return False
    left, top, right, bottom = box(cells)
    return max(right - left, bottom - top) + 1 >= TOO_WIDE


def row_items(row: Sequence[int], left: int) -> list[Item]:
    """The runs of a row from its left end to its last live cell."""
    items, column = [], left
    for x in row:
        if x > column:
            items.append((x - column, "b"))
        if items and items[-1][1] == "o" and x == column:
            items[-1] = (items[-1][0] + 1, "o")
        else:
            items.append((1, "o"))
        column = x + 1
    return items


def rle_items(cells: Cells) -> list[Item]:
    """The runs of some cells row by row, as counts and tags."""
    left, rows = min(x for x, _ in cells), {}
    for x, y in sorted(cells, key=lambda cell: (cell[1], cell[0])):
        rows.setdefault(y, []).append(x)
    items, last = [], None
    for y, row in rows.items():
        if last is not None:
            items.append((y - last, "$"))
        items += row_items(row, left)
        last = y
    return items


def rle_head(cells: Cells, rule: str, generation: int, comments: Sequence[str]) -> list[str]:
    left, top, right, bottom = box(cells) if cells else (0, 0, -1, -1)
    return [
        f"#CXRLE Pos={left},{top} Gen={generation}",
        *comments,
        f"x = {right - left + 1}, y = {bottom - top + 1}, rule = {rule}",
    ]


def rle_text(cells: Cells, rule: str, generation: int, comments: Sequence[str] = ()) -> str:
    """The RLE text of some cells."""
    items = rle_items(cells) if cells else []
    lines, line = rle_head(cells, rule, generation, comments), ""
    for text in [(str(count) if count > 1 else "") + tag for count, tag in items] + ["!"]:
        if len(line) + len(text) > 70:
            lines.append(line)
            line = ""
        line += text
    return "".join(line + "\n" for line in [*lines, line])


def leaf_line(cells: Cells, left: int, top: int) -> str:
    """The line of a square of 8 by 8 cells."""
    rows = {}
    for x, y in cells:
        rows.setdefault(y - top, set()).add(x - left)
    line = ""
    for y in range(max(rows) + 1):
        row = rows.get(y, set())
        line += "".join("*" if x in row else "." for x in range(max(row, default=-1) + 1)) + "$"
    return line


class Nodes:
    """The node lines of a square, each behind those of its quadrants; equal lines are one where they are shared."""

    def __init__(self, is_shared: bool = True):
        self.lines, self.numbers, self.is_shared = [], {}, is_shared

    def add(self, line: str) -> int:
        if line in self.numbers and self.is_shared:
            return self.numbers[line]
        self.lines.append(line)
        self.numbers[line] = len(self.lines)
        return len(self.lines)

    def square(self, level: int, left: int, top: int, cells: Cells) -> int:
        """The number of a square of side 2^level with these cells in it."""
        if not cells:
            return 0
        if level == 3:
            return self.add(leaf_line(cells, left, top))
        half, quarters = 1 << (level - 1), ([], [], [], [])
        for x, y in cells:
            quarters[(x >= left + half) + 2 * (y >= top + half)].append((x, y))
        kids = [
            self.square(level - 1, left + half * (place % 2), top + half * (place // 2), quarter)
            for place, quarter in enumerate(quarters)
        ]
        return self.add(" ".join(map(str, [level, *kids])))


def root_level(cells: Cells) -> int:
    """The smallest level of at least 4 whose square round (0,0) has all cells."""
    level = 4
    while any(not -(1 << (level - 1)) <= part < 1 << (level - 1) for cell in cells for part in cell):
        level += 1
    return level


def node_lines(cells: Cells, level: int, is_shared: bool = True) -> list[str]:
    nodes = Nodes(is_shared)
    nodes.square(level, -(1 << (level - 1)), -(1 << (level - 1)), list(cells))
    return nodes.lines


def macrocell_text(cells: Cells, rule: str, generation: int, comments: Sequence[str] = ()) -> str:
    """The macrocell text of some cells."""
    head = ["[M2] (lifebatch 1)", f"#R {rule}", f"#G {generation}", *comments]
    return "".join(line + "\n" for line in head + node_lines(cells, root_level(cells)))


def picture(cells: Cells, window: tuple[int, int, int, int]) -> str:
    """The rows of a window, a line each."""
    x, y, width, height = window
    rows = ("".join("*" if (x + i, y + j) in cells else "." for i in range(width)) for j in range(height))
    return "".join(row + "\n" for row in rows)
