"""How far cells were moved, in plain Python."""
from typing import Union

from common.cells import Cell


def displacement(first: set[Cell], cells: set[Cell]) -> Union[tuple[int, int], None]:
    """How far the first cells were moved to become the others, or None."""
    if not first and not cells:
        return 0, 0
    if len(first) != len(cells):
        return None
    # The lowest cell in reading order goes to the lowest.
    (x, y), (to_x, to_y) = (min(it, key=lambda cell: (cell[1], cell[0])) for it in (first, cells))
    moves = to_x - x, to_y - y
    return moves if {(x + moves[0], y + moves[1]) for x, y in first} == cells else None
