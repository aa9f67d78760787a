#!/usr/bin/env python3
"""Compares lifeperiod with a program that goes cell by cell, on random small patterns.

    checks/random_periods.py --count 1000 --seed 7
    checks/random_periods.py --seed 7 --only 31    only pattern 31 of seed 7

Each search has a random pattern, a rule in one of the three neighbourhoods, perhaps some generations before it, and
either the most generations or a multiple, up to 60. The line and the status have to be the same to the byte. The script
also says how many of the patterns have a period.
"""
import argparse
import pathlib
import random
import tempfile
from collections import Counter

from common import cells as plain
from common.check import BUILT_PERIOD, Check, end, status_of
from common.program import Ended, run
from common.random_cases import add_cases, chances, kept, show_difference

CHECK = Check(
    text=__doc__,
    needs=(BUILT_PERIOD,),
    takes="10 s for 300 patterns",
    quick=("--count", "100"),
    quickly="4 s",
    replay="give the --seed and the --only that are printed. The file stays where the message says.",
)

MOST = 60
# A pattern with more cells is not followed.
MOST_CELLS = 2000


class Case:
    """A random search, and its right line."""

    def __init__(self, chance: random.Random):
        self.rule, self.cells = self.random_pattern(chance)
        self.before = chance.choice([0, 0, 0, 1, 5, 20])
        self.is_multiple, self.number = chance.random() < 0.4, chance.randint(1, MOST)
        self.workers = chance.choice([1, 1, 2])
        self.line = self.right_line()

    @staticmethod
    def random_pattern(chance: random.Random) -> tuple[plain.Rule, set[plain.Cell]]:
        corner = chance.randint(-100, 100), chance.randint(-100, 100)
        letter = chance.choice(["", "", "V", "H"])
        most = len(plain.NEIGHBOURHOODS[letter])
        # Rules that bear little have more oscillators.
        birth = {n for n in range(2, most + 1) if chance.random() < 0.25}
        survival = {n for n in range(most + 1) if chance.random() < 0.4}
        rule = plain.Rule({3}, {2, 3}) if chance.random() < 0.4 else plain.Rule(birth, survival, letter)
        width, height, density = chance.randint(1, 7), chance.randint(1, 7), chance.choice([0.2, 0.4, 0.6, 1])
        cells = {
            (corner[0] + x, corner[1] + y) for x in range(width) for y in range(height) if chance.random() < density
        }
        return rule, cells

    def right_line(self) -> str | None:
        """The line, by the cells of each generation, or None where they are too many."""
        cells = self.cells
        for _ in range(self.before):
            cells = self.rule.next(cells)
            if len(cells) > MOST_CELLS:
                return None
        first = cells
        for tried in range(1, self.number + 1):
            cells = self.rule.next(cells)
            if len(cells) > MOST_CELLS:
                return None
            is_candidate = not self.is_multiple or self.number % tried == 0
            moves = displacement(first, cells) if is_candidate else None
            if moves:
                return f"period {tried}, moves {moves[0]}, {moves[1]}\n"
        return f"no period divides {self.number}\n" if self.is_multiple else f"no period up to {self.number}\n"

    def text(self) -> str:
        return plain.rle_text(self.cells, self.rule.text(), 0)

    def words(self) -> list[str]:
        words = ["--multiple" if self.is_multiple else "--most", str(self.number)]
        return [*words, "-m", str(self.before), "--workers", str(self.workers)]


def displacement(first: set[plain.Cell], cells: set[plain.Cell]) -> tuple[int, int] | None:
    """How far the first cells were moved to become the others, or None."""
    if not first and not cells:
        return 0, 0
    if len(first) != len(cells):
        return None
    # The lowest cell in reading order goes to the lowest.
    (x, y), (to_x, to_y) = (min(it, key=lambda cell: (cell[1], cell[0])) for it in (first, cells))
    moves = to_x - x, to_y - y
    return moves if {(x + moves[0], y + moves[1]) for x, y in first} == cells else None


def compare(program: str, case: Case, file: pathlib.Path, seconds: float) -> str:
    """What differs, or "same"."""
    file.write_text(case.text())
    ended = run([program, *case.words(), str(file)], file.parent, seconds)
    return (
        "same" if ended == Ended(0, case.line, "") else f"{ended.report.strip()} {ended}, and not {case.line.strip()}"
    )


def answers(options: argparse.Namespace) -> Counter:
    """How many searches are the same, not followed or different, and how many found a period."""
    counts = Counter()
    with tempfile.TemporaryDirectory() as name:
        for number, chance in chances(options):
            case = Case(chance)
            if case.line is None:
                counts["large"] += 1
                continue
            answer = compare(str(options.period.resolve()), case, pathlib.Path(name) / "in.rle", options.seconds)
            counts["same" if answer == "same" else "different"] += 1
            counts["found"] += case.line.startswith("period")
            if answer != "same":
                words = ["lifeperiod", *case.words(), kept(number, options, case.text().encode(), ".rle")]
                show_difference(number, options, answer, words)
    return counts


def parsed() -> argparse.Namespace:
    parser = CHECK.parser()
    add_cases(parser, "pattern", 400)
    parser.add_argument("--seconds", type=float, default=60, help="how long a search may take (60)")
    return CHECK.options(parser)


def main() -> int:
    counts = answers(parsed())
    print(
        f"{counts['same']} searches are the same, of which {counts['found']} found a period, "
        f"{counts['large']} grow too large, {counts['different']} differ"
    )
    return status_of(counts["same"], counts["different"])


if __name__ == "__main__":
    end(main)
