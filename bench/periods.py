#!/usr/bin/env python3
"""Times lifeperiod beside lifebatch, which runs the same generations of the same patterns, and prints a table.

    bench/periods.py               the best of three rounds
    bench/periods.py --rounds 5    the best of five

With --most lifeperiod stops at each generation, and lifebatch reports each. With --multiple lifeperiod stops at each
divisor, and lifebatch runs to the last. A ratio is the time of lifeperiod divided by that of lifebatch. A row differs
if a program fails.
"""
import argparse
import pathlib
import sys
import tempfile
from dataclasses import dataclass

sys.path.insert(0, str(pathlib.Path(__file__).resolve().parent.parent / "checks"))

from commands import SETTINGS
from common.check import BUILT, BUILT_PERIOD, GOLLY_PATTERNS, Check, end, sum_up
from common.program import PATTERNS, ROOT, unpacked
from timing import Command, Run, best_of_rounds

CHECK = Check(
    text=__doc__,
    needs=(BUILT, BUILT_PERIOD, GOLLY_PATTERNS),
    takes="two minutes on a machine that does nothing else",
    replay="run it again.",
)

# Gosper's glider gun, whose parts have period 30.
GUN = """x = 36, y = 9, rule = B3/S23
24bo$22bobo$12b2o6b2o12b2o$11bo3bo4b2o12b2o$2o8bo5bo3b2o$2o8bo3bob2o4bobo$10bo5bo7bo$11bo3bo$12b2o!
"""


@dataclass(frozen=True)
class Row:
    """A pattern, how far it is searched, and whether by the divisors of that number."""

    name: str
    file: pathlib.Path | None
    generations: int
    is_multiple: bool = False

    def commands(self, options: argparse.Namespace, folder: pathlib.Path) -> list[Command]:
        path = unpacked(self.file, folder) if self.file else folder / "gun.rle"
        number = str(self.generations)
        ours = [str(options.period.resolve()), "--multiple" if self.is_multiple else "--most", number, str(path)]
        theirs = [str(options.program.resolve()), "-m", number, *([] if self.is_multiple else ["-i", "1"]), str(path)]
        return [Command(ours, SETTINGS), Command(theirs, SETTINGS)]


ROWS = [
    Row("p30 gun", None, 10000),
    Row("R-pentomino", ROOT / "examples" / "r-pentomino.rle", 10000),
    Row("Demonoid", PATTERNS / "HashLife" / "demonoid-c512-hashlife-friendly.mc.gz", 2097152, is_multiple=True),
]


def is_compared(row: Row, options: argparse.Namespace, folder: pathlib.Path) -> bool:
    """Prints the times of a row, and returns whether both programs ended well."""
    ours, theirs = best_of_rounds(row.commands(options, folder), options.rounds, folder)
    is_whole = isinstance(ours, Run) and isinstance(theirs, Run)
    ratio = f"{ours.seconds / theirs.seconds:.2f}" if is_whole else "-"
    words = f"{'--multiple' if row.is_multiple else '--most'} {row.generations}"
    print(f"| {row.name} | {words} | {ours} | {theirs} | {ratio} |", flush=True)
    return is_whole


def main() -> int:
    parser = CHECK.parser()
    parser.add_argument("--rounds", type=int, default=3, help="how many runs of each; the best counts (3)")
    options = CHECK.options(parser)
    print("| Pattern | Search | lifeperiod | lifebatch | Ratio |\n|---|---|---|---|---|")
    with tempfile.TemporaryDirectory() as name:
        folder = pathlib.Path(name)
        (folder / "gun.rle").write_text(GUN)
        held = [is_compared(row, options, folder) for row in ROWS]
    return sum_up(held, "rows")


if __name__ == "__main__":
    end(main)
