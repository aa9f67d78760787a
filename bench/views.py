"""The table of lifeview beside lifebatch, which only reads the same files."""
import argparse
import pathlib
from collections.abc import Iterator, Sequence
from dataclasses import dataclass

from commands import lifebatch, lifeview, pattern_file
from rows import Row
from timing import Found, Run, best_of_rounds

HEAD = "\n| File | lifebatch, only reading | lifeview | Last population |\n|---|---|---|---|"


@dataclass(frozen=True)
class View:
    """The runs of lifebatch and of lifeview on the file of a row, or why there is none."""

    row: Row
    ours: Found
    view: Found

    def is_compared(self) -> bool:
        return isinstance(self.ours, Run) and isinstance(self.view, Run)

    def lasts(self) -> list[str]:
        """What the programs report, up to the population. lifeview reports more behind it."""
        return sorted({it.last.partition(" cells")[0] for it in (self.ours, self.view) if isinstance(it, Run)})

    def differs(self) -> bool:
        return not self.is_compared() or len(self.lasts()) > 1

    def __str__(self) -> str:
        population = (
            ("same" if len(self.lasts()) == 1 else " and ".join(self.lasts())) if self.is_compared() else "not compared"
        )
        return f"| {self.row.name} | {self.ours} | {self.view} | {population} |"


def views(rows: Sequence[Row], options: argparse.Namespace, folder: pathlib.Path) -> Iterator[View]:
    """Runs both programs by turns on the file of each row that has one."""
    for row in rows:
        path = pattern_file(row, folder)
        if path is not None:
            yield View(
                row,
                *best_of_rounds([lifebatch(row, path, 1, options), lifeview(path, options)], options.rounds, folder),
            )


def print_views(rows: Sequence[Row], options: argparse.Namespace, folder: pathlib.Path) -> list[View]:
    """Prints a row of the table after each row that is run."""
    found = []
    print(HEAD)
    for it in views(rows, options, folder):
        found.append(it)
        print(it, flush=True)
    return found
