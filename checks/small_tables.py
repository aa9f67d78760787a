#!/usr/bin/env python3
"""Compares runs in small tables with the same runs in tables of the usual size, on random soups.

    checks/small_tables.py --count 40 --seed 7
    checks/small_tables.py --seed 7 --only 31    only soup 31 of seed 7

Each soup has a random rule in one of the three neighbourhoods, a size, a density, a number of generations, a step and
an output format. It is run with the usual limit of slots and one worker, and then with each limit from 1024 slots up to
the usual one, with one worker and with several. In small tables nearly all squares are collected or computed again.
Report, message, status and output file have to be the same to the byte; or the small run is refused as NodesFull, its
report is the first lines of the right one, and there is no file. The script counts such a run as full.
"""
import argparse
import pathlib
import random
import tempfile
from collections import Counter
from collections.abc import Iterator

from common.check import BUILT, Check, end, status_of
from common.program import run
from common.random_cases import add_cases, chances, kept, show_difference

CHECK = Check(
    text=__doc__,
    needs=(BUILT,),
    takes="3 minutes for 100 soups, which are 2600 runs in small tables",
    quick=("--count", "10"),
    quickly="20 s",
    replay="give the --seed, the --only and the --workers that are printed. The soup stays where the message says.",
)

RULES = [
    "B3/S23",
    "B36/S23",
    "B3678/S34678",
    "B1357/S1357",
    "B2/S",
    "B36/S125",
    "B1/S1V",
    "B13/S012V",
    "B2/S34H",
    "B24/S135H",
]
LIMITS = [2**power for power in range(10, 23)]
FULL = (1, "lifebatch: refused 17: NodesFull\n")

# The status, the report, the message and the files of a run.
Told = tuple[int | None, str, str, dict[str, bytes]]


class Soup:
    """A random pattern and the arguments of its run."""

    def __init__(self, chance: random.Random):
        self.rule = chance.choice(RULES)
        self.side = chance.choice([8, 30, 100, 250])
        self.density = chance.choice([0.05, 0.2, 0.37, 0.5])
        self.generations = chance.choice([1, 20, 100, 300, 1000])
        self.step = chance.choice([0, 0, 7, 50])
        self.output = chance.choice(["out.rle", "out.mc"])
        rows = ("".join("bo"[chance.random() < self.density] for _ in range(self.side)) for _ in range(self.side))
        self.text = f"x = {self.side}, y = {self.side}, rule = {self.rule}\n" + "$\n".join(rows) + "!\n"

    def words(self, nodes: int, workers: int) -> list[str]:
        words = ["-m", str(self.generations), "-i", str(self.step), "-o", self.output]
        return words + ["--nodes", str(nodes), "--workers", str(workers)]


def told(program: str, soup: Soup, words: list[str], seconds: float) -> Told:
    """What a run of the soup says and writes."""
    with tempfile.TemporaryDirectory() as name:
        folder = pathlib.Path(name)
        (folder / "soup.rle").write_text(soup.text)
        ended = run([program, *words, "soup.rle"], folder, seconds)
        files = {it.name: it.read_bytes() for it in folder.iterdir() if it.name != "soup.rle"}
        return ended.status, ended.report, ended.message, files


def compared(small: Told, usual: Told) -> str:
    """How a run in small tables compares: "same", "full" or "different"."""
    if small == usual:
        return "same"
    status, report, message, files = small
    is_beginning = usual[1].startswith(report) and (not report or report.endswith("\n"))
    return "full" if (status, message) == FULL and is_beginning and not files else "different"


def answers(program: str, soup: Soup, options: argparse.Namespace) -> Iterator[tuple[str, list[str]]]:
    """How each run of a soup compares, and its arguments."""
    usual = told(program, soup, soup.words(LIMITS[-1], 1), options.seconds)
    if usual[0] != 0:
        yield "different", soup.words(LIMITS[-1], 1)
        return
    for nodes in LIMITS:
        for workers in options.workers:
            words = soup.words(nodes, workers)
            yield compared(told(program, soup, words, options.seconds), usual), words


def counted(options: argparse.Namespace) -> Counter:
    """How many runs are the same, full or different."""
    program, counts = str(options.program.resolve()), Counter()
    for number, chance in chances(options):
        soup = Soup(chance)
        for answer, words in answers(program, soup, options):
            counts[answer] += 1
            if answer == "different":
                file = kept(number, options, soup.text.encode(), ".rle")
                show_difference(number, options, "not the same", ["lifebatch", *words, file])
    return counts


def parsed() -> argparse.Namespace:
    parser = CHECK.parser()
    add_cases(parser, "soup", 100)
    parser.add_argument("--workers", type=int, nargs="+", default=[1, 4], help="numbers of workers (1 4)")
    parser.add_argument("--seconds", type=float, default=120, help="how long a run may take (120)")
    return CHECK.options(parser)


def main() -> int:
    counts = counted(parsed())
    print(
        f"{counts['same']} runs in small tables are the same, {counts['full']} were full, {counts['different']} differ"
    )
    return status_of(counts["same"] + counts["full"], counts["different"])


if __name__ == "__main__":
    end(main)
