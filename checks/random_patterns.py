#!/usr/bin/env python3
"""Compares lifebatch with a program that goes cell by cell, on random patterns.

    checks/random_patterns.py --count 500 --seed 7
    checks/random_patterns.py --seed 7 --only 31    only pattern 31 of seed 7

Each run has a random pattern, a rule in one of the three neighbourhoods, generations, a step, perhaps a window, a limit
of slots, a number of workers, an output file in one of the two formats, and an input file in one of them, in odd
spellings and sometimes with a fault. Report, picture, output file, message and status have to be the same to the byte.
With a small limit lifebatch may refuse a run as NodesFull. Its report then has to be the first lines of the right one,
and there may be no file. The script counts such a run as skipped.
"""
import argparse
import pathlib
import random
import tempfile
from collections import Counter

from common import cells as plain
from common import spellings
from common.check import BUILT, Check, end, status_of
from common.program import Ended, run
from common.random_cases import add_cases, chances, kept, show_difference

CHECK = Check(
    text=__doc__,
    needs=(BUILT,),
    takes="15 s for 200 patterns",
    quick=("--count", "60"),
    quickly="5 s",
    replay="give the --seed, the --only and the --workers that are printed. The file stays where the message says.",
)

# A pattern stops at so many cells.
MOST_CELLS = 4000

FULL = (1, "lifebatch: refused 17: NodesFull\n")

# What is told of a run.
PARTS = ["the status", "the report or the picture", "the message", "the output file"]
Told = tuple[int, str, str, str | None]


def random_rule(chance: random.Random) -> plain.Rule:
    letter = chance.choice(["", "V", "H"])
    if chance.random() < 0.4:
        return {"": plain.Rule({3}, {2, 3}), "V": plain.Rule({1}, {}, "V"), "H": plain.Rule({2}, {3, 4}, "H")}[letter]
    most = len(plain.NEIGHBOURHOODS[letter])
    birth = {n for n in range(1, most + 1) if chance.random() < 0.3}
    survival = {n for n in range(most + 1) if chance.random() < 0.4}
    return plain.Rule(birth, survival, letter)


def random_corner(chance: random.Random) -> tuple[int, int]:
    """Where a pattern begins, mostly near (0,0)."""
    near = chance.randint(-60, 60), chance.randint(-60, 60)
    if chance.random() < 0.75:
        return near
    far = chance.choice([2**33, -(2**40), plain.END - 60, 60 - plain.END, plain.END - 200, 2**61])
    return chance.choice([(far, near[1]), (near[0], far), (far, far)])


def soup(chance: random.Random, corner: tuple[int, int]) -> set[tuple[int, int]]:
    most, densities = chance.choice([(40, [0, 0.05, 0.2, 0.35, 0.5])] * 3 + [(130, [0.05, 0.1])])
    width, height = chance.randint(1, most), chance.randint(1, most)
    density = chance.choice(densities)
    places = ((corner[0] + x, corner[1] + y) for x in range(width) for y in range(height))
    return {
        (x, y) for x, y in places if chance.random() < density and max(x, y) < plain.END and min(x, y) >= -plain.END
    }


def random_cells(chance: random.Random) -> set[tuple[int, int]]:
    corner = random_corner(chance)
    found = soup(chance, corner)
    if chance.random() < 0.1:
        found |= soup(chance, (corner[0] + plain.TOO_WIDE - chance.choice([30, 300, 3000]), corner[1]))
    return found


class Case:
    """A random run, and its right result: status, report, message and output file."""

    def __init__(self, chance: random.Random, workers: list[int]):
        self.rule, self.cells = random_rule(chance), random_cells(chance)
        self.start = chance.choice([0, 0, 7, plain.LAST - 20])
        self.generations = chance.choice([0, 1, 2, 3, 10, 33, 64, 100])
        self.step = chance.choice([0, 0, 1, 5, 16])
        self.is_quiet = chance.random() < 0.15
        self.nodes = chance.choice([1024, 2048, 4096, 32768, None, None, None])
        self.workers = chance.choice(workers)
        self.output = chance.choice([".rle", ".mc", None])
        self.window = self.random_window(chance)
        self.make_file(chance)
        self.told = self.refused_at_once() or self.ending()

    def random_window(self, chance: random.Random) -> tuple[int, ...] | None:
        if chance.random() < 0.4:
            return None
        left, top = plain.box(self.cells)[:2] if self.cells else (0, 0)
        corner = (max(-plain.END, min(plain.END, part + chance.randint(-40, 10))) for part in (left, top))
        return *corner, chance.randint(1, 70), chance.randint(1, 70)

    def make_file(self, chance: random.Random) -> None:
        """The input file, in one of the formats, with its comments and perhaps a fault or a rule that is none."""
        self.is_given = chance.random() < 0.2
        self.is_bad_rule = chance.random() < 0.1
        text = chance.choice(["B03/S23", "Life", ""]) if self.is_bad_rule else self.rule.text()
        self.rule_fault = (4, "BirthOnZero") if text == "B03/S23" else (3, "BadRule")
        self.comments = [chance.choice(spellings.KEPT) for _ in range(chance.choice([0, 0, 1, 3]))]
        is_near = all(abs(part) < 2**32 for cell in self.cells for part in cell)
        fault = (
            chance.choice(["tag", "states", "zero", "range", "cells"]) if is_near and chance.random() < 0.12 else None
        )
        spelled = chance.choice([spellings.rle_file, spellings.macrocell_file])
        self.file, self.rule_place, self.fault = spelled(self.cells, text, self.start, self.comments, chance, fault)

    def refused_at_once(self) -> Told | None:
        """The result of a run that is refused before its first line, or None."""
        if self.fault:
            number, name, place = self.fault
            return 1, "", f"lifebatch: refused {number} at {place}: {name}\n", None
        if self.is_bad_rule and not self.is_given:
            number, name = self.rule_fault
            return 1, "", f"lifebatch: refused {number} at {self.rule_place}: {name}\n", None
        if plain.is_too_far(self.cells, self.start, self.generations):
            return 1, "", "lifebatch: refused 14: TooFar\n", None
        return None

    def shows(self, done: int) -> bool:
        is_end = done in (0, self.generations)
        return not self.is_quiet and (is_end or self.step > 0 and done % self.step == 0)

    def ending(self) -> Told:
        """The result of an accepted run, cell by cell."""
        report, found = "", self.cells
        for done in range(self.generations + 1):
            if len(found) > MOST_CELLS:
                self.generations = done
            if self.shows(done):
                report += f"{self.start + done}: {len(found)}\n"
            if done == self.generations:
                break
            found = self.rule.next(found)
        if self.window:
            report += plain.picture(found, self.window)
        if self.output == ".rle" and plain.is_too_wide(found):
            return 1, report, "lifebatch: refused 15: BoxTooLarge\n", None
        written = {".rle": plain.rle_text, ".mc": plain.macrocell_text, None: lambda *_: None}[self.output]
        return 0, report, "", written(found, self.rule.text(), self.start + self.generations, self.comments)

    def words(self) -> list[str]:
        words = ["-m", str(self.generations), "-i", str(self.step), *(["-q"] if self.is_quiet else [])]
        words += ["-o", "out" + self.output] if self.output else []
        words += ["--window=" + ",".join(map(str, self.window))] if self.window else []
        words += ["--nodes", str(self.nodes)] if self.nodes else []
        words += ["--workers", str(self.workers)] if self.workers > 1 else []
        return words + (["-r", self.rule.text()] if self.is_given else [])


def is_full_table(case: Case, ended: Ended, is_written: bool) -> bool:
    """Whether a run met a full table, and left what it may."""
    report = ended.report
    is_beginning = case.told[1].startswith(report) and (not report or report.endswith("\n"))
    return case.nodes is not None and (ended.status, ended.message) == FULL and is_beginning and not is_written


def compare(program: str, case: Case, folder: pathlib.Path, seconds: float) -> str:
    """The result of a case: "same", "full", or what differs."""
    for old in folder.iterdir():
        old.unlink()
    (folder / "in").write_bytes(case.file)
    ended = run([program, *case.words(), "in"], folder, seconds)
    if ended.status is None:
        return f"lifebatch takes more than {seconds:g} s"
    written = {it.name: it.read_bytes() for it in folder.iterdir() if it.name != "in"}
    if is_full_table(case, ended, bool(written)):
        return "full"
    *printed, file = case.told
    wanted = (*printed, {} if file is None else {f"out{case.output}": file.encode()})
    found = (ended.status, ended.report, ended.message, written)
    differing = [name for name, ours, theirs in zip(PARTS, found, wanted) if ours != theirs]
    return f"{' and '.join(differing)} {'differs' if len(differing) == 1 else 'differ'}" if differing else "same"


def answers(options: argparse.Namespace) -> Counter:
    """How many patterns are the same, refused, full or different."""
    program, counts = str(options.program.resolve()), Counter()
    with tempfile.TemporaryDirectory() as name:
        for number, chance in chances(options):
            case = Case(chance, options.workers)
            answer = compare(program, case, pathlib.Path(name), options.seconds)
            if answer in ("same", "full"):
                counts["refused" if answer == "same" and case.told[0] else answer] += 1
            else:
                words = ["lifebatch", *case.words(), kept(number, options, case.file)]
                show_difference(number, options, answer, words)
                counts["different"] += 1
    return counts


def parsed() -> argparse.Namespace:
    parser = CHECK.parser()
    add_cases(parser, "pattern", 200)
    parser.add_argument(
        "--workers", type=int, nargs="+", default=[1, 2, 4, 64], help="numbers of workers to choose from (1 2 4 64)"
    )
    parser.add_argument("--seconds", type=float, default=120, help="how long a run may take (120)")
    return CHECK.options(parser)


def main() -> int:
    counts = answers(parsed())
    compared = counts["same"] + counts["refused"]
    print(
        f"{compared} patterns are the same, {counts['refused']} of them refused by name and place, "
        f"{counts['full']} skipped that met a full table, {counts['different']} differ"
    )
    return status_of(compared, counts["different"])


if __name__ == "__main__":
    end(main)
