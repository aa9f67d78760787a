#!/usr/bin/env python3
"""Compares the periods that lifeperiod finds for Golly's patterns with those that their files say.

    checks/golly_periods.py
    checks/golly_periods.py --engineered 600      also those that take up to ten minutes each

A file is a still life, an oscillator or a spaceship, and its comments say the period; or it is a collection of such
objects, which are cut out of it, and its comments list their periods. The script shows for each what it took. It looks
for the words of the comments in the file.

With --engineered N the patterns whose periods are in the millions and more are tried too, each for at most N seconds.
One that does not end by then is listed and not counted.
"""
import argparse
import pathlib
import re
import tempfile
import time
from collections import Counter
from collections.abc import Callable
from dataclasses import dataclass

from common import cells as plain
from common.check import BUILT_PERIOD, GOLLY_PATTERNS, Check, end, status_of
from common.files import comments, objects, rle_cells
from common.program import PATTERNS, run, unpacked

CHECK = Check(
    text=__doc__,
    needs=(BUILT_PERIOD, GOLLY_PATTERNS),
    takes="15 s, and up to half an hour with --engineered 600",
    quick=("--only", "Spaceships/"),
    quickly="5 s",
    replay="give --only with the path that is printed.",
)

# How long a pattern may take that is not engineered.
SECONDS = 60

LINE = re.compile(r"period (\d+), moves (-?\d+), (-?\d+)\n")


@dataclass(frozen=True)
class Whole:
    """A file that is one object, what its comments say, and words that find its period."""

    file: str
    says: str
    period: int
    words: tuple[str, ...] = ()

    def judge(self, path: pathlib.Path, find: Callable[..., tuple[int, int, int] | None]) -> bool:
        found = find(path, *(self.words or ("--most", str(2 * self.period))))
        return self.says in comments(path) and found is not None and found[0] == self.period


# How often each period, or each period with its moves, is listed.
Listed = Counter


@dataclass(frozen=True)
class Collection:
    """A file of objects with so many empty columns or rows between them, and the list in its comments."""

    file: str
    gap: int
    listed: Callable[[str], Listed]
    # What is listed of an object, by its period and its moves.
    told: Callable[[tuple[int, int, int]], object]

    def judge(self, path: pathlib.Path, find: Callable[..., tuple[int, int, int] | None]) -> bool:
        found = Counter()
        for cells in objects(rle_cells(path), self.gap):
            part = path.parent / "object.rle"
            part.write_text(plain.rle_text(cells, "B3/S23", 0))
            answer = find(part, "--most", "100")
            found[self.told(answer) if answer else None] += 1
        return found == self.listed(comments(path))


def periods_listed(text: str) -> Listed:
    """The periods in lines as `p12      39`."""
    return Counter(int(it) for it in re.findall(r"^ +p(\d+) +\d+$", text, re.MULTILINE))


def types_listed(text: str) -> Listed:
    """The types in lines as `(2,1)c/6  282 cells`, with the period and the two moves."""
    rows = re.findall(r"^ +\((\d),(\d)\)c/(\d) +\d+ cells", text, re.MULTILINE)
    return Counter((int(period), int(more), int(less)) for more, less, period in rows)


def types_in_tables(text: str) -> Listed:
    """The types in lines as `(1,0)c/2  |   21    | 12* (..)` of both tables."""
    rows = re.findall(r"^ +\((\d),(\d)\)c/(\d) +\| +\d+ +\|", text, re.MULTILINE)
    return Counter((int(period), int(more), int(less)) for more, less, period in rows)


def type_of(answer: tuple[int, int, int]) -> tuple[int, int, int]:
    """The period, and the moves without their directions, the larger first."""
    period, *moves = answer
    return period, *sorted(map(abs, moves), reverse=True)


OBJECTS = [
    Whole("Life/Still-Lifes/random.rle", "still life", 1),
    Whole("Life/Still-Lifes/stripey.rle", "still life", 1),
    Whole("Life/Oscillators/queen-bee-turn.rle", "p88 oscillator", 88),
    Whole("Life/Signal-Circuitry/p30-racetrack.rle", "1800 generations", 1800),
    Whole("Life/Signal-Circuitry/p46racetrack.rle", "P6072 oscillator", 6072),
    Whole("Life/Spaceships/Corder-lineship.rle", "p96 c/12 diagonal", 96),
    Whole("Life/Spaceships/Cordership-LWSS-freeze-tag.rle", "p384 spaceship", 384),
    Whole("Life/Spaceships/Cordership-boat-burner.rle", "period 576 c/12 spaceship", 576),
    Whole("Life/Spaceships/adjustable-Corder-lineship.rle", "period 6144", 6144),
    Collection("Life/Spaceships/smallest-low-period.rle", 8, periods_listed, lambda answer: answer[0]),
    Collection("Life/Spaceships/spaceship-types.rle", 6, types_listed, type_of),
    Collection("Life/Spaceships/short-thin.rle", 6, types_in_tables, type_of),
]

ENGINEERED = [
    Whole("HashLife/demonoid-c512-hashlife-friendly.mc.gz", "2097152 ticks", 2097152, ("--multiple", "2097152")),
    Whole("Life-Like/white-whale.rle", "160,000,346", 160000346, ("--multiple", "160000346")),
    Whole(
        "Life/Oscillators/p103079214841.rle",
        "p103079214841",
        103079214841,
        ("--multiple", "103079214841", "--nodes", "67108864"),
    ),
]


class Search:
    """Calls lifeperiod, each time for so many seconds."""

    def __init__(self, program: pathlib.Path, folder: pathlib.Path, seconds: float):
        self.program, self.folder, self.seconds, self.is_late, self.calls = program, folder, seconds, False, 0

    def find(self, path: pathlib.Path, *words: str) -> tuple[int, int, int] | None:
        """The period and the moves that lifeperiod finds, or None."""
        ended = run([str(self.program), *words, str(path)], self.folder, self.seconds)
        self.is_late = self.is_late or ended.status is None
        self.calls += 1
        line = LINE.fullmatch(ended.report)
        return (int(line[1]), int(line[2]), int(line[3])) if line and ended.status == 0 else None


def tried(row: Whole | Collection, options: argparse.Namespace, folder: pathlib.Path, seconds: float) -> Counter:
    """How many objects of a file have the period that it says, differ or took too long."""
    search = Search(options.period.resolve(), folder, seconds)
    began = time.monotonic()
    (folder / "file").mkdir(exist_ok=True)
    path = unpacked(options.folder / row.file, folder / "file")
    copy = folder / "file" / path.name
    copy.write_bytes(path.read_bytes())
    is_same = row.judge(copy, search.find)
    answer = "same" if is_same else "late" if search.is_late else "different"
    told = {"same": "as its comments say", "late": f"no end in {seconds:g} s", "different": "DIFFERS"}[answer]
    print(f"{row.file}: {told}, {search.calls} objects, {time.monotonic() - began:.1f} s", flush=True)
    return Counter({answer: search.calls})


def parsed() -> argparse.Namespace:
    parser = CHECK.parser()
    parser.add_argument("--only", nargs="+", default=[], help="only the files with one of these texts in their paths")
    parser.add_argument(
        "--folder", type=pathlib.Path, default=PATTERNS, help=f"the folder of the patterns ({PATTERNS})"
    )
    parser.add_argument(
        "--engineered",
        type=float,
        default=0,
        metavar="SECONDS",
        help="how long each engineered pattern may take; they are not tried without it",
    )
    return CHECK.options(parser)


def main() -> int:
    options = parsed()
    rows = [(row, SECONDS) for row in OBJECTS] + [(row, options.engineered) for row in ENGINEERED if options.engineered]
    counts = Counter()
    with tempfile.TemporaryDirectory() as name:
        for row, seconds in rows:
            if not options.only or any(part in row.file for part in options.only):
                counts += tried(row, options, pathlib.Path(name), seconds)
    late = f", {counts['late']} did not end" if counts["late"] else ""
    print(f"{counts['same']} objects have the periods that their files say, {counts['different']} differ{late}")
    return status_of(counts["same"], counts["different"])


if __name__ == "__main__":
    end(main)
