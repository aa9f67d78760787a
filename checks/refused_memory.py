#!/usr/bin/env python3
"""Runs lifebatch and lifeperiod with each growth of their memory refused in turn, and checks the result of each run.

    checks/refused_memory.py
    checks/refused_memory.py --only help               the runs with "help" in their names
    checks/refused_memory.py --only help --number 17   only their 17th growth, or thread

The script compiles a small library (common/refuse.c), which is loaded before the C library and refuses the Nth growth:
by itself, as if memory were short for a moment, and with all later ones, as if none were left. N goes from 1 up to the
first run that asks for fewer. Each run has to end like the run in which nothing is refused, or with status 1, "PROGRAM:
refused 18: NoMemory", the first lines of the report and no output file. The message of a usage error may also be
shorter. Threads are refused in the same way, which must change nothing.
"""
import argparse
import itertools
import pathlib
import sys
import tempfile
from collections import Counter
from collections.abc import Iterator
from dataclasses import dataclass

from common.check import BUILT, BUILT_PERIOD, C_COMPILER, Check, end, status_of
from common.refusing import Refuser

CHECK = Check(
    text=__doc__,
    needs=(BUILT, BUILT_PERIOD, C_COMPILER),
    takes="a minute",
    quick=("--stride", "40"),
    quickly="10 s",
    replay="give the --only and the --number that are printed.",
)

# After so many runs in a row without a refusal there is no more to refuse.
MISSED = 3
WRONG = "different"

BLINKER = "x = 3, y = 1\n3o!"
GLIDER = "x = 3, y = 3, rule = B3/S23\nbob$2bo$3o!"
SHARED_LEAF = "[M2]\n*$\n4 1 1 1 1\n"
R_PENTOMINO = "x = 3, y = 3, rule = B3/S23\nb2o$2o$bo!"
REPLICATOR = "x = 1, y = 1, rule = B1357/S1357\no!"
COMMENTED = "#N Glider\n#r 23/3\nx = 3, y = 3\nbob$2bo$3o!"


@dataclass(frozen=True)
class Run:
    """A file, the words of its run, its status where nothing is refused, and its program."""

    name: str
    file: str
    words: list[str]
    status: int = 0
    program: str = "lifebatch"


@dataclass(frozen=True)
class Told:
    """The result of a run."""

    status: int
    report: str
    message: str
    # The output file, where there is one.
    file: bytes | None


RUNS = [
    Run("the blinker with its window", BLINKER, ["-m", "1", "--window=0,-1,3,3", "-o", "out.rle", "in"]),
    Run("the glider for 2^40 generations", GLIDER, ["-m", str(2**40), "-o", "out.rle", "in"]),
    Run("a shared leaf, from macrocell to RLE", SHARED_LEAF, ["-o", "out.rle", "in"]),
    Run("a shared leaf, from macrocell to macrocell", SHARED_LEAF, ["-o", "out.mc", "in"]),
    Run("a glider with a comment, to macrocell", COMMENTED, ["-m", "4", "-o", "out.mc", "in"]),
    Run("the R-pentomino for 1103 generations", R_PENTOMINO, ["-m", "1103", "-o", "out.rle", "in"]),
    Run(
        "the R-pentomino in few slots",
        R_PENTOMINO,
        ["-m", "1103", "-i", "100", "--nodes", "4096", "-o", "out.mc", "in"],
    ),
    Run("the replicator with two workers", REPLICATOR, ["-m", "256", "--workers", "2", "-o", "out.rle", "in"]),
    Run("the R-pentomino with two workers", R_PENTOMINO, ["-m", "1103", "--workers", "2", "-o", "out.rle", "in"]),
    Run("the help", BLINKER, ["--help"]),
    Run("words that are bad", BLINKER, ["-m", "x", "in"], status=2),
    Run("the period of the glider", GLIDER, ["in"], program="lifeperiod"),
    Run("the R-pentomino, which has no period up to 100", R_PENTOMINO, ["--most", "100", "in"], program="lifeperiod"),
    Run(
        "the period of the glider by a multiple, with two workers",
        GLIDER,
        ["-m", "64", "--multiple", "256", "--workers", "2", "in"],
        program="lifeperiod",
    ),
]


class Machine:
    """A folder in which memory or threads are refused to the programs."""

    def __init__(self, programs: dict[str, str], folder: pathlib.Path):
        self.programs, self.folder, self.refuser = programs, folder, Refuser(folder)

    def ended(self, run: Run, kind: str = "memory", first: int = 0, last: int = 0) -> tuple[Told, bool]:
        """The result of a run, and whether anything was refused in it."""
        (self.folder / "in").write_text(run.file)
        for old in self.folder.glob("out.*"):
            old.unlink()
        it = self.refuser.ended([self.programs[run.program], *run.words], kind, first, last)
        file = next((path.read_bytes() for path in self.folder.glob("out.*")), None)
        return Told(it.status, it.report, it.message, file), it.is_refused


def is_plain(told: Told, run: Run) -> bool:
    """Whether a run in which nothing is refused prints and writes what such a run does."""
    is_well = run.status == 0
    is_told = bool(told.report) == is_well and bool(told.message) != is_well
    return told.status == run.status and is_told and (told.file is not None) == ("-o" in run.words)


def is_no_memory(told: Told, plain: Told, run: Run) -> bool:
    """Whether a run ends with NoMemory, and leaves only what it may."""
    is_beginning = plain.report.startswith(told.report) and (not told.report or told.report.endswith("\n"))
    return (told.status, told.message, told.file) == (
        1,
        f"{run.program}: refused 18: NoMemory\n",
        None,
    ) and is_beginning


def is_cut_message(told: Told, plain: Told) -> bool:
    """Whether the message of a usage error is cut short."""
    is_one_line = told.message.startswith("lifebatch: bad words") and told.message.count("\n") == 1
    return plain.status == told.status == 2 and told.report == plain.report and is_one_line


def answer(told: Told, plain: Told, run: Run, kind: str, is_refused: bool) -> str | None:
    """The result of a run, or None if it is none of the allowed ones."""
    if told == plain:
        return "as if nothing was refused"
    if kind == "memory" and is_refused and is_no_memory(told, plain, run):
        return "NoMemory"
    if kind == "memory" and is_refused and is_cut_message(told, plain):
        return "a shorter message"
    return None


def numbers(kind: str, options: argparse.Namespace) -> Iterator[int]:
    """Which growths, or which threads, are refused."""
    if options.number:
        yield options.number
    else:
        yield from itertools.count(1, options.stride if kind == "memory" else 1)


def refused_in_turn(
    machine: Machine, run: Run, plain: Told, kind: str, is_all: bool, options: argparse.Namespace
) -> Counter:
    """The results of refusing each one in turn, by itself or with all later ones, up to the runs that ask for fewer."""
    counts, missed = Counter(), 0
    for number in numbers(kind, options):
        told, is_refused = machine.ended(run, kind, number, sys.maxsize if is_all else number)
        found = answer(told, plain, run, kind, is_refused)
        if found is None:
            counts[WRONG] += 1
            print(f"differs: {run.name}, {kind} {number}{' and all behind' if is_all else ''}: {told}", flush=True)
            print(f"    to replay: checks/refused_memory.py --only '{run.name}' --number {number}", flush=True)
        elif is_refused:
            counts[found] += 1
        missed = 0 if is_refused else missed + 1
        if missed == MISSED:
            break
    return counts


def tried(machine: Machine, run: Run, options: argparse.Namespace) -> Counter:
    """The results of a run, with each refusal."""
    plain, _ = machine.ended(run)
    if not is_plain(plain, run):
        print(f"differs: {run.name}, nothing refused: {plain}", flush=True)
        return Counter({WRONG: 1})
    counts = Counter()
    for kind, is_all in itertools.product(("memory", "thread"), (False, True)):
        found = refused_in_turn(machine, run, plain, kind, is_all, options)
        counts += found
        said = ", ".join(f"{name} {count}" for name, count in sorted(found.items())) or "none asked for"
        print(f"{run.name}, {kind} refused{', with all behind' if is_all else ''}: {said}", flush=True)
    return counts


def main() -> int:
    parser = CHECK.parser()
    parser.add_argument("--stride", type=int, default=1, help="refuse every Nth growth, from the first on (1)")
    parser.add_argument("--number", type=int, help="refuse only the growth, or the thread, of this number, from 1 on")
    parser.add_argument("--only", default="", help="only the runs with this text in their names")
    options = CHECK.options(parser)
    counts = Counter()
    with tempfile.TemporaryDirectory() as name:
        programs = {"lifebatch": str(options.program.resolve()), "lifeperiod": str(options.period.resolve())}
        machine = Machine(programs, pathlib.Path(name))
        for run in RUNS:
            if options.only in run.name:
                counts += tried(machine, run, options)
    held = counts.total() - counts[WRONG]
    print(f"{held} runs in which something was refused end as they may, {counts[WRONG]} differ")
    return status_of(held, counts[WRONG])


if __name__ == "__main__":
    end(main)
