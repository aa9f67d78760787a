#!/usr/bin/env python3
"""Runs the programs with each read and write failed, or cut to one byte, in turn, and checks the result of each run.

    checks/failing_reads.py
    checks/failing_reads.py --only picture              the runs with "picture" in their names
    checks/failing_reads.py --only picture --number 3   only their 3rd call

The script compiles a small library (common/fail.c), which is loaded before the C library. It makes the Nth read or
write fail: by itself, or with all later ones. Or the Nth of several bytes, or all of them, move only one byte. N goes
from 1 up to the first run that makes fewer calls. The pattern file takes several reads. A run in which calls are short
has to end like the run in which none is. A run whose read fails has to end with status 3, the message ReadFailed, no
report, and the output file as it was; one whose write fails with status 3, the message WriteFailed and the first bytes
of the report or of the file, unless that was the message.
"""
import argparse
import itertools
import os
import pathlib
import subprocess
import sys
import tempfile
import threading
from collections import Counter
from collections.abc import Iterator
from dataclasses import dataclass, replace

from common.check import BUILT, BUILT_PERIOD, BUILT_VIEW, C_COMPILER, CannotRun, Check, end, status_of
from common.program import text_of

CHECK = Check(
    text=__doc__,
    needs=(BUILT, BUILT_VIEW, BUILT_PERIOD, C_COMPILER),
    takes="20 s",
    quick=("--stride", "5"),
    quickly="5 s",
    replay="give the --only and the --number that are printed.",
)

# How many seconds a run may take.
SECONDS = 60
WRONG = "different"

# Longer than five reads of 8192 bytes.
COMMENTS = "".join(f"#C line {number:4} of a long comment, which the reader has to pass\n" for number in range(800))
R_PENTOMINO = f"{COMMENTS}x = 3, y = 3, rule = B3/S23\nb2o$2o$bo!\n"
BAD_COUNT = f"{COMMENTS}x = 3, y = 3\n0o!\n"
# What the output holds before a run.
OLD = b"as it was"


@dataclass(frozen=True)
class Run:
    """A program, the words of its run, its file, and its status where nothing fails."""

    name: str
    program: str
    words: list[str]
    output: str | None = None
    file: str = R_PENTOMINO
    status: int = 0


@dataclass(frozen=True)
class Told:
    """The result of a run."""

    status: int
    report: str
    message: str
    # The output file, where there is one.
    file: bytes | None


RUNS = [
    Run("a pattern and its report", "lifebatch", ["-m", "4", "-i", "1", "-o", "out.rle", "in"], "out.rle"),
    Run(
        "a pattern as macrocell, with two workers",
        "lifebatch",
        ["-m", "64", "--workers", "2", "-o", "out.mc", "in"],
        "out.mc",
    ),
    Run(
        "a pattern from standard input, with its window",
        "lifebatch",
        ["-m", "4", "--window=-4,-4,9,9", "-o", "out.rle", "/dev/stdin"],
        "out.rle",
    ),
    Run("a report", "lifebatch", ["-m", "4", "in"]),
    Run("a pattern that is refused", "lifebatch", ["-o", "out.rle", "in"], "out.rle", BAD_COUNT, 1),
    Run("words that are bad", "lifebatch", ["-m", "x", "-o", "out.rle", "in"], "out.rle", status=2),
    Run("the help", "lifebatch", ["--help"]),
    Run("a picture", "lifeview", ["-m", "4", "-o", "out.png", "in"], "out.png"),
    Run("a picture from standard input", "lifeview", ["-m", "4", "-o", "out.png", "/dev/stdin"], "out.png"),
    Run("a picture that is refused", "lifeview", ["-o", "out.png", "in"], "out.png", BAD_COUNT, 1),
    Run("a period", "lifeperiod", ["--most", "10", "in"]),
    Run("a period from standard input", "lifeperiod", ["-m", "4", "--multiple", "12", "/dev/stdin"]),
]


class Machine:
    """A folder with the library, and the programs."""

    def __init__(self, programs: dict[str, str], folder: pathlib.Path):
        self.programs, self.folder, self.library = programs, folder, folder / "fail.so"
        source = pathlib.Path(__file__).resolve().parent / "common" / "fail.c"
        words = ["cc", "-O2", "-shared", "-fPIC", "-o", self.library, source, "-ldl"]
        compiled = subprocess.run(words, capture_output=True)
        if compiled.returncode:
            raise CannotRun(f"cc doesn't compile common/fail.c: {text_of(compiled.stderr)}")

    def ended(self, run: Run, how: str = "failed", first: int = 0, last: int = -1) -> tuple[Told, str]:
        """The result of a run, and a letter for each call that failed, or was short, in it."""
        (self.folder / "in").write_text(run.file)
        output = self.folder / run.output if run.output else None
        if output:
            output.write_bytes(OLD)
        read, write = os.pipe()
        settings = {
            "LD_PRELOAD": str(self.library),
            "HOW": how,
            "FIRST": str(first),
            "LAST": str(last),
            "TOLD": str(write),
        }
        with open(self.folder / "in", "rb") as given:
            words = [self.programs[run.program], *run.words]
            pipes = {"stdin": given, "stdout": subprocess.PIPE, "stderr": subprocess.PIPE, "pass_fds": [write]}
            with subprocess.Popen(words, cwd=self.folder, env=settings, **pipes) as process:
                os.close(write)
                # A run that hangs is killed, and its status says so.
                late = threading.Timer(SECONDS, process.kill)
                late.start()
                letters: list[bytes] = []
                # The letters are read beside the run, so that no pipe is full.
                reader = threading.Thread(target=lambda: letters.append(os.fdopen(read, "rb").read()))
                reader.start()
                report, message = process.communicate()
                reader.join()
                late.cancel()
        file = output.read_bytes() if output and output.exists() else None
        return Told(process.returncode, text_of(report), text_of(message), file), text_of(letters[0])


def is_plain(told: Told, run: Run) -> bool:
    """Whether a run in which nothing fails prints and writes what such a run does."""
    is_well = run.status == 0
    is_told = bool(told.report) == is_well and bool(told.message) != is_well
    is_written = told.file not in (None, OLD) if is_well and run.output else told.file == (OLD if run.output else None)
    return told.status == run.status and is_told and is_written


def is_cut(found: str | bytes | None, whole: str | bytes | None) -> bool:
    """Whether some bytes are the first of others, and not all of them."""
    return found is not None and whole is not None and found != whole and whole[: len(found)] == found


def refused(run: Run, number: int, name: str) -> Told:
    """The result of a run that is refused, before anything is written."""
    return Told(3, "", f"{run.program}: refused {number}: {name}\n", OLD if run.output else None)


def failed_answer(told: Told, plain: Told, run: Run, letters: str) -> str | None:
    """The result of a run in which calls failed, or None if it is none of the allowed ones. The first call decides; the
    message may fail too."""
    unread, unwritten = refused(run, 19, "ReadFailed"), refused(run, 20, "WriteFailed")
    is_told_too = "e" in letters[1:]
    if letters[0] == "r":
        wanted, answer, holds = unread, "ReadFailed", True
    elif letters[0] == "o":
        wanted, answer, holds = (
            replace(unwritten, report=told.report),
            "WriteFailed, of the report",
            is_cut(told.report, plain.report),
        )
    elif letters[0] == "f":
        wanted, answer, holds = (
            replace(unwritten, report=plain.report, file=told.file),
            "WriteFailed, of the file",
            is_cut(told.file, plain.file),
        )
    else:
        wanted, answer, holds, is_told_too = plain, "a shorter message", True, True
    if is_told_too and is_cut(told.message, wanted.message):
        wanted = replace(wanted, message=told.message)
    elif is_told_too:
        return None
    return answer if holds and told == wanted else None


def answer_of(told: Told, plain: Told, run: Run, how: str, letters: str) -> str | None:
    """The result of a run, or None if it is none of the allowed ones."""
    if how == "short" or not letters:
        return "as if no call was short" if told == plain else None
    return failed_answer(told, plain, run, letters)


def numbers(options: argparse.Namespace) -> Iterator[int]:
    """Which calls fail, or are short."""
    return iter([options.number]) if options.number else itertools.count(1, options.stride)


def in_turn(machine: Machine, run: Run, plain: Told, how: str, is_all: bool, options: argparse.Namespace) -> Counter:
    """The results with each call in turn, by itself or with all later ones, up to the run that makes fewer."""
    counts = Counter()
    for number in numbers(options):
        told, letters = machine.ended(run, how, number, sys.maxsize if is_all else number)
        found = answer_of(told, plain, run, how, letters)
        if found is None:
            counts[WRONG] += 1
            print(
                f"differs: {run.name}, {how} {number}{' and all behind' if is_all else ''} ({letters}): {told}",
                flush=True,
            )
            print(f"    to replay: checks/failing_reads.py --only '{run.name}' --number {number}", flush=True)
        if not letters:
            break
        if found is not None:
            counts[found] += 1
    return counts


def tried(machine: Machine, run: Run, options: argparse.Namespace) -> Counter:
    """The results of a run, with each failure."""
    plain, _ = machine.ended(run)
    if not is_plain(plain, run):
        print(f"differs: {run.name}, nothing failed: {plain}", flush=True)
        return Counter({WRONG: 1})
    counts = Counter()
    for how, is_all in itertools.product(("failed", "short"), (False, True)):
        found = in_turn(machine, run, plain, how, is_all, options)
        counts += found
        said = ", ".join(f"{name} {count}" for name, count in sorted(found.items())) or "no such call"
        print(f"{run.name}, {how}{', with all behind' if is_all else ''}: {said}", flush=True)
    return counts


def main() -> int:
    parser = CHECK.parser()
    parser.add_argument("--stride", type=int, default=1, help="try every Nth call, from the first on (1)")
    parser.add_argument("--number", type=int, help="try only the call of this number, from 1 on")
    parser.add_argument("--only", default="", help="only the runs with this text in their names")
    options = CHECK.options(parser)
    counts = Counter()
    programs = {
        "lifebatch": str(options.program.resolve()),
        "lifeview": str(options.view.resolve()),
        "lifeperiod": str(options.period.resolve()),
    }
    with tempfile.TemporaryDirectory() as name:
        machine = Machine(programs, pathlib.Path(name))
        for run in RUNS:
            if options.only in run.name:
                counts += tried(machine, run, options)
    held = counts.total() - counts[WRONG]
    print(f"{held} runs in which calls failed or were short end as they may, {counts[WRONG]} differ")
    return status_of(held, counts[WRONG])


if __name__ == "__main__":
    end(main)
