#!/usr/bin/env python3
"""Runs the scripts for Golly's window in Golly, and compares what they open with what Golly's own HashLife leaves.

    checks/golly_scripts.py
    checks/golly_scripts.py --only hexagonal    the rows with this text in them

Golly runs under a virtual screen, with a home folder and a temporary folder of its own. A Lua script in it opens
patterns and calls the functions of golly/shared.lua, without their questions. Cells, places, rule and generation have
to be those of g.run, and the pattern before has to be as it was. What is not supported has to be refused in words.
Pictures have to show the selected cells, else all. Periods have to be those of the patterns. No temporary file may be
left.
"""
import argparse
import os
import pathlib
import random
import re
import shutil
import signal
import subprocess
import tempfile
from collections.abc import Callable
from dataclasses import dataclass

from common import cells as plain
from common.check import BUILT, BUILT_PERIOD, BUILT_VIEW, GOLLY, XVFB, CannotRun, Check, end, sum_up
from common.program import ROOT, games_path
from pictures import picture_in, calculated

CHECK = Check(
    text=__doc__,
    needs=(BUILT, BUILT_VIEW, BUILT_PERIOD, GOLLY, XVFB),
    takes="5 s",
    replay="give the row, or a part of it, to --only.",
)

# The most pixels on a side of lifeview's pictures.
SIZE = 1024
PENTOMINO = {(6, 7), (7, 7), (5, 8), (6, 8), (6, 9)}
GLIDER = {(8, 7), (9, 8), (7, 9), (8, 9), (9, 9)}
LATER = {(5, 7), (6, 7), (7, 7), (5, 8), (5, 9), (6, 9)}
KILLED = "#!/bin/sh\nkill -s TERM $$\n"
DRIVER = ROOT / "checks" / "common" / "golly_driver.lua"


def soup(rule: str, side: int, seed: int) -> str:
    """An RLE file of a random square off the origin, at generation 12."""
    coin = random.Random(seed)
    cells = {(x - 40, y + 1000) for x in range(side) for y in range(side) if coin.random() < 0.4}
    return plain.rle_text(cells, rule, 12)


def far_out() -> str:
    """A macrocell file of two gliders and a block, beyond 2^31 and beyond 2^40 from the origin."""
    glider = [(1, 0), (2, 1), (0, 2), (1, 2), (2, 2)]
    places = [(3_000_000_000, -5_000_000_000), (-(2**41), 2**40)]
    cells = {(left + x, top + y) for left, top in places for x, y in glider} | {(x, y) for x in (0, 1) for y in (0, 1)}
    return plain.macrocell_text(cells, "B3/S23", 5)


@dataclass(frozen=True)
class Case:
    """A pattern that is run in Golly. A hyphen stands for the algorithm that Golly takes, and for the usual slots."""

    name: str
    # Its file. The script in Golly makes the pattern itself if there is none.
    text: str
    # How the words of a refusal begin, if it is refused.
    refusal: str = ""
    algorithm: str = "HashLife"
    generations: int = 300
    slots: str = "-"
    # The folder that the scripts stand in, with a program above it or not.
    checkout: str = "beside"
    # The layer's name, if it is not that of the file.
    title: str = ""
    # Golly saves a pattern that it can't copy from its own layer.
    is_copied: bool = True

    def file(self) -> str:
        return self.name + (".mc" if self.text.startswith("[M2]") else ".rle")

    def line(self) -> str:
        return f"{self.name} {self.algorithm} {self.generations} {self.slots} {self.checkout} {self.file()}\n"


R_PENTOMINO = plain.rle_text(PENTOMINO, "B3/S23", 0)
# How far a neighbour may be, and a rule with such neighbours.
RADIUS = 2
LARGER_THAN_LIFE = f"R{RADIUS},C0,M0,S3..5,B3..4,NM"
CASES = [
    Case("by-hand", "", title="untitled"),
    Case("full-layers", "", "All 10 layers are in use: delete one first."),
    Case("pentomino", R_PENTOMINO, generations=1103),
    Case("pentomino-in-QuickLife", R_PENTOMINO, algorithm="QuickLife", generations=1103),
    Case("program-on-the-PATH", R_PENTOMINO, generations=7, checkout="on-path"),
    Case("soup", soup("B36/S23", 40, 1)),
    Case("hexagonal-soup", soup("B2/S34H", 40, 2)),
    Case("von-Neumann-soup", soup("B13/S012V", 16, 3), generations=50),
    Case("empty", plain.rle_text([], "B3/S23", 0)),
    Case("no-generation", R_PENTOMINO, generations=0),
    Case("far-out", far_out(), generations=1000, is_copied=False),
    Case("three-states", "x = 3, y = 1, rule = 345/2/3\nA.B!\n", "The rule 345/2/3 has 3 states", algorithm="-"),
    Case("bounded-grid", "x = 3, y = 1, rule = B3/S23:T20,20\n3o!\n", "The rule B3/S23:T20,20 has a bounded grid"),
    Case(
        "larger-than-Life",
        f"x = 3, y = 1, rule = {LARGER_THAN_LIFE}\n3o!\n",
        f"The rule {LARGER_THAN_LIFE} is one of Golly's algorithm",
        algorithm="-",
    ),
    Case("Hensel-letters", "x = 3, y = 1, rule = B2-a/S12\n3o!\n", "BadRule: this rule is not supported."),
    Case("birth-on-0", "x = 3, y = 1, rule = B02/S23\n3o!\n", "BirthOnZero: ", algorithm="QuickLife"),
    Case("full-tables", soup("B3/S23", 256, 4), "NodesFull: the tables are too small;", slots="1024"),
    Case("slots-that-are-no-power", R_PENTOMINO, "lifebatch: bad words: ", slots="1000"),
    Case("too-many-generations", R_PENTOMINO, "TooFar: the run leaves the range", generations=2**63),
    Case("ended-by-a-signal", R_PENTOMINO, "lifebatch was ended by signal 15.", checkout="killed"),
]


@dataclass(frozen=True)
class Found:
    """What the script in Golly found of a run or a picture."""

    is_done: bool
    words: str
    is_kept: bool
    has_its_path: bool
    title: str


def cells_of(text: str) -> tuple[set[plain.Cell], str, str]:
    """The cells of a macrocell file that Golly has saved, its rule and its generation."""
    nodes, head = [None], {"#R": "", "#G": "0"}
    for line in text.splitlines()[1:]:
        if line.startswith("#"):
            head[line[:2]] = line[3:]
        else:
            nodes.append([int(word) for word in line.split()] if line[0].isdigit() else line)
    found = set()

    def add(number: int, left: int, top: int) -> None:
        node = nodes[number]
        if isinstance(node, str):
            rows = enumerate(node.split("$"))
            found.update((left + x, top + y) for y, row in rows for x, cell in enumerate(row) if cell == "*")
        elif number:
            half = 1 << (node[0] - 1)
            for place, kid in enumerate(node[1:]):
                add(kid, left + half * (place % 2), top + half * (place // 2))

    last = nodes[-1]
    half = 1 << (last[0] - 1) if isinstance(last, list) else 4
    add(len(nodes) - 1, -half, -half)
    return found, head["#R"], head["#G"]


class Screen:
    """A folder in which Golly runs with the scripts, and what was found."""

    def __init__(self, folder: pathlib.Path, options: argparse.Namespace, cases: list[Case]):
        self.folder = folder
        for name in ("home", "temporary", "bin", "beside", "on-path", "killed"):
            (folder / name).mkdir()
        for name in ("beside", "on-path", "killed"):
            shutil.copytree(ROOT / "golly", folder / name / "golly")
        (folder / "beside" / "lifebatch").symlink_to(options.program.resolve())
        (folder / "beside" / "lifeview").symlink_to(options.view.resolve())
        (folder / "beside" / "lifeperiod").symlink_to(options.period.resolve())
        (folder / "bin" / "lifebatch").symlink_to(options.program.resolve())
        (folder / "killed" / "lifebatch").write_text(KILLED)
        (folder / "killed" / "lifebatch").chmod(0o755)
        cases = [case for case in cases if case.text]
        for case in cases:
            (folder / case.file()).write_text(case.text)
        (folder / "pictured.rle").write_text(R_PENTOMINO)
        (folder / "glider.rle").write_text(plain.rle_text(GLIDER, "B3/S23", 7))
        (folder / "cases").write_text("".join(case.line() for case in cases))
        self.found = self.run(options.seconds)

    def run(self, seconds: float) -> dict[str, Found]:
        settings = {**os.environ, "FOLDER": str(self.folder), "HOME": str(self.folder / "home")}
        settings["PATH"] = f"{self.folder / 'bin'}:{games_path()}"
        # The screen's own files do not go to the folder that Golly's go to.
        words = ["xvfb-run", "-a", "env", f"TMPDIR={self.folder / 'temporary'}", "golly", str(DRIVER)]
        ran = subprocess.Popen(
            words, env=settings, stdin=subprocess.DEVNULL, stdout=subprocess.DEVNULL, stderr=subprocess.DEVNULL
        )
        try:
            ran.wait(timeout=seconds)
        except subprocess.TimeoutExpired:
            print(f"Golly was killed after {seconds} s", flush=True)
            self.kill()
            ran.wait()
        return self.findings()

    def kill(self) -> None:
        """Kills Golly, its screen and the programs that it runs: all that have its FOLDER among their settings."""
        setting = f"FOLDER={self.folder}".encode()
        for it in pathlib.Path("/proc").glob("[0-9]*"):
            try:
                if setting in (it / "environ").read_bytes().split(b"\0"):
                    os.kill(int(it.name), signal.SIGKILL)
            except OSError:
                pass

    def findings(self) -> dict[str, Found]:
        file = self.folder / "findings"
        if not file.exists():
            raise CannotRun("Golly has not run the script")
        rows = (line.split("\t") for line in file.read_text().splitlines())
        return {
            name: Found(done == "true", words, kept == "true", path == "true", title)
            for name, done, words, kept, path, title in rows
        }

    def saved(self, case: Case, whose: str) -> tuple[set[plain.Cell], str, str]:
        return cells_of((self.folder / f"{case.name}.{whose}.mc").read_text())

    def differs(self, case: Case) -> str:
        """How a run differs from what it has to be, or an empty text."""
        it = self.found.get(case.name)
        if it is None:
            return "it was not tried"
        if not it.is_kept or case.is_copied and not it.has_its_path:
            return "the pattern before is not as it was"
        if case.refusal:
            return "" if not it.is_done and it.words.startswith(case.refusal) else it.words
        if not it.is_done:
            return it.words
        cells, _, generation = ours = self.saved(case, "ours")
        if not it.words.startswith(f"Generation {generation}: {len(cells)} cells.") or it.title != (
            case.title or case.file()
        ):
            return f"{it.words} The layer's name: {it.title}"
        return "" if ours == self.saved(case, "theirs") else "Golly has other cells, another rule or another generation"

    def drawn(self, name: str, file: str, cells: plain.Cells, shown: tuple[int, int, int, int]) -> str:
        """How a picture differs from what it has to be, or an empty text."""
        it = self.found.get(name)
        line = it and re.fullmatch(r"(.*): \d+ x \d+ pixels, \d+ x \d+ pixels a cell", it.words)
        if not line or not it.is_done or not it.is_kept:
            return it.words if it else "it was not tried"
        if line[1] != str(self.folder / file):
            return f"it wrote {line[1]}"
        return "" if picture_in((self.folder / file).read_bytes()) == calculated(cells, shown, SIZE) else "other pixels"

    def told(self, name: str, line: str) -> str:
        """How the line of a period differs from what it has to be, or an empty text."""
        it = self.found.get(name)
        if it is None:
            return "it was not tried"
        if not it.is_kept:
            return "the pattern is not as it was"
        return "" if it.is_done and it.words == line else it.words

    def has_no_program(self, name: str, program: str) -> str:
        it = self.found.get(name, Found(True, "it was not tried", True, True, ""))
        return "" if not it.is_done and it.words.startswith(f"{program} is neither") else it.words

    def leaves_files(self) -> str:
        return ", ".join(it.name for it in (self.folder / "temporary").iterdir())


Row = tuple[str, Callable[[Screen], str]]
LINES: list[Row] = [
    ("a picture of all cells", lambda screen: screen.drawn("drawn", "pictured-0.png", PENTOMINO, (5, 7, 7, 9))),
    ("a second picture", lambda screen: screen.drawn("drawn-again", "pictured-0-2.png", PENTOMINO, (5, 7, 7, 9))),
    (
        "a picture of the selection",
        lambda screen: screen.drawn("drawn-selection", "pictured-0-3.png", PENTOMINO, (4, 6, 6, 9)),
    ),
    (
        "a picture of an unsaved pattern",
        lambda screen: screen.drawn("drawn-unsaved", "home/.golly/unsaved-0.png", PENTOMINO, (5, 7, 7, 9)),
    ),
    (
        "a picture of it later",
        lambda screen: screen.drawn("drawn-later", "home/.golly/unsaved-1.png", LATER, (5, 7, 7, 9)),
    ),
    ("no program for pictures is there", lambda screen: screen.has_no_program("drawn-without-program", "lifeview")),
    ("a period", lambda screen: screen.told("period", "period 4, moves 1, 1")),
    ("fewer generations than the period", lambda screen: screen.told("too-few-generations", "no period up to 3")),
    ("no period", lambda screen: screen.told("no-period", "no period up to 100")),
    ("the period of an empty pattern", lambda screen: screen.told("period-of-nothing", "period 1, moves 0, 0")),
    ("no program for periods is there", lambda screen: screen.has_no_program("period-without-program", "lifeperiod")),
    ("no temporary file is left", Screen.leaves_files),
]


def shows(says: str, difference: str) -> bool:
    print(f"{'differs' if difference else 'holds  '}  {says}{': ' if difference else ''}{difference}", flush=True)
    return not difference


def main() -> int:
    parser = CHECK.parser()
    parser.add_argument("--only", default="", help="only the rows with this text in them")
    parser.add_argument("--seconds", type=float, default=120, help="how long Golly may take (120)")
    options = CHECK.options(parser)
    cases = [it for it in CASES if options.only in it.name]
    with tempfile.TemporaryDirectory(prefix="with a blank ") as name:
        screen = Screen(pathlib.Path(name), options, cases)
        held = [shows(case.name.replace("-", " "), screen.differs(case)) for case in cases]
        held += [shows(says, differs(screen)) for says, differs in LINES if options.only in says]
    return sum_up(held, "rows")


if __name__ == "__main__":
    end(main)
