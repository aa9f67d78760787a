#!/usr/bin/env python3
"""Runs the other checks with faulty or missing programs, and tests whether they report it.

    checks/faulty_programs.py
    checks/faulty_programs.py --only golly_patterns    the rows with this text in them

A check has to end with status 1 for a program that crashes, hangs, writes one cell less, prints another population,
errs in small tables or refuses with another status, and for a page with a dead link. It has to end with status 2 if the
program or a tool is missing, or if nothing is chosen or compared. With the right program and the same options the
status has to be 0.
"""
import argparse
import os
import pathlib
import shlex
import shutil
import subprocess
import sys
import tempfile
from dataclasses import dataclass

from common.check import (
    BGOLLY,
    BUILT,
    BUILT_PERIOD,
    BUILT_PIPE,
    BUILT_VIEW,
    C_COMPILER,
    DASK,
    DIFFERS,
    FFMPEG,
    GOLLY,
    GOLLY_PATTERNS,
    HOLDS,
    NOTEBOOKS,
    NOT_RUN,
    PARALLEL,
    XVFB,
    Check,
    end,
    sum_up,
)

CHECK = Check(
    text=__doc__,
    needs=(
        BUILT,
        BUILT_VIEW,
        BUILT_PERIOD,
        BUILT_PIPE,
        BGOLLY,
        GOLLY,
        GOLLY_PATTERNS,
        XVFB,
        C_COMPILER,
        PARALLEL,
        FFMPEG,
        DASK,
        *NOTEBOOKS,
    ),
    takes="a minute",
    replay="give the row, or a part of it, to --only.",
)

FOLDER = pathlib.Path(__file__).resolve().parent

# The shell scripts that stand in for lifebatch, some of them also for lifeperiod. REAL is the path of lifebatch.
PROGRAMS = {
    "crashes": "kill -s SEGV $$",
    "hangs": "exec sleep 1000",
    "prints nothing": "exit 0",
    "writes one cell less": 'REAL "$@" || exit; for it in o*.*; do [ -f "$it" ] || continue; '
    'sed -i "/^[^#x]/s/o/b/;/^[^#x]/s/[*]/./" "$it"; done; exit 0',
    "prints another population": 'REAL "$@" | sed "s/: [0-9]*$/: 1/"',
    "errs in small tables": 'REAL "$@" | case "$*" in *"--nodes 4194304"*) cat;; *) sed "s/: [0-9]*$/: 1/";; esac',
    "refuses all": 'echo "lifebatch: refused 3 at 0: BadRule" >&2; exit 1',
    "refuses with status 3": 'echo "lifebatch: refused 3 at 0: BadRule" >&2; exit 3',
    "refuses, and leaves a file": 'touch ours.rle; echo "lifebatch: refused 3 at 0: BadRule" >&2; exit 1',
}

RIGHT = "is right"

# The checks of lifepipe.
OF_PIPES = ("random_dialogues", "python_many_patterns", "notebook")
# The checks of lifeperiod, and those that use it beside lifebatch.
OF_PERIODS = ("random_periods", "golly_periods")
WITH_PERIODS = ("failing_reads", "golly_scripts", "refused_memory")

PAGES = {
    "names no file": "[a page](nowhere.md)\n",
    "names no heading": "# One\n\n[a heading](#two)\n",
    "leaves the repository": "[a page](../nowhere.md)\n",
    "names no script": "`checks/nowhere.py --all`\n",
    "is only in code": "`[a page](nowhere.md)`\n",
}


@dataclass(frozen=True)
class Row:
    """A check, its options, what is faulty, and the status that it has to end with."""

    check: str
    options: str
    fault: str
    status: int

    def says(self) -> str:
        where = (
            f"the {'page' if self.check == 'page_links' else 'program'} {self.fault}"
            if self.fault
            else "there is no bgolly"
        )
        return f"{' '.join([self.check, *self.options.split()])}: status {self.status} where {where}"


ONE = "--only Life/Oscillators/queen-bee-turn --seconds 2 --workers 1"
FEW_WORKERS = "--times 1 --workers 2 --only lidka"
ROWS = [
    Row("golly_patterns", ONE, RIGHT, HOLDS),
    Row("golly_patterns", ONE.replace("--seconds 2", "--seconds 0.2"), "hangs", DIFFERS),
    *(Row("golly_patterns", ONE, it, DIFFERS) for it in PROGRAMS if it not in ("hangs", "refuses all")),
    Row("golly_patterns", ONE, "refuses all", NOT_RUN),
    Row("golly_patterns", ONE, "is missing", NOT_RUN),
    Row("golly_patterns", ONE, "", NOT_RUN),
    Row("golly_patterns", "--only no-such-name", RIGHT, NOT_RUN),
    Row("golly_patterns", "--folder common", RIGHT, NOT_RUN),
    Row("golly_patterns", "--folder nowhere", RIGHT, NOT_RUN),
    Row("many_workers", FEW_WORKERS, RIGHT, HOLDS),
    *(Row("many_workers", FEW_WORKERS, it, DIFFERS) for it in ("crashes", "refuses all")),
    Row("many_workers", FEW_WORKERS, "is missing", NOT_RUN),
    Row("many_workers", "--only no-such-name", RIGHT, NOT_RUN),
    Row("random_patterns", "--count 6 --seconds 20", RIGHT, HOLDS),
    *(
        Row("random_patterns", "--count 6 --seconds 1", it, DIFFERS)
        for it in PROGRAMS
        if it != "refuses, and leaves a file"
    ),
    Row("random_patterns", "--count 2", "is missing", NOT_RUN),
    Row("random_patterns", "--count 0", RIGHT, NOT_RUN),
    Row("random_periods", "--count 6", RIGHT, HOLDS),
    *(
        Row("random_periods", "--count 6 --seconds 1", it, DIFFERS)
        for it in ("crashes", "hangs", "prints nothing", "refuses all")
    ),
    Row("random_periods", "--count 2", "is missing", NOT_RUN),
    Row("random_periods", "--count 0", RIGHT, NOT_RUN),
    Row("random_dialogues", "--count 20", RIGHT, HOLDS),
    *(
        Row("random_dialogues", "--count 6 --seconds 1", it, DIFFERS)
        for it in ("crashes", "hangs", "prints nothing", "refuses all")
    ),
    Row("random_dialogues", "--count 2", "is missing", NOT_RUN),
    Row("random_dialogues", "--count 0", RIGHT, NOT_RUN),
    Row("golly_periods", "--only queen-bee", RIGHT, HOLDS),
    *(Row("golly_periods", "--only queen-bee", it, DIFFERS) for it in ("crashes", "prints nothing", "refuses all")),
    Row("golly_periods", "--only queen-bee", "is missing", NOT_RUN),
    Row("golly_periods", "--only no-such-name", RIGHT, NOT_RUN),
    Row("small_tables", "--count 1", RIGHT, HOLDS),
    Row("small_tables", "--count 1", "crashes", DIFFERS),
    Row("small_tables", "--count 1", "errs in small tables", DIFFERS),
    Row("small_tables", "--count 1 --seconds 0.1", "hangs", DIFFERS),
    Row("small_tables", "--count 1", "is missing", NOT_RUN),
    Row("small_tables", "--count 0", RIGHT, NOT_RUN),
    Row("from_bgolly_page", "--only commas", RIGHT, HOLDS),
    Row("from_bgolly_page", "--only commas", "crashes", DIFFERS),
    Row("from_bgolly_page", "--only commas", "prints another population", DIFFERS),
    Row("from_bgolly_page", "--only no-such-name", RIGHT, NOT_RUN),
    Row("from_bgolly_page", "", "", NOT_RUN),
    Row("golly_scripts", "--only pentomino", RIGHT, HOLDS),
    Row("golly_scripts", "--only pentomino", "crashes", DIFFERS),
    Row("golly_scripts", "--only pentomino --seconds 5", "hangs", DIFFERS),
    Row("golly_scripts", "--only pentomino", "prints another population", DIFFERS),
    Row("golly_scripts", "--only pentomino", "is missing", NOT_RUN),
    Row("golly_scripts", "--only no-such-name", RIGHT, NOT_RUN),
    Row("golly_scripts", "", "", NOT_RUN),
    Row("failing_devices", "--only pipe", RIGHT, HOLDS),
    Row("failing_devices", "--only pipe", "crashes", DIFFERS),
    Row("failing_devices", "--only pipe", "is missing", NOT_RUN),
    Row("failing_devices", "--only no-such-name", RIGHT, NOT_RUN),
    Row("hostile_files", "--megabytes 1 --only NUL", RIGHT, HOLDS),
    Row("hostile_files", "--megabytes 1 --only NUL", "crashes", DIFFERS),
    Row("hostile_files", "--megabytes 1 --only header --seconds 1", "hangs", DIFFERS),
    Row("hostile_files", "--megabytes 1 --only again", "prints another population", DIFFERS),
    Row("hostile_files", "--only no-such-name", RIGHT, NOT_RUN),
    Row("many_patterns", "--patterns 40", RIGHT, HOLDS),
    Row("many_patterns", "--patterns 40", "crashes", DIFFERS),
    Row("many_patterns", "--patterns 40", "is missing", NOT_RUN),
    Row("many_patterns", "--patterns 40", "", NOT_RUN),
    Row("python_many_patterns", "--patterns 40", RIGHT, HOLDS),
    Row("python_many_patterns", "--patterns 40", "crashes", DIFFERS),
    Row("python_many_patterns", "--patterns 40", "is missing", NOT_RUN),
    Row("notebook", "", RIGHT, HOLDS),
    Row("notebook", "", "crashes", DIFFERS),
    Row("notebook", "", "is missing", NOT_RUN),
    Row("refused_memory", "--only help --number 1", RIGHT, HOLDS),
    Row("refused_memory", "--only help --number 1", "crashes", DIFFERS),
    Row("refused_memory", "--only help --number 1", "prints nothing", DIFFERS),
    Row("refused_memory", "--only help --number 100000", RIGHT, NOT_RUN),
    Row("refused_memory", "--only no-such-name", RIGHT, NOT_RUN),
    Row("failing_reads", "--only help --number 1", RIGHT, HOLDS),
    Row("failing_reads", "--only help --number 1", "crashes", DIFFERS),
    Row("failing_reads", "--only help --number 100000", RIGHT, NOT_RUN),
    Row("failing_reads", "--only no-such-name", RIGHT, NOT_RUN),
    Row("page_commands", "--only gun", RIGHT, HOLDS),
    Row("page_commands", "--only gun", "crashes", DIFFERS),
    Row("page_commands", "--only gun", "prints another population", DIFFERS),
    Row("page_commands", "--only no-such-name", RIGHT, NOT_RUN),
    Row("installations", "", RIGHT, HOLDS),
    Row("installations", "", "is missing", NOT_RUN),
    *(Row("page_links", "", it, DIFFERS) for it in PAGES if it != "is only in code"),
    Row("page_links", "", "is only in code", NOT_RUN),
    Row("../bench/compare", "--rounds 1 --rows replicator", RIGHT, HOLDS),
    *(
        Row("../bench/compare", "--rounds 1 --rows replicator", it, DIFFERS)
        for it in ("crashes", "prints another population")
    ),
    Row("../bench/compare", "--rounds 1 --rows replicator", "is missing", NOT_RUN),
    Row("../bench/compare", "--rows no-such-name", RIGHT, NOT_RUN),
    Row("run", "page_links failing_devices", RIGHT, HOLDS),
    Row("run", "page_links failing_devices", "crashes", DIFFERS),
    Row("run", "page_links failing_devices", "is missing", NOT_RUN),
    Row("run", "no_such_name", RIGHT, NOT_RUN),
    Row("run", "", RIGHT, NOT_RUN),
]


class Bench:
    """A folder with the faulty programs and pages."""

    def __init__(self, programs: argparse.Namespace, folder: pathlib.Path):
        real, self.folder = programs.program, folder
        self.view, self.period, self.pipe = (it.resolve() for it in (programs.view, programs.period, programs.pipe))
        # The user `nobody` has to be able to go through it.
        folder.chmod(0o755)
        for name, text in PROGRAMS.items():
            (folder / name).write_text(f"#!/bin/sh\n{text.replace('REAL', shlex.quote(str(real.resolve())))}\n")
            (folder / name).chmod(0o755)
        shutil.copy(real, folder / RIGHT)
        for name, text in PAGES.items():
            (folder / name).mkdir()
            (folder / name / "README.md").write_text(text)

    def program(self, row: Row) -> list[str]:
        """The option for the page or the program of a row, and its path."""
        if row.check in OF_PERIODS:
            return ["--period", str(self.period if row.fault == RIGHT else self.folder / row.fault)]
        if row.check in OF_PIPES:
            return ["--pipe", str(self.pipe if row.fault == RIGHT else self.folder / row.fault)]
        return ["--root" if row.check == "page_links" else "--program", str(self.folder / (row.fault or RIGHT))]

    def run(self, row: Row) -> subprocess.CompletedProcess:
        words = [sys.executable, str(FOLDER / f"{row.check}.py"), *row.options.split(), *self.program(row)]
        words += (
            ["--view", str(self.view)]
            if row.check in ("failing_reads", "golly_scripts", "installations", "many_patterns", "page_commands")
            else []
        )
        words += ["--period", str(self.period)] if row.check in WITH_PERIODS else []
        settings = os.environ | {"TMPDIR": str(self.folder)} | ({} if row.fault else {"PATH": "/nowhere"})
        return subprocess.run(words, cwd=FOLDER, env=settings, stdin=subprocess.DEVNULL, capture_output=True, text=True)

    def holds(self, row: Row) -> bool:
        """Whether a check ends with its status, without a traceback of its own."""
        ran = self.run(row)
        holds = ran.returncode == row.status and "Traceback" not in ran.stderr
        print(f"{'holds  ' if holds else 'differs'}  {row.says()}", flush=True)
        if not holds:
            print(f"    status {ran.returncode}: {ran.stdout}{ran.stderr}", flush=True)
        return holds


def main() -> int:
    parser = CHECK.parser()
    parser.add_argument("--only", default="", help="only the rows with this text in them")
    options = CHECK.options(parser)
    with tempfile.TemporaryDirectory() as name:
        bench = Bench(options, pathlib.Path(name))
        held = [bench.holds(row) for row in ROWS if options.only in row.says()]
    return sum_up(held, "rows")


if __name__ == "__main__":
    end(main)
