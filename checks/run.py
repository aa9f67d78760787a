#!/usr/bin/env python3
"""Runs the checks of this folder.

    checks/run.py --list                         list the checks
    checks/run.py --quick                        run all of them, each with a small load: four minutes
    checks/run.py --all                          run all of them
    checks/run.py random_patterns page_links     run those that are named
    checks/run.py --quick hostile_files          run one of them with a small load

Each check is a script of its own, with more options: checks/NAME.py --help shows them. A line shows whether a check
holds, how long it took, and its last line. All that it printed follows if it does not hold, or with --show.
bench/compare.py is not among them.
"""
import argparse
import importlib
import pathlib
import subprocess
import sys
import time
from collections.abc import Iterator
from dataclasses import dataclass

from common.check import (
    BUILT,
    BUILT_PERIOD,
    BUILT_PIPE,
    BUILT_VIEW,
    DIFFERS,
    HOLDS,
    NOT_RUN,
    STATUSES,
    Check,
    add_period,
    add_pipe,
    add_program,
    add_view,
    end,
)

FOLDER = pathlib.Path(__file__).resolve().parent
NAMES = [
    "page_links",
    "page_commands",
    "page_counts",
    "no_axioms",
    "wrong_bodies",
    "refusals",
    "reading_order",
    "python_style",
    "faulty_programs",
    "failing_devices",
    "from_bgolly_page",
    "random_patterns",
    "pictures",
    "random_periods",
    "random_dialogues",
    "python_package",
    "notebook",
    "golly_periods",
    "golly_scripts",
    "small_tables",
    "golly_patterns",
    "many_workers",
    "refused_memory",
    "refused_session",
    "failing_reads",
    "hostile_files",
    "many_patterns",
    "python_many_patterns",
    "launcher_runs",
    "large_pages",
    "installations",
]
ANSWERS = {HOLDS: "holds", DIFFERS: "DIFFERS", NOT_RUN: "NOT RUN"}


@dataclass(frozen=True)
class Outcome:
    """How a check ended, after how many seconds, and what it printed."""

    name: str
    status: int
    seconds: float
    printed: str

    def last_line(self) -> str:
        return (self.printed.strip().splitlines() or [""])[-1]


def checks(names: list[str]) -> Iterator[tuple[str, Check]]:
    for name in names:
        yield name, importlib.import_module(name).CHECK


def show_list(options: argparse.Namespace) -> None:
    """Prints each check, what it needs and how long it takes."""
    for name, check in checks(NAMES):
        missing = check.missing(options)
        needs = [f"{it.name} (NOT THERE: {it.brings})" if it in missing else it.name for it in check.needs]
        print(f"{name}\n    {check.summary()}\n    It needs {', '.join(needs) or 'nothing'}.")
        print(f"    {check.time()}\n")


def run(name: str, check: Check, options: argparse.Namespace) -> Outcome:
    """Runs a check as a separate process."""
    words = [sys.executable, str(FOLDER / f"{name}.py"), *(check.quick if options.quick else [])]
    words += ["--program", str(options.program.resolve())] if BUILT in check.needs else []
    words += ["--view", str(options.view.resolve())] if BUILT_VIEW in check.needs else []
    words += ["--period", str(options.period.resolve())] if BUILT_PERIOD in check.needs else []
    words += ["--pipe", str(options.pipe.resolve())] if BUILT_PIPE in check.needs else []
    if sys.stdout.isatty():
        # The line with the result overwrites this one.
        print(f"runs     {name}", end="\r", flush=True)
    began = time.monotonic()
    ran = subprocess.run(words, stdin=subprocess.DEVNULL, stdout=subprocess.PIPE, stderr=subprocess.STDOUT)
    # A check that is killed, or ends with another status, has not run.
    status = ran.returncode if ran.returncode in ANSWERS else NOT_RUN
    return Outcome(name, status, time.monotonic() - began, ran.stdout.decode(errors="backslashreplace"))


def show(it: Outcome, is_whole: bool) -> None:
    print(f"{ANSWERS[it.status]:<8} {it.name:<20} {it.seconds:4.0f} s  {it.last_line()}", flush=True)
    if is_whole or it.status != HOLDS:
        print("".join(f"    | {line}\n" for line in it.printed.splitlines()), end="", flush=True)


def worst(statuses: list[int]) -> int:
    """The status of all: a difference counts more than a check that did not run."""
    if DIFFERS in statuses:
        return DIFFERS
    return NOT_RUN if NOT_RUN in statuses else HOLDS


def make_parser() -> argparse.ArgumentParser:
    text = f"{__doc__.strip()}\n\n{STATUSES}\nWhere one check differs and another could not run, the status is 1."
    parser = argparse.ArgumentParser(description=text, formatter_class=argparse.RawDescriptionHelpFormatter)
    parser.add_argument("names", nargs="*", metavar="NAME", help=f"the checks to run: {', '.join(NAMES)}")
    parser.add_argument("--list", action="store_true", help="list the checks, what each needs and how long it takes")
    parser.add_argument("--all", action="store_true", help="run all checks")
    parser.add_argument(
        "--quick", action="store_true", help="give each check a small load; without names run all checks"
    )
    parser.add_argument("--show", action="store_true", help="show all that the checks print")
    add_program(parser)
    add_view(parser)
    add_period(parser)
    add_pipe(parser)
    return parser


def main() -> int:
    parser = make_parser()
    options = parser.parse_args()
    unknown = [it for it in options.names if it not in NAMES]
    if unknown:
        parser.error(f"there is no check {', '.join(unknown)}: --list shows the checks")
    if options.list:
        show_list(options)
        return HOLDS
    names = options.names or (NAMES if options.all or options.quick else [])
    if not names:
        parser.error("name the checks to run, or give --quick, --all or --list")
    statuses = []
    for name, check in checks(names):
        outcome = run(name, check, options)
        show(outcome, options.show)
        statuses.append(outcome.status)
    hold, differ, not_run = (statuses.count(it) for it in (HOLDS, DIFFERS, NOT_RUN))
    print(f"{hold} checks hold, {differ} differ, {not_run} could not run")
    return worst(statuses)


if __name__ == "__main__":
    end(main)
