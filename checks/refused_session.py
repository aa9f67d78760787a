#!/usr/bin/env python3
"""Advances a session and looks at it, with each growth of its memory refused in turn.

    checks/refused_session.py
    checks/refused_session.py --number 17   only the 17th growth

It runs a test of the crate worked_runs, which is proved and built before, with a small library (common/refuse.c) that
refuses the Nth growth. N goes from 1 up to the first run that asks for fewer. The test holds what a call may answer:
the right cells, or NoMemory, and then the session is as it was, or closed.
"""
import argparse
import itertools
import pathlib
import re
import tempfile
from collections import Counter

from common.check import C_COMPILER, Check, Need, end, status_of
from common.program import ROOT
from common.refusing import Refuser

TESTS = ROOT / "crates" / "worked_runs" / "out" / "worked_runs_tests"
CHECK = Check(
    text=__doc__,
    needs=(
        Need(
            "the built tests of worked_runs",
            "rt ci, or rt test there, builds them",
            lambda options: getattr(options, "tests", TESTS).is_file(),
        ),
        C_COMPILER,
    ),
    takes="some seconds",
    quick=("--stride", "10"),
    quickly="a second",
    replay="give the --number that is printed.",
)

NAME = "tests::sessions_in_want_of_memory::a_session_in_want_of_memory_is_as_it_was_or_closed"
# After so many runs in a row without a refusal there is no more to refuse.
MISSED = 3
# What the test prints where something was refused.
REFUSED = re.compile(r"^(refused to .*|no file|no session)$", re.M)
WRONG = "different"


def refused_in_turn(refuser: Refuser, options: argparse.Namespace) -> Counter:
    """What was refused, for each growth in turn."""
    counts, missed = Counter(), 0
    for number in [options.number] if options.number else itertools.count(1, options.stride):
        it = refuser.ended([str(options.tests.resolve()), NAME], "memory", number, number)
        if it.status:
            counts[WRONG] += 1
            print(f"differs: growth {number}: {it}", flush=True)
            print(f"    to replay: checks/refused_session.py --number {number}", flush=True)
        elif it.is_refused:
            counts[" and ".join(REFUSED.findall(it.report)) or "as if nothing was refused"] += 1
        missed = 0 if it.is_refused else missed + 1
        if missed == MISSED:
            break
    return counts


def main() -> int:
    parser = CHECK.parser()
    parser.add_argument("--tests", type=pathlib.Path, default=TESTS, help="another build of the tests of worked_runs")
    parser.add_argument("--stride", type=int, default=1, help="refuse every Nth growth, from the first on (1)")
    parser.add_argument("--number", type=int, help="refuse only the growth of this number, from 1 on")
    options = CHECK.options(parser)
    counts = Counter()
    with tempfile.TemporaryDirectory() as name:
        refuser = Refuser(pathlib.Path(name))
        plain = refuser.ended([str(options.tests.resolve()), NAME])
        if plain.status or REFUSED.search(plain.report):
            print(f"differs: nothing refused: {plain}", flush=True)
            counts[WRONG] += 1
        counts += refused_in_turn(refuser, options)
    for found, count in sorted(counts.items()):
        print(f"{found}: {count}")
    held = counts.total() - counts[WRONG]
    print(f"{held} growths were refused as they may be, {counts[WRONG]} differ")
    return status_of(held, counts[WRONG])


if __name__ == "__main__":
    end(main)
