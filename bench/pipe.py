#!/usr/bin/env python3
"""Times lifepipe from Python: a request that computes nothing, many soups beside lifebatch, and cells as an array.

    bench/pipe.py               the best of three rounds
    bench/pipe.py --rounds 5    the best of five

The request is `population`, asked again. The soups, random squares of 32 by 32 cells, are run with one worker over 5000
generations, in one process of lifepipe, in which each takes the place of the one before, and in a process of lifepipe
each; beside them, in a process of lifebatch each. All have to report the same populations. The array has the cells of a
soup with a million of them. A row differs if it misses its aim. It needs numpy, so call it by Debian's Python.
"""
import argparse
import os
import pathlib
import statistics
import subprocess
import sys
import tempfile
import time
from collections.abc import Callable, Sequence

ROOT = pathlib.Path(__file__).resolve().parent.parent
sys.path[:0] = [str(ROOT / "checks"), str(ROOT / "python")]

import lifebatch
from commands import SETTINGS
from common.check import BUILT, BUILT_PIPE, CannotRun, Check, end, sum_up
from common.many import soup
from soups import Soup

CHECK = Check(
    text=__doc__,
    needs=(BUILT, BUILT_PIPE),
    takes="two minutes on a machine that does nothing else",
    replay="run it again.",
)

GENERATIONS = 5000
# What the figures should be at most: microseconds, a ratio of times, and seconds.
REQUEST, RATIO, ARRAY = 100, 0.8, 0.3
# How often the request is asked in a round, and the square of random cells that has a million live ones.
REQUESTS, MILLION = 10000, Soup(1733, 1 / 3)


def seconds_of(call: Callable[[], object]) -> float:
    began = time.monotonic()
    call()
    return time.monotonic() - began


def request_row(rounds: int) -> bool:
    """The median time of a request, in the best round."""
    with lifebatch.open(ROOT / "examples" / "r-pentomino.rle") as pattern:
        pattern.advance(1103)
        pattern.population
        medians = [
            statistics.median(seconds_of(lambda: pattern.population) for _ in range(REQUESTS)) for _ in range(rounds)
        ]
    found = 1e6 * min(medians)
    print(f"| a request that computes nothing | {found:.0f} µs |", flush=True)
    return found <= REQUEST


def in_one_process(texts: Sequence[str]) -> list[int]:
    """The last populations of some patterns, each in place of the one before."""
    found = []
    with lifebatch.parse(texts[0]) as pattern:
        for text in texts:
            pattern.load(text)
            pattern.advance(GENERATIONS)
            found.append(pattern.population)
    return found


def in_a_process_each(files: Sequence[pathlib.Path]) -> list[int]:
    found = []
    for file in files:
        with lifebatch.open(file) as pattern:
            pattern.advance(GENERATIONS)
            found.append(pattern.population)
    return found


def by_lifebatch(program: pathlib.Path, files: Sequence[pathlib.Path]) -> list[int]:
    found = []
    for file in files:
        words = [program, "-m", str(GENERATIONS), file]
        ran = subprocess.run(words, capture_output=True, text=True, env=SETTINGS | os.environ, check=True)
        found.append(int(ran.stdout.split()[-1]))
    return found


def soup_row(options: argparse.Namespace, folder: pathlib.Path) -> bool:
    """All soups in each way, by turns. The fastest round of each way counts."""
    texts = [soup(options.side, number) for number in range(options.soups)]
    files = [folder / f"{number}.rle" for number in range(options.soups)]
    for file, text in zip(files, texts):
        file.write_text(text)
    program = options.program.resolve()
    ways = [
        lambda: in_one_process(texts),
        lambda: in_a_process_each(files),
        lambda: by_lifebatch(program, files),
    ]
    populations, times = [], [[], [], []]
    for _ in range(options.rounds):
        for way, found in zip(ways, times):
            found.append(seconds_of(lambda: populations.append(way())))
    one, each, lifebatchs = map(min, times)
    said = f"{one:.2f} s in one process, {each:.2f} s in a process each, {lifebatchs:.2f} s by lifebatch"
    print(
        f"| {len(texts)} soups of {options.side} by {options.side} | {said}: {one / lifebatchs:.2f} times |", flush=True
    )
    return one <= RATIO * lifebatchs and all(it == populations[0] for it in populations)


def array_row(rounds: int, folder: pathlib.Path) -> bool:
    """The cells as an array. numpy is loaded before."""
    with lifebatch.open(MILLION.file(folder)) as pattern:
        shapes = [pattern.cell_array().shape]
        seconds = min(seconds_of(lambda: shapes.append(pattern.cell_array().shape)) for _ in range(rounds))
        is_whole = set(shapes) == {(pattern.population, 2)}
    print(f"| {shapes[0][0]} cells as an array | {seconds:.3f} s |", flush=True)
    return seconds <= ARRAY and is_whole


def main() -> int:
    parser = CHECK.parser()
    parser.add_argument("--rounds", type=int, default=3, help="how many runs of each; the best counts (3)")
    parser.add_argument("--soups", type=int, default=200, help="how many soups (200)")
    parser.add_argument("--side", type=int, default=32, help="the side of a soup (32)")
    options = CHECK.options(parser)
    os.environ["LIFEBATCH_PIPE"] = str(options.pipe.resolve())
    try:
        import numpy
    except ImportError as missing:
        raise CannotRun("numpy is not there: apt-get install python3-numpy brings it to /usr/bin/python3") from missing
    print(f"numpy {numpy.__version__}\n| What | Time |\n|---|---|")
    with tempfile.TemporaryDirectory() as name:
        folder = pathlib.Path(name)
        held = [request_row(options.rounds), soup_row(options, folder), array_row(options.rounds, folder)]
    return sum_up(held, "aims")


if __name__ == "__main__":
    end(main)
