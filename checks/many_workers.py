#!/usr/bin/env python3
"""Compares the files and reports of runs whose tables grow and are collected, with many numbers of workers, many times.

    checks/many_workers.py --times 50 --workers 1 2 3 4 7 64
    checks/many_workers.py --only jagged            the patterns with this text in their names

Each of Golly's patterns below runs so many generations with a limit of slots that it fills: its tables grow, and are
collected if the run goes on. The report and the macrocell file have to be the same to the byte in each run.
"""
import argparse
import pathlib
import tempfile
from collections import Counter
from dataclasses import dataclass

from common.check import BUILT, GOLLY_PATTERNS, Check, end, status_of
from common.program import PATTERNS, run, unpacked

CHECK = Check(
    text=__doc__,
    needs=(BUILT, GOLLY_PATTERNS),
    takes="an hour",
    quick=("--times", "1", "--workers", "1", "4"),
    quickly="20 s",
    replay="give --only with the name that is printed.",
)


@dataclass(frozen=True)
class Row:
    """A pattern of Golly's, its generations, and the limit of slots."""

    path: str
    generations: int
    nodes: int


ROWS = [
    Row("HashLife/hexadecimal.mc.gz", 2**12, 2**19),
    Row("HashLife/hexadecimal.mc.gz", 2**14, 2**20),
    Row("HashLife/jagged.mc", 2**14, 2**17),
    Row("HashLife/jagged.mc", 2**17, 2**19),
    Row("HashLife/jagged2.mc", 2**14, 2**18),
    Row("HashLife/gotts-dots.mc", 2**16, 2**17),
    Row("HashLife/broken-lines.mc", 2**14, 2**18),
    Row("HashLife/metapixel-galaxy.mc.gz", 2**12, 2**20),
    Row("HashLife/metapixel-p216-gun.mc.gz", 2**13, 2**19),
    Row("HashLife/metapixel-parity64.mc.gz", 2**13, 2**19),
    Row("HashLife/loafer-gun-p8388608-linear.mc.gz", 2**12, 2**20),
    Row("HashLife/demonoid-c512-hashlife-friendly.mc.gz", 2**12, 2**20),
    Row("HashLife/linear-propagator-p237228340.mc.gz", 2**12, 2**20),
    Row("HashLife/nick-gotts-1.mc", 2**16, 2**19),
    Row("Life/Breeders/LWSS-breeder.rle", 2**12, 2**16),
    Row("Life/Breeders/pi-blink-breeder1.rle", 2**12, 2**16),
    Row("Life/Breeders/one-cell-thick-quadratic-growth-2596x1.rle", 2**12, 2**17),
    Row("Life/Methuselahs/lidka-predecessor.rle", 2**14, 2**16),
    Row("Life/Methuselahs/rabbits-relation-17423.rle", 2**14, 2**16),
    Row("Life/Guns/gun-p165mwss.rle", 2**14, 2**16),
]

# The status, the report, the message, and the file if there is one.
Told = tuple[int | None, str, str, bytes]


def told(program: str, pattern: pathlib.Path, row: Row, workers: int, folder: pathlib.Path, seconds: float) -> Told:
    """What a run says and writes."""
    output = folder / "out.mc"
    output.unlink(missing_ok=True)
    words = [
        "-m",
        str(row.generations),
        "--nodes",
        str(row.nodes),
        "--workers",
        str(workers),
        "-o",
        "out.mc",
        str(pattern),
    ]
    ended = run([program, *words], folder, seconds)
    return ended.status, ended.report, ended.message, output.read_bytes() if output.exists() else b""


def compare(program: str, row: Row, options: argparse.Namespace, counts: Counter) -> None:
    """Counts the runs of a row that are the same as the first with one worker, and those that differ."""
    with tempfile.TemporaryDirectory() as name:
        folder = pathlib.Path(name)
        pattern = unpacked(options.folder / row.path, folder)
        first = told(program, pattern, row, 1, folder, options.seconds)
        for workers in options.workers:
            for _ in range(options.times):
                same = told(program, pattern, row, workers, folder, options.seconds) == first
                counts["same" if same and first[0] == 0 else "different"] += 1
                if not same or first[0] != 0:
                    print(
                        f"differs: {row.path}, {row.generations} generations, --nodes {row.nodes} --workers {workers}",
                        flush=True,
                    )


def parsed() -> argparse.Namespace:
    parser = CHECK.parser()
    parser.add_argument("--folder", type=pathlib.Path, default=PATTERNS, help="where Golly's patterns are")
    parser.add_argument("--only", default="", metavar="TEXT", help="only the patterns with this text in their names")
    parser.add_argument("--times", type=int, default=50, help="how many runs of each (50)")
    parser.add_argument(
        "--workers", type=int, nargs="+", default=[1, 2, 3, 4, 7, 64], help="numbers of workers (1 2 3 4 7 64)"
    )
    parser.add_argument("--seconds", type=float, default=120, help="how long a run may take (120)")
    return CHECK.options(parser)


def main() -> int:
    options, counts = parsed(), Counter()
    for row in ROWS:
        if options.only in row.path:
            compare(str(options.program.resolve()), row, options, counts)
    print(f"{counts['same']} runs are the same, {counts['different']} differ")
    return status_of(counts["same"], counts["different"])


if __name__ == "__main__":
    end(main)
