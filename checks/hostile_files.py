#!/usr/bin/env python3
"""Runs lifebatch on files that are hard to read, at two sizes each, and prints their time and memory.

    checks/hostile_files.py --megabytes 100
    checks/hostile_files.py --only "#C lines"    the files with "#C lines" in their names

Each file repeats one piece of text: digits, blanks, comments, row ends, an endless line, NUL or high bytes; or it has
nodes that are each used once. A row of the table shows the bytes of the larger file, its seconds and peak memory, how
much both grow with each byte more (1.0 is linear), and the result. docs/formats.md defines the result. A run that takes
more time or memory than the options allow differs too. The script needs disk for two files of --megabytes.
"""
import argparse
import hashlib
import os
import pathlib
import resource
import signal
import subprocess
import tempfile
import time
from collections.abc import Iterable, Iterator
from dataclasses import dataclass

from common.check import BUILT, Check, end, status_of
from common.hostile_rows import MACROCELL_ROWS, RLE_ROWS, Row, Tree

CHECK = Check(
    text=__doc__,
    needs=(BUILT,),
    takes="3 minutes",
    quick=("--megabytes", "4", "--seconds", "30"),
    quickly="15 s",
    replay="give the name of the file, or a part of it, to --only, and the same --megabytes.",
)

# Growth is shown only above so many seconds and MB.
LITTLE_TIME, LITTLE_MEMORY = 0.2, 40


@dataclass(frozen=True)
class Run:
    """How a run ended, and its time and memory."""

    length: int
    seconds: float
    megabytes: float
    # Its status, report and message.
    told: tuple[int, str, str]
    digest: str | None


def digest_of(parts: Iterable[bytes]) -> str:
    found = hashlib.sha256()
    for part in parts:
        found.update(part)
    return found.hexdigest()


def chunks(path: pathlib.Path) -> Iterator[bytes]:
    with path.open("rb") as file:
        while chunk := file.read(1 << 20):
            yield chunk


def limit(options: argparse.Namespace) -> None:
    """Limits the memory and the time of a process, in that process."""
    if options.memory:
        resource.setrlimit(resource.RLIMIT_AS, (options.memory << 20, options.memory << 20))
    signal.alarm(options.seconds)


def run(row: Row | Tree, size: int, folder: pathlib.Path, options: argparse.Namespace) -> Run:
    """Runs the file of a row at a size."""
    with (folder / "in").open("wb") as file:
        length = sum(file.write(part) for part in row.file(size))
    output = folder / (row.words[-1] if "-o" in row.words else "out.rle")
    output.unlink(missing_ok=True)
    words = [str(options.program.resolve()), *row.words, "in"]
    began = time.monotonic()
    with (folder / "report").open("wb") as report, (folder / "message").open("wb") as message:
        process = subprocess.Popen(words, cwd=folder, stdout=report, stderr=message, preexec_fn=lambda: limit(options))
        _, ended, usage = os.wait4(process.pid, 0)
    seconds = time.monotonic() - began
    process.returncode = os.waitstatus_to_exitcode(ended)
    printed = [(folder / name).read_text(errors="backslashreplace") for name in ("report", "message")]
    digest = digest_of(chunks(output)) if output.exists() else None
    return Run(length, seconds, usage.ru_maxrss / 1024, (process.returncode, *printed), digest)


def is_right(row: Row | Tree, size: int, ended: Run) -> bool:
    output = row.output(size)
    digest = None if output is None else digest_of(output)
    return (ended.told, ended.digest) == (row.told(size, ended.length), digest)


def growth(small: float, large: float, lengths: tuple[int, int], little: float) -> str:
    """The growth of a figure, divided by the growth of the lengths."""
    if large < little or lengths[0] == lengths[1]:
        return "-"
    return f"{large / max(small, little / 4) / (lengths[1] / lengths[0]):.1f}"


def show(row: Row | Tree, small: Run, large: Run, holds: bool) -> None:
    """Prints a row of the table."""
    lengths = small.length, large.length
    answer = (large.told[2] or large.told[1]).strip().replace("lifebatch: ", "")
    times = growth(small.seconds, large.seconds, lengths, LITTLE_TIME)
    memories = growth(small.megabytes, large.megabytes, lengths, LITTLE_MEMORY)
    numbers = f"{large.length:>11} | {large.seconds:7.2f} | {times:>4} | {large.megabytes:7.0f} | {memories:>4}"
    wrong = "" if holds else f" DIFFERS, status {small.told[0]} and {large.told[0]}"
    print(f"| {row.name} | {numbers} | {answer[:100]}{wrong} |", flush=True)


def parsed() -> argparse.Namespace:
    parser = CHECK.parser()
    parser.add_argument(
        "--megabytes", type=int, default=100, help="how many millions of bytes the larger files have (100)"
    )
    parser.add_argument("--seconds", type=int, default=120, help="how long a run may take (120)")
    parser.add_argument(
        "--memory", type=int, default=6144, help="how many MB of addresses a run may have, 0 for any (6144)"
    )
    parser.add_argument("--only", default="", help="only the files with this text in their names")
    return CHECK.options(parser)


def main() -> int:
    options = parsed()
    sizes = options.megabytes * 10**6 // 4, options.megabytes * 10**6
    rows, wrong = [it for it in RLE_ROWS + MACROCELL_ROWS if options.only in it.name], 0
    print("| File | Bytes | Seconds | Growth | MB | Growth | Answer |\n|---|---|---|---|---|---|---|")
    with tempfile.TemporaryDirectory() as name:
        for row in rows:
            ended = [run(row, size, pathlib.Path(name), options) for size in sizes]
            holds = all(is_right(row, size, it) for size, it in zip(sizes, ended))
            wrong += not holds
            show(row, *ended, holds)
    print(f"{len(rows) - wrong} files are answered as docs/formats.md says, {wrong} differ")
    return status_of(len(rows), wrong)


if __name__ == "__main__":
    end(main)
