#!/usr/bin/env python3
"""Looks whether a program that the launcher starts has large pages in each start.

    checks/large_pages.py --starts 100

Each start of lifebatch has the launcher's settings, reads a comment of six megabytes from standard input and waits for
more. Then the system tells which of its memory may have large pages. glibc asks for them where the system leaves that
to the programs, as Debian does; elsewhere there is nothing to look at, and the check can't run.
"""
import os
import pathlib
import re
import subprocess

from common.check import BUILT, CannotRun, Check, end, sum_up
from common.launcher import malloc_settings

CHECK = Check(
    text=__doc__,
    needs=(BUILT,),
    takes="2 s",
    replay="run it again; memory is laid out anew in each start.",
)

MODES = pathlib.Path("/sys/kernel/mm/transparent_hugepage/enabled")
COMMENT = b"#C\n" * 2_000_000


def has_large_pages(program: pathlib.Path) -> bool:
    how = {"stdin": subprocess.PIPE, "stdout": subprocess.DEVNULL, "env": malloc_settings() | os.environ}
    with subprocess.Popen([program, "/dev/stdin"], **how) as run:
        # Where all is written, the program has read all but what the pipe holds.
        run.stdin.write(COMMENT)
        run.stdin.flush()
        mapped = pathlib.Path(f"/proc/{run.pid}/smaps").read_text()
        run.kill()
    return re.search(r"^VmFlags:.* hg\b", mapped, re.MULTILINE) is not None


def main() -> int:
    parser = CHECK.parser()
    parser.add_argument("--starts", type=int, default=40, help="how many starts (40)")
    options = CHECK.options(parser)
    if "[madvise]" not in (MODES.read_text() if MODES.is_file() else ""):
        raise CannotRun(f"{MODES} is not there, or is not set to madvise")
    return sum_up([has_large_pages(options.program.resolve()) for _ in range(options.starts)], "starts")


if __name__ == "__main__":
    end(main)
