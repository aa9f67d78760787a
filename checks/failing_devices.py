#!/usr/bin/env python3
"""Runs lifebatch with files and devices that fail, and compares status, report, message and output file.

    checks/failing_devices.py
    checks/failing_devices.py --only pipe    the rows with "pipe" in their names

Output goes to a full device, a closed pipe or a closed descriptor; input can't be opened or read. docs/formats.md and
README.md define the result. As root the script runs the program as the user `nobody`, since root may read and write
everything.
"""
import contextlib
import os
import pathlib
import resource
import shutil
import subprocess
import tempfile
from collections.abc import Callable, Iterator
from dataclasses import dataclass

from common.check import BUILT, Check, end, sum_up
from common.program import Ended, text_of

CHECK = Check(
    text=__doc__,
    needs=(BUILT,),
    takes="5 s",
    replay="give the name of the row, or a part of it, to --only.",
)

# How many seconds a run may take.
SECONDS = 60

BLINKER = "x = 3, y = 1\n3o!"
MACROCELL = "[M2]\n*$\n4 1 1 1 1\n"
REPORT = "0: 3\n1: 3\n"
UPRIGHT = "#CXRLE Pos=1,-1 Gen=1\nx = 1, y = 3, rule = B3/S23\no$o$o!\n"

UNREAD = (3, "", "lifebatch: refused 19: ReadFailed\n")
UNSAID = (3, "", "lifebatch: refused 20: WriteFailed\n")
UNWRITTEN = (3, REPORT, "lifebatch: refused 20: WriteFailed\n")


def nothing(folder: pathlib.Path) -> None:
    pass


def full_output(folder: pathlib.Path) -> None:
    (folder / "out.rle").symlink_to("/dev/full")


def folder_output(folder: pathlib.Path) -> None:
    (folder / "out.rle").mkdir()


def locked_input(folder: pathlib.Path) -> None:
    (folder / "in.rle").chmod(0)


def locked_folder(folder: pathlib.Path) -> None:
    folder.chmod(0o555)


def locked_output(folder: pathlib.Path) -> None:
    (folder / "out.rle").write_text("as it was")
    (folder / "out.rle").chmod(0o444)


def endless_link(folder: pathlib.Path) -> None:
    (folder / "loop.rle").symlink_to("loop.rle")


@dataclass
class Row:
    """The arguments of a run, its set-up, and its status, report and message."""

    name: str
    words: list[str]
    told: tuple[int, str, str]
    prepare: Callable[[pathlib.Path], None] = nothing
    # What stands for standard output: a file, "closed pipe", or "closed"; None where it is read.
    out: str | None = None
    # What stands for standard input: a file, or "closed".
    read: str = "/dev/null"
    # What the output file holds then, if there is one.
    output: str | None = None
    is_error_closed: bool = False
    # How many MB of addresses there are.
    memory: int | None = None


RUN = ["-m", "1", "in.rle"]
WRITE = ["-m", "1", "-o", "out.rle", "in.rle"]

ROWS = [
    Row("no file", ["nowhere.rle"], UNREAD),
    Row("no folder", ["nowhere/in.rle"], UNREAD),
    Row("a folder", ["."], UNREAD),
    Row("a file as a folder", ["in.rle/in.rle"], UNREAD),
    Row("a file that may not be read", RUN, UNREAD, locked_input),
    Row("a file whose reading fails", ["/proc/self/mem"], UNREAD),
    Row("a link to itself", ["loop.rle"], UNREAD, endless_link),
    Row("a name that is too long", ["x" * 5000], UNREAD),
    Row("no name", [""], UNREAD),
    Row("a file without an end", ["/dev/zero"], (1, "", "lifebatch: refused 18: NoMemory\n"), memory=512),
    Row("a folder as standard input", ["/dev/stdin"], UNREAD, read="."),
    Row("standard input that is closed", ["/dev/stdin"], UNREAD, read="closed"),
    Row("standard input that is closed, and a file", RUN, (0, REPORT, ""), read="closed"),
    Row("a report to a full device", RUN, UNSAID, out="/dev/full"),
    Row("a report to a full device, and an output file", WRITE, UNSAID, out="/dev/full"),
    Row("a report to a closed pipe", RUN, UNSAID, out="closed pipe"),
    Row("a report to a closed pipe, with two workers", ["--workers", "2", *WRITE], UNSAID, out="closed pipe"),
    Row("a report to a device that is closed", WRITE, UNSAID, out="closed"),
    Row("no report to a device that is closed", ["-q", *WRITE], (0, "", ""), out="closed", output=UPRIGHT),
    Row("help to a full device", ["--help"], UNSAID, out="/dev/full"),
    Row("help to a closed pipe", ["--help"], UNSAID, out="closed pipe"),
    Row("a picture to a full device", ["-q", "--window=0,0,3,3", *RUN], UNSAID, out="/dev/full"),
    Row("an output file on a full device", WRITE, UNWRITTEN, full_output),
    Row("an output file in no folder", ["-m", "1", "-o", "nowhere/out.rle", "in.rle"], UNWRITTEN),
    Row("an output file that is a folder", WRITE, UNWRITTEN, folder_output),
    Row("an output file that may not be written", WRITE, UNWRITTEN, locked_output, output="as it was"),
    Row("an output file in a folder that may not be written", WRITE, UNWRITTEN, locked_folder),
    Row(
        "a macrocell file, and its output in no folder", ["-o", "nowhere/out.mc", "in.mc"], (3, "0: 4\n", UNWRITTEN[2])
    ),
    Row("a macrocell file, its report to a full device", ["-o", "out.mc", "in.mc"], UNSAID, out="/dev/full"),
    Row("standard error that is closed", WRITE, (0, REPORT, ""), output=UPRIGHT, is_error_closed=True),
    Row("standard error that is closed, and bad words", ["-m", "x"], (2, "", ""), is_error_closed=True),
    Row("standard error that is closed, and no file", ["nowhere.rle"], (3, "", ""), is_error_closed=True),
    Row("standard error that is closed, and a full device", WRITE, (3, REPORT, ""), full_output, is_error_closed=True),
]


def closed_pipe() -> int:
    """The end of a pipe that nobody reads."""
    read, write = os.pipe()
    os.close(read)
    return write


def prepare_process(row: Row) -> None:
    """In the process of the run, closes the streams that its row has closed, and limits its memory."""
    if row.memory:
        resource.setrlimit(resource.RLIMIT_AS, (row.memory << 20, row.memory << 20))
    for number, is_closed in enumerate((row.read == "closed", row.out == "closed", row.is_error_closed)):
        if is_closed:
            os.close(number)


def give_to_nobody(*paths: pathlib.Path) -> None:
    """Makes the user `nobody` the owner of a folder's files, if this script runs as root."""
    if os.geteuid() == 0:
        for path in paths:
            if path.exists() and not path.is_symlink():
                shutil.chown(path, "nobody")


def make_files(row: Row, folder: pathlib.Path) -> None:
    (folder / "in.rle").write_text(BLINKER)
    (folder / "in.mc").write_text(MACROCELL)
    give_to_nobody(folder, folder / "in.rle", folder / "in.mc")
    row.prepare(folder)
    give_to_nobody(folder / "out.rle")


@contextlib.contextmanager
def streams(row: Row, folder: pathlib.Path) -> Iterator[dict[str, int]]:
    """The standard input and output of a run. A stream that its row has closed is closed in the process of the run."""
    opened = []
    if row.read != "closed":
        opened.append(os.open(folder / row.read, os.O_RDONLY))
    source = opened[0] if opened else subprocess.DEVNULL
    sink = {None: subprocess.PIPE, "closed": subprocess.DEVNULL}.get(row.out)
    if sink is None:
        sink = closed_pipe() if row.out == "closed pipe" else os.open(row.out, os.O_WRONLY)
        opened.append(sink)
    try:
        yield {"stdin": source, "stdout": sink}
    finally:
        for it in opened:
            os.close(it)


def run_row(program: str, row: Row, folder: pathlib.Path) -> Ended:
    """Runs a row in its own folder."""
    make_files(row, folder)
    user = "nobody" if os.geteuid() == 0 else None
    with streams(row, folder) as how:
        how = {
            **how,
            "stderr": subprocess.PIPE,
            "timeout": SECONDS,
            "user": user,
            "preexec_fn": lambda: prepare_process(row),
        }
        try:
            ran = subprocess.run([program, *row.words], cwd=folder, **how)
        except subprocess.TimeoutExpired as late:
            return Ended(None, text_of(late.stdout), text_of(late.stderr))
    return Ended(ran.returncode, text_of(ran.stdout), text_of(ran.stderr))


def difference(program: str, row: Row, folder: pathlib.Path) -> str | None:
    """The difference in a run of a row, or None."""
    ended = run_row(program, row, folder)
    told = (ended.status, ended.report, ended.message)
    output = folder / "out.rle"
    holds = output.read_text(errors="backslashreplace") if output.is_file() and not output.is_symlink() else None
    if told != row.told:
        return f"{told} instead of {row.told}"
    return None if holds == row.output else f"the output file has {holds!r} instead of {row.output!r}"


def main() -> int:
    parser = CHECK.parser()
    parser.add_argument("--only", default="", help="only the rows with this text in their names")
    options = CHECK.options(parser)
    rows, held = [it for it in ROWS if options.only in it.name], []
    with tempfile.TemporaryDirectory() as name:
        top = pathlib.Path(name)
        top.chmod(0o755)
        program = shutil.copy(options.program, top / "lifebatch")
        for number, row in enumerate(rows):
            folder = top / str(number)
            folder.mkdir()
            found = difference(program, row, folder)
            folder.chmod(0o755)
            held.append(found is None)
            print(f"differs  {row.name}: {found}" if found else f"holds    {row.name}", flush=True)
    return sum_up(held, "rows")


if __name__ == "__main__":
    end(main)
