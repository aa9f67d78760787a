#!/usr/bin/env python3
"""Runs examples/many_patterns.py as docs/many-patterns.md does, on a folder of patterns, by threads and by Dask.

    checks/python_many_patterns.py
    checks/python_many_patterns.py --patterns 50    fewer patterns

The script takes the commands from the page, and runs them with Debian's Python, to which Debian's Dask belongs. Of the
200 patterns one has a fault and one fills small tables. It kills the first command in the middle, and repeats it; it
cuts the last row, and repeats it again. A program in the place of lifepipe writes down each start. Then it starts a
scheduler of Dask and two workers on the loopback, and ends them: the rows have to be the same. Rows of some patterns
have to be those of a plain program.
"""
import contextlib
import json
import os
import pathlib
import shlex
import socket
import subprocess
import tempfile
import time
from collections import Counter
from collections.abc import Iterator

from common import cells as plain
from common.check import BUILT_PIPE, DASK, DEBIAN_PYTHON, CannotRun, Check, end, sum_up
from common.files import rle_cells
from common.many import OF_PYTHON, blocks, commands, in_place_of, kill_session, soup
from common.program import ROOT

CHECK = Check(
    text=__doc__,
    needs=(BUILT_PIPE, DASK),
    takes="a minute",
    quick=("--patterns", "40"),
    quickly="20 s",
    replay="run it again; it makes the same patterns each time.",
)

SCRIPT = ROOT / "examples" / "many_patterns.py"
# How many seconds a command may take.
SECONDS = 300
# The check replaces the page's numbers: tables that one pattern fills, and then enough for it.
SMALL, ENOUGH = 65536, 4194304
GENERATIONS = 100
# Of so many patterns one is compared with the plain program.
COMPARED = 8
ADDRESS = "alpha:8786"
# How many files a process runs, if it is not said.
CHUNK = 10
ODD = 'below/an "odd"\nname, \udcff.rle'


class Folder:
    """The folder in which the page's commands run: as the checkout, with a number of patterns beside."""

    def __init__(self, path: pathlib.Path, pipe: pathlib.Path, count: int):
        self.path, self.table, self.held = path, path / "rows.jsonl", []
        for name in ("patterns/below", "bin"):
            (path / name).mkdir(parents=True)
        for name in ("examples", "python"):
            (path / name).symlink_to(ROOT / name)
        self.add_program("python3", f'exec {DEBIAN_PYTHON} "$@"')
        self.add_program(
            "lifepipe", f'echo $PPID >>{shlex.quote(str(path))}/starts; exec {shlex.quote(str(pipe))} "$@"'
        )
        soups = {f"soup {number}.rle": soup(16 + number % 48, number) for number in range(count - 3)}
        self.texts = {**soups, "faulty.rle": "x = 3, y = 1\n0b3o!\n", "large.rle": soup(1280, count), ODD: soup(9, 9)}
        for name, text in self.texts.items():
            (path / "patterns" / name).write_text(text)

    def add_program(self, name: str, line: str) -> None:
        program = self.path / "bin" / name
        program.write_text(f"#!/bin/sh\n{line}\n")
        program.chmod(0o755)

    def start(self, block: str) -> subprocess.Popen:
        settings = {
            **os.environ,
            "PATH": f"{self.path / 'bin'}:{os.environ['PATH']}",
            "PYTHONPATH": str(self.path / "python"),
            "LIFEBATCH_PIPE": str(self.path / "bin" / "lifepipe"),
            "HOME": str(self.path),
        }
        how = {
            "stdin": subprocess.DEVNULL,
            "stdout": subprocess.PIPE,
            "stderr": subprocess.STDOUT,
            "start_new_session": True,
        }
        return subprocess.Popen(["sh", "-c", block], cwd=self.path, env=settings, text=True, **how)

    def run(self, block: str) -> str:
        """Runs a command of the page, and returns what it prints. If it fails, the check prints that too."""
        ran = self.start(block)
        try:
            printed = ran.communicate(timeout=SECONDS)[0]
        except subprocess.TimeoutExpired as late:
            kill_session(ran.pid)
            raise CannotRun(f"a command takes more than {SECONDS} s") from late
        if ran.returncode:
            print(f"status {ran.returncode} of {block}\n{printed}", flush=True)
        return printed

    def starts(self) -> list[str]:
        """The processes that have started lifepipe since the last call."""
        log = self.path / "starts"
        found = log.read_text().split() if log.exists() else []
        log.unlink(missing_ok=True)
        return found

    def whole_rows(self) -> list[bytes]:
        """The rows of the table that end with an end of line."""
        data = self.table.read_bytes() if self.table.exists() else b""
        return data[: data.rfind(b"\n") + 1].splitlines(keepends=True)

    def rows(self) -> dict[str, dict]:
        """The row of each name, or no rows if a name has two."""
        rows = [json.loads(it) for it in self.whole_rows()]
        found = {it["name"]: it for it in rows}
        return found if len(found) == len(rows) else {}

    def tell(self, says: str, holds: bool) -> None:
        self.held.append(holds)
        print(f"{'holds  ' if holds else 'differs'}  {says}", flush=True)


def killed_in_the_middle(folder: Folder, block: str) -> bool:
    """Starts a command, and kills it once there are a third of the rows."""
    ran, began = folder.start(block), time.monotonic()
    while len(folder.whole_rows()) < len(folder.texts) // 3 and ran.poll() is None:
        if time.monotonic() - began > SECONDS:
            break
        time.sleep(0.01)
    kill_session(ran.pid)
    ran.communicate()
    return 0 < len(folder.whole_rows()) < len(folder.texts)


def cut(table: pathlib.Path) -> None:
    """Cuts the last row, as a crash does."""
    os.truncate(table, max(table.stat().st_size - 7, 0))


def plain_row(path: pathlib.Path, name: str) -> dict:
    """The row of a pattern, by a plain program."""
    cells, rule = rle_cells(path), plain.Rule({3}, {2, 3})
    for _ in range(GENERATIONS):
        cells = rule.next(cells)
    bounds = list(plain.box(cells)) if cells else None
    return {"name": name, "status": "ok", "generation": GENERATIONS, "population": len(cells), "bounds": bounds}


def try_threads(folder: Folder, block: str) -> None:
    folder.tell("the command is killed in the middle", killed_in_the_middle(folder, block))
    before = folder.whole_rows()
    folder.starts()
    folder.run(block)
    is_resumed = folder.whole_rows()[: len(before)] == before and len(folder.rows()) == len(folder.texts)
    # Some of the starts may be late ones of the command that was killed.
    starts = max(Counter(folder.starts()).values(), default=0)
    is_once = starts == len(folder.texts) - len(before)
    folder.tell("repeated, it runs all that have no row, and nothing twice", is_resumed and is_once)
    rows = folder.rows()
    cut(folder.table)
    folder.run(block)
    folder.tell("a row that was cut is run again, and no other", folder.rows() == rows and len(folder.starts()) == 1)
    whole = folder.table.read_bytes()
    folder.run(block)
    folder.tell("where all have rows nothing is run", folder.table.read_bytes() == whole and not folder.starts())


def try_rows(folder: Folder) -> None:
    rows = folder.rows()
    said = {it["status"] for name, it in rows.items() if name not in ("faulty.rle", "large.rle")}
    refused = [rows[name]["status"].partition(" at ")[0].partition(":")[0] for name in ("faulty.rle", "large.rle")]
    folder.tell(
        "the faulty pattern and the large one are refused", (refused, said) == (["refused 7", "refused 17"], {"ok"})
    )
    names = [it for it in sorted(folder.texts) if it.startswith("soup")][::COMPARED] + [ODD]
    are_alike = [rows[it] == plain_row(folder.path / "patterns" / it, it) for it in names]
    folder.tell(f"{len(names)} rows are those of a plain program", all(are_alike))


def try_larger(folder: Folder, block: str) -> None:
    rows, first = folder.rows(), folder.table
    folder.run(block)
    folder.table = folder.path / "larger.jsonl"
    larger, name = folder.rows(), "large.rle"
    is_run = len(folder.starts()) == 1 and larger.pop(name, {}).get("status") == "ok"
    folder.tell("larger tables are enough for the one that filled them", is_run and larger | {name: rows[name]} == rows)
    folder.table = first


@contextlib.contextmanager
def started(folder: Folder, *lines: str) -> Iterator[None]:
    """Commands that run as long as it is needed."""
    ran = [folder.start(f"exec {line} >>dask.log 2>&1") for line in lines]
    try:
        yield
    finally:
        for it in ran:
            kill_session(it.pid)
            it.communicate()


def free_port() -> int:
    with socket.socket() as probe:
        probe.bind(("127.0.0.1", 0))
        return probe.getsockname()[1]


def is_shared(starts: list[str], count: int) -> bool:
    return len(set(starts)) == 2 and len(starts) == -(-count // CHUNK)


def try_dask(folder: Folder, block: str) -> None:
    rows, port = folder.rows(), free_port()
    scheduler, worker, command = in_place_of(ADDRESS, f"127.0.0.1:{port}", block).splitlines()
    scheduler += f" --host 127.0.0.1 --port {port} --no-dashboard"
    worker += " --host 127.0.0.1 --nthreads 1 --no-dashboard --local-directory"
    folder.table.unlink()
    with started(folder, scheduler, f"{worker} one", f"{worker} two"):
        wait = f"import distributed; distributed.Client('127.0.0.1:{port}').wait_for_workers(2, {SECONDS})"
        folder.run(f"python3 -c {shlex.quote(wait)}")
        folder.run(command)
        starts = folder.starts()
        folder.tell("by Dask the rows are the same", folder.rows() == rows)
        folder.tell("two workers take part, and start a process for ten files", is_shared(starts, len(rows)))
        cut(folder.table)
        folder.run(command)
        folder.tell("by Dask a row that was cut is run again", folder.rows() == rows and len(folder.starts()) == 1)


def is_part_of_script(block: str) -> bool:
    return all(part.strip("\n") in SCRIPT.read_text(encoding="utf-8") for part in block.split("\n\n\n"))


def try_page(folder: Folder) -> None:
    first, larger, dask = commands()[:OF_PYTHON]
    generations, nodes = f"--generations {GENERATIONS}", f"--nodes {SMALL}"
    first = in_place_of("launcher/build.py lifepipe\n", "", first)
    first = in_place_of("--generations 1000", f"{generations} {nodes} --jobs 2 --chunk 1", first)
    larger = in_place_of(
        "--generations 1000", generations, in_place_of("--nodes 67108864", f"--nodes {ENOUGH}", larger)
    )
    dask = in_place_of("--generations 1000", f"{generations} {nodes}", dask)
    folder.tell("the page shows lines of the script", all(map(is_part_of_script, blocks("python"))))
    try_threads(folder, first)
    if folder.rows().keys() != folder.texts.keys():
        # There is nothing to compare the others with.
        return
    try_rows(folder)
    try_larger(folder, larger)
    try_dask(folder, dask)


def main() -> int:
    parser = CHECK.parser()
    parser.add_argument("--patterns", type=int, default=200, help="how many patterns (200)")
    options = CHECK.options(parser)
    with tempfile.TemporaryDirectory() as name:
        folder = Folder(pathlib.Path(name), options.pipe.resolve(), options.patterns)
        try_page(folder)
    return sum_up(folder.held, "rows")


if __name__ == "__main__":
    end(main)
