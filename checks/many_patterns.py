#!/usr/bin/env python3
"""Runs the commands of docs/many-patterns.md on a folder of patterns, kills them in the middle, and resumes them.

    checks/many_patterns.py
    checks/many_patterns.py --patterns 50    fewer patterns

The script takes the commands from the page, but not Python's. It makes 200 patterns, of which one has a fault and one
fills small tables, and runs each by itself. Then it runs the page's commands: it kills the first with all runs that
it started, and repeats it. For several machines it adds the page's words to that command, and a script takes the place
of ssh. The array job of Slurm runs as a script with a number, twice. Each report and each pattern has to be the same as
that of the plain run. The frames of a film have to be the pictures of their generations, and the film has to have them
all.
"""
import os
import pathlib
import re
import subprocess
import tempfile
import time

from common.check import BUILT, BUILT_VIEW, FFMPEG, PARALLEL, CannotRun, Check, end, status_of
from common.launcher import malloc_settings
from common.many import OF_PYTHON, PAGE, commands, in_place_of, kill_session, soup
from common.program import ROOT

CHECK = Check(
    text=__doc__,
    needs=(BUILT, BUILT_VIEW, PARALLEL, FFMPEG),
    takes="a minute",
    quick=("--patterns", "40"),
    quickly="15 s",
    replay="run it again; it makes the same patterns each time.",
)

# How many seconds a command may take.
SECONDS = 300
# The check replaces the page's numbers: tables that one pattern fills, and then enough for it.
SMALL, ENOUGH = 65536, 4194304
GENERATIONS = 300
# The frames of the film, five generations apart as on the page.
FRAMES, APART = 20, 5
# How many tasks an array job has here.
TASKS = 3
SSH = """#!/bin/sh
while [ "$1" != -- ]; do shift; done
shift
exec sh -c "$*"
"""


class Folder:
    """The folder in which the page's commands run, with a number of patterns."""

    def __init__(self, path: pathlib.Path, program: pathlib.Path, view: pathlib.Path, count: int):
        self.path, self.program, self.view, self.differences = path, program, view, 0
        (path / "patterns").mkdir()
        (path / "bin").mkdir()
        (path / "bin" / "lifebatch").symlink_to(program)
        (path / "bin" / "lifeview").symlink_to(view)
        (path / "bin" / "ssh").write_text(SSH)
        (path / "bin" / "ssh").chmod(0o755)
        texts = {f"soup {number}": soup(16 + number % 48, number) for number in range(count - 3)}
        pentomino = (ROOT / "examples" / "r-pentomino.rle").read_text()
        self.texts = texts | {"faulty": "x = 3, y = 1\n0b3o!\n", "large": soup(1280, count), "r-pentomino": pentomino}
        for name, text in self.texts.items():
            (path / "patterns" / f"{name}.rle").write_text(text)

    def start(self, block: str) -> subprocess.Popen:
        settings = {
            **os.environ,
            "PATH": f"{self.path / 'bin'}:{os.environ['PATH']}",
            "PARALLEL_SSH": str(self.path / "bin" / "ssh"),
        }
        settings |= {"GENERATIONS": str(GENERATIONS), "NODES": str(SMALL), "HOME": str(self.path)}
        how = {
            "stdin": subprocess.DEVNULL,
            "stdout": subprocess.PIPE,
            "stderr": subprocess.STDOUT,
            "start_new_session": True,
        }
        return subprocess.Popen(["sh", "-c", block], cwd=self.path, env=settings, text=True, **how)

    def run(self, block: str) -> str:
        """The output of a command of the page."""
        ran = self.start(block)
        try:
            return ran.communicate(timeout=SECONDS)[0]
        except subprocess.TimeoutExpired as late:
            kill_session(ran.pid)
            raise CannotRun(f"a command takes more than {SECONDS} s") from late

    def logged(self) -> list[str]:
        """The lines of the runs that ended."""
        log = self.path / "runs.log"
        return log.read_text().splitlines()[1:] if log.exists() else []

    def clear(self) -> None:
        (self.path / "runs.log").unlink(missing_ok=True)
        for it in (self.path / "out").glob("*"):
            it.unlink()

    def plain(self, nodes: int) -> dict[str, tuple[bytes, bytes, bytes]]:
        """The result of each pattern, run by itself: its file, its report and its message."""
        return {name: self.plain_run(name, nodes) for name in self.texts}

    def plain_run(self, name: str, nodes: int) -> tuple[bytes, bytes, bytes]:
        file = self.path / "plain.rle"
        file.unlink(missing_ok=True)
        words = [
            self.program,
            "-m",
            str(GENERATIONS),
            "--nodes",
            str(nodes),
            "-o",
            file,
            self.path / "patterns" / f"{name}.rle",
        ]
        ran = subprocess.run(words, stdin=subprocess.DEVNULL, capture_output=True, timeout=SECONDS)
        return (file.read_bytes() if file.exists() else b"", ran.stdout, ran.stderr)

    def written(self, name: str) -> tuple[bytes, ...]:
        files = [self.path / "out" / f"{name}.{ending}" for ending in ("rle", "txt", "err")]
        return tuple(it.read_bytes() if it.exists() else b"" for it in files)

    def picture(self, generation: int, words: list[str]) -> bytes:
        """The picture of the film's pattern at a generation, drawn by itself."""
        file = self.path / "plain.png"
        words = [self.view, "-m", str(generation), *words, "-o", file, self.path / "patterns" / "r-pentomino.rle"]
        subprocess.run(words, stdin=subprocess.DEVNULL, capture_output=True, timeout=SECONDS)
        return file.read_bytes()

    def frame(self, number: int) -> bytes:
        file = self.path / "frames" / f"{APART * number:03}.png"
        return file.read_bytes() if file.exists() else b""

    def unlike(self, plain: dict[str, tuple[bytes, bytes, bytes]]) -> list[str]:
        """The patterns of which something else was written."""
        return [name for name in plain if self.written(name) != plain[name]]

    def tell(self, says: str, holds: bool) -> None:
        print(f"{'holds  ' if holds else 'differs'}  {says}", flush=True)
        self.differences += not holds


def killed_in_the_middle(folder: Folder, block: str) -> bool:
    """Starts a command, and kills it once a third of the runs have ended."""
    ran, began = folder.start(block), time.monotonic()
    while len(folder.logged()) < len(folder.texts) // 3 and ran.poll() is None and time.monotonic() - began < SECONDS:
        time.sleep(0.01)
    kill_session(ran.pid)
    ran.communicate()
    return 0 < len(folder.logged()) < len(folder.texts)


def try_film(folder: Folder, frames: str, film: str) -> None:
    drawn = re.search(r"--window=\S+ --size \d+", frames)
    if not drawn:
        raise CannotRun(f"{PAGE.name} has other frames")
    folder.run(in_place_of(f"0 {APART} 995", f"0 {APART} {APART * (FRAMES - 1)}", frames))
    are_alike = [folder.frame(number) == folder.picture(APART * number, drawn[0].split()) for number in range(FRAMES)]
    folder.tell("each frame is the picture of its generation", all(are_alike))
    folder.run(film)
    counted = folder.run("ffprobe -v error -count_frames -show_entries stream=nb_read_frames -of csv=p=0 film.mp4")
    folder.tell("the film has all frames", counted.strip() == str(FRAMES))


def try_array(folder: Folder, task: str, plain: dict[str, tuple[bytes, bytes, bytes]]) -> None:
    """The tasks of an array job, with fewer names each, and each once more."""
    folder.clear()
    (folder.path / "log").mkdir()
    names = sorted(folder.texts)
    (folder.path / "patterns.txt").write_text("".join(f"patterns/{it}.rle\n" for it in names))
    chunk = len(names) // TASKS + 1
    task = in_place_of("* 1000 + 1)),+999p", f"* {chunk} + 1)),+{chunk - 1}p", task)
    (folder.path / "task.sh").write_text(in_place_of("-m 1000", f"-m {GENERATIONS} --nodes {SMALL}", task))
    tasks = "".join(f"SLURM_ARRAY_TASK_ID={number} sh task.sh; " for number in range(TASKS))
    folder.run(tasks)
    logs = [it.read_bytes() for it in sorted((folder.path / "log").iterdir())]
    folder.tell("the tasks of an array job run all patterns", len(logs) == TASKS and folder.unlike(plain) == [])
    folder.run(tasks)
    again = [it.read_bytes() for it in sorted((folder.path / "log").iterdir())]
    folder.tell("a task that is started again runs nothing twice", again == logs)


def try_page(folder: Folder) -> None:
    one_folder, failures, larger, words, task, *film = commands()[OF_PYTHON:]
    one_folder = in_place_of("GENERATIONS=1000 NODES=4194304", f"GENERATIONS={GENERATIONS} NODES={SMALL}", one_folder)
    larger = in_place_of("NODES=67108864", f"NODES={ENOUGH}", larger)
    machines = in_place_of("parallel ", f"parallel {words.strip()} ", one_folder)
    plain, whole = folder.plain(SMALL), folder.plain(ENOUGH)

    is_set = all(f"\nexport {name}={value}\n" in PAGE.read_text() for name, value in malloc_settings().items())
    folder.tell("the page asks of malloc what the launcher does", is_set)
    folder.tell("the command for a folder is killed in the middle", killed_in_the_middle(folder, one_folder))
    ended = folder.logged()
    folder.run(one_folder)
    is_resumed = folder.logged()[: len(ended)] == ended and len(folder.logged()) == len(plain)
    folder.tell("repeated, it runs all that had not ended, and nothing twice", is_resumed)
    folder.tell("each file is that of a plain run", folder.unlike(plain) == [])
    failed = folder.run(failures).splitlines()
    is_listed = len(failed) == 2 and all(
        any(f"patterns/{it}.rle" in line for line in failed) for it in ("faulty", "large")
    )
    folder.tell("the two runs that failed are listed", is_listed and b"NodesFull" in plain["large"][2])
    folder.run(larger)
    folder.tell(
        "larger tables are enough for the one that filled them", whole["large"][2] == b"" and folder.unlike(whole) == []
    )

    folder.clear()
    folder.run(machines)
    hosts = {line.split("\t")[1] for line in folder.logged()}
    folder.tell("two machines share the runs", hosts == {"alpha", "beta"} and folder.unlike(plain) == [])

    try_array(folder, task, plain)
    try_film(folder, *film)


def main() -> int:
    parser = CHECK.parser()
    parser.add_argument("--patterns", type=int, default=200, help="how many patterns (200)")
    options = CHECK.options(parser)
    with tempfile.TemporaryDirectory() as name:
        folder = Folder(pathlib.Path(name), options.program.resolve(), options.view.resolve(), options.patterns)
        try_page(folder)
    print(f"{options.patterns} patterns; {folder.differences} rows differ")
    return status_of(10, folder.differences)


if __name__ == "__main__":
    end(main)
