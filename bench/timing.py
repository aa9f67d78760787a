"""Runs of a program, with their time and memory."""
import os
import pathlib
import subprocess
import time
from collections.abc import Sequence
from dataclasses import dataclass, field

# A run that takes longer is ended.
SECONDS = 300


@dataclass(frozen=True)
class Command:
    """The arguments of a run, and settings of the environment. The caller's own settings win."""

    words: list[str]
    settings: dict[str, str] = field(default_factory=dict)
    # It is ended after so many times the time of the command before it, if that is given.
    patience: float | None = None

    def seconds(self, before: "Found | None") -> float:
        """How long a run may take, after one of the command before."""
        if self.patience is None or not isinstance(before, Run):
            return SECONDS
        return min(self.patience * before.seconds, SECONDS)


@dataclass(frozen=True)
class Run:
    """The time of a run, that of its processors, its peak memory, and the last generation that it reported with its
    population."""

    seconds: float
    # User and system time, of all threads.
    processor: float
    mebibytes: float
    last: str

    def __str__(self) -> str:
        return f"{self.seconds:.3f} s, {self.mebibytes:.0f} MiB"

    def serial(self, workers: int) -> float:
        """The part of the time in which one of some workers ran, if all of them ran in the rest of it."""
        return (workers * self.seconds - self.processor) / ((workers - 1) * self.seconds)


# A run, or why there is none.
Found = Run | str


def last_line(report: pathlib.Path) -> str:
    """The last line of a report, without the commas that bgolly writes into numbers."""
    lines = [line for line in report.read_text().splitlines() if line[:1].isdigit()]
    return lines[-1].replace(",", "") if lines else ""


def run_once(command: Command, folder: pathlib.Path, most: float) -> Found:
    """Runs a command for at most so many seconds."""
    report = folder / "report"
    begin = time.monotonic()
    with report.open("wb") as out:
        how = {"stdout": out, "stderr": subprocess.DEVNULL, "cwd": folder, "env": command.settings | os.environ}
        process = subprocess.Popen(command.words, **how)
    while True:
        done, status, usage = os.wait4(process.pid, os.WNOHANG)
        if done:
            break
        if time.monotonic() - begin > most:
            process.kill()
            os.wait4(process.pid, 0)
            process.returncode = 0
            return f"over {most:.2g} s"
        time.sleep(0.0005)
    seconds = time.monotonic() - begin
    process.returncode = 0
    if status:
        return f"status {os.waitstatus_to_exitcode(status)}"
    return Run(seconds, usage.ru_utime + usage.ru_stime, usage.ru_maxrss / 1024, last_line(report))


def best_of_rounds(commands: Sequence[Command], rounds: int, folder: pathlib.Path) -> list[Found]:
    """The fastest run of each command, or why there is none. In a round each command runs once, unless it failed
    before."""
    found: list[list[Found]] = [[] for _ in commands]
    for _ in range(rounds):
        before = None
        for runs, command in zip(found, commands):
            if not runs or isinstance(runs[-1], Run):
                runs.append(run_once(command, folder, command.seconds(before)))
            before = runs[-1]
    return [best(runs) for runs in found]


def best(runs: Sequence[Found]) -> Found:
    """The fastest run, unless the last one failed or they report different populations."""
    if isinstance(runs[-1], str):
        return runs[-1]
    lasts = sorted({it.last for it in runs})
    return min(runs, key=lambda it: it.seconds) if len(lasts) == 1 else f"reports {' and '.join(lasts)}"
