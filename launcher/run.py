"""The processes of a build."""
import contextlib
import fcntl
import json
import os
import pathlib
import re
import shutil
import signal
import subprocess
import sys
import tempfile
import time
from collections.abc import Iterable, Iterator
from dataclasses import dataclass, field
from typing import Optional

from crates import Program, all_below, folder, library, sum_file, sum_of, used_by
from kit import Words, commands_for_library, commands_for_program, words_of_check
from pace import Pace
from plan import NICE, Share, record
from progress import Progress


class Run:
    """A crate that is being proved: the commands left to run, and the one that runs."""

    def __init__(self, name: str, commands: list[Words], sum_before: str):
        self.name, self.commands = name, commands
        # The crate's checksum when the build began.
        self.sum = sum_before
        # When its commands began, and the seconds of processors that they took.
        self.began, self.seconds = time.monotonic(), 0.0
        self.said = tempfile.TemporaryFile("w+", errors="replace")
        self.call()

    def call(self) -> None:
        how = {"cwd": folder(self.name), "stdin": subprocess.DEVNULL, "stdout": self.said, "stderr": subprocess.STDOUT}
        # A group of its own, so that it can be ended, in the session of the build: Linux may share the cores out by
        # session, and then `nice` says nothing between two of them.
        self.process = subprocess.Popen(self.commands.pop(0), preexec_fn=os.setpgrp, **how)

    def poll(self) -> Optional[int]:
        """Starts the next command if one has ended. Returns the status once the last one, or a failed one, has
        ended."""
        ended, status, used = os.wait4(self.process.pid, os.WNOHANG)
        if not ended:
            return None
        self.process.returncode = os.waitstatus_to_exitcode(status)
        self.seconds += used.ru_utime + used.ru_stime
        if self.process.returncode == 0 and self.commands:
            self.call()
            return None
        return self.process.returncode

    def keep(self, work: float, jobs: int) -> None:
        """Records what it took. Keeps the result for later builds if no file has changed since this one began."""
        clock = time.monotonic() - self.began
        took = {"seconds": round(self.seconds, 1), "clock": round(clock, 1), "jobs": jobs, "work": round(work, 1)}
        record(self.name).write_text(json.dumps(took) + "\n")
        sum_of.cache_clear()
        if sum_of(self.name) == self.sum:
            sum_file(self.name).write_text(self.sum)

    def messages(self) -> list[str]:
        self.said.seek(0)
        return self.said.read().splitlines()

    def end(self) -> None:
        """Ends it and the processes that it started."""
        with contextlib.suppress(ProcessLookupError):
            os.killpg(self.process.pid, signal.SIGTERM)
        self.process.wait()


@dataclass
class Build:
    program: Program
    pace: Pace
    progress: Progress
    running: dict[str, Run] = field(default_factory=dict)
    # Each crate's checksum when the build began.
    sums: dict[str, str] = field(default_factory=dict)
    # The number of the signal that interrupts the build.
    signal: int = 0

    def commands(self, name: str, jobs: int) -> list[Words]:
        libraries = {it: library(it) for it in all_below(self.pace.plan.crates)[name]}
        if name == self.program.name:
            return commands_for_program(
                words_of_check(name, "main", used_by()[name], libraries, jobs), self.program.new
            )
        return commands_for_library(words_of_check(name, "lib", used_by()[name], libraries, jobs), library(name))

    def start(self, name: str, share: Share) -> None:
        shutil.rmtree(library(name).parent, ignore_errors=True)
        library(name).parent.mkdir(parents=True)
        nice = ["nice", "-n", str(NICE * share.behind)] if share.behind else []
        self.running[name] = Run(name, [[*nice, *it] for it in self.commands(name, share.jobs)], self.sums[name])
        self.pace.begin(name, share)

    def end(self, name: str, status: int) -> bool:
        """Records a proved crate, or prints why it isn't proved and returns False."""
        run = self.running.pop(name)
        if status == 0:
            if name == self.program.name:
                self.program.new.rename(self.program.built)
            run.keep(self.pace.work[name], self.pace.running[name].jobs)
            self.pace.end(name)
            return True
        self.progress.tell(f"{name} was not proved (status {status}):")
        for line in run.messages():
            if not re.search(r": proved$|^so far: ", line):
                print(line, file=sys.stderr)
        return False

    def run(self) -> bool:
        """Proves the crates that are not yet proved. Returns whether all are."""
        last = time.monotonic()
        while True:
            for name, share in self.pace.plan.next_ones(self.pace.done, self.pace.running).items():
                self.start(name, share)
            if not self.running:
                return True
            self.progress.show(self.pace)
            time.sleep(0.1)
            self.pace.pass_time(time.monotonic() - last)
            last = time.monotonic()
            if self.signal:
                return False
            ended = {name: run.poll() for name, run in self.running.items()}
            for name, status in ended.items():
                if status is not None and not self.end(name, status):
                    return False

    def close(self) -> None:
        """Ends what runs."""
        for run in self.running.values():
            run.end()


@contextlib.contextmanager
def locked(progress: Progress, folders: Iterable[pathlib.Path]) -> Iterator[None]:
    """Locks these folders, as `rt` does, so that other builds and `rt` wait until this one ends."""
    held = [os.open(it, os.O_RDONLY) for it in sorted(folders)]
    try:
        for it in held:
            try:
                fcntl.flock(it, fcntl.LOCK_EX | fcntl.LOCK_NB)
            except BlockingIOError:
                progress.tell("waiting for another build to end")
                fcntl.flock(it, fcntl.LOCK_EX)
        yield
    finally:
        for it in held:
            os.close(it)
