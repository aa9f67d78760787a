"""Programs to which memory or threads are refused, by a small library that is loaded before the C library."""
import os
import pathlib
import subprocess
import threading
from dataclasses import dataclass

from common.check import CannotRun
from common.program import text_of

# How many seconds a program may take.
SECONDS = 60


@dataclass(frozen=True)
class Ended:
    """How a program ended, and whether anything was refused to it."""

    status: int
    report: str
    message: str
    is_refused: bool


class Refuser:
    """The library, compiled from refuse.c into a folder."""

    def __init__(self, folder: pathlib.Path):
        self.folder, self.library = folder, folder / "refuse.so"
        source = pathlib.Path(__file__).resolve().parent / "refuse.c"
        words = ["cc", "-O2", "-shared", "-fPIC", "-o", self.library, source, "-ldl"]
        compiled = subprocess.run(words, capture_output=True)
        if compiled.returncode:
            raise CannotRun(f"cc doesn't compile common/refuse.c: {text_of(compiled.stderr)}")

    def ended(self, words: list[str], kind: str = "memory", first: int = 0, last: int = 0) -> Ended:
        """How these words end in the folder, where the growths of memory, or the threads, from a first to a last one
        are refused."""
        read, write = os.pipe()
        settings = {
            "LD_PRELOAD": str(self.library),
            "REFUSED": kind,
            "FIRST": str(first),
            "LAST": str(last),
            "TOLD": str(write),
        }
        how = {"stdout": subprocess.PIPE, "stderr": subprocess.PIPE, "pass_fds": [write]}
        with subprocess.Popen(words, cwd=self.folder, env=settings, **how) as process:
            os.close(write)
            # A program that hangs is killed, and its status says so.
            late = threading.Timer(SECONDS, process.kill)
            late.start()
            report, message = process.communicate()
            late.cancel()
        with os.fdopen(read, "rb") as pipe:
            is_refused = bool(pipe.read())
        return Ended(process.returncode, text_of(report), text_of(message), is_refused)
