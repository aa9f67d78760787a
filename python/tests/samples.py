"""Patterns of the tests, and programs that stand in for lifepipe."""
import os
import pathlib
import stat
import unittest

EXAMPLES = pathlib.Path(__file__).resolve().parent.parent.parent / "examples"
GLIDER = "x = 3, y = 3\nbob$2bo$3o!\n"
BLINKER = "x = 3, y = 1\n3o!\n"
# A generation later it has the cells of a blinker that stands.
STANDING = "x = 1, y = 3\no$o$o!\n"
EMPTY = "x = 0, y = 0\n!\n"
# By the rule Seeds it grows without end and without order, so a run takes long and needs many nodes.
GROWING = "x = 4, y = 3, rule = B2/S\nb2o$o2bo$2bo!\n"


def is_alive(process: int) -> bool:
    """Whether a process runs. One that has ended and was not waited for does not."""
    try:
        state = pathlib.Path(f"/proc/{process}/stat").read_text().rpartition(")")[2].split()[0]
    except OSError:
        return False
    return state != "Z"


def script(folder: str, lines: str) -> str:
    """The path of a shell script with these lines."""
    path = pathlib.Path(folder) / "lifepipe"
    path.write_text(f"#!/bin/sh\n{lines}\n")
    path.chmod(path.stat().st_mode | stat.S_IXUSR)
    return str(path)


class WithProgram(unittest.TestCase):
    """A test with another program in place of lifepipe, if it sets one."""

    def setUp(self) -> None:
        before = os.environ.get("LIFEBATCH_PIPE")
        self.addCleanup(self.restore, before)

    @staticmethod
    def restore(before) -> None:
        if before is None:
            os.environ.pop("LIFEBATCH_PIPE", None)
        else:
            os.environ["LIFEBATCH_PIPE"] = before
