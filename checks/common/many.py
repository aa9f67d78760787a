"""What the checks of docs/many-patterns.md share: its blocks, patterns, and processes that are killed."""
import os
import pathlib
import random
import re
import signal

from common.check import CannotRun
from common.program import ROOT

PAGE = ROOT / "docs" / "many-patterns.md"
# The blocks of commands of the page: those that check Python's way come first.
OF_PYTHON, OF_SHELL = 3, 7


def blocks(language: str) -> list[str]:
    """The page's blocks in a language."""
    return re.findall(rf"^```{language}\n(.*?)^```$", PAGE.read_text(encoding="utf-8"), re.MULTILINE | re.DOTALL)


def commands() -> list[str]:
    """The page's blocks of commands."""
    found = blocks("sh")
    if len(found) != OF_PYTHON + OF_SHELL:
        raise CannotRun(f"{PAGE.name} has {len(found)} blocks of commands, not {OF_PYTHON + OF_SHELL}")
    return found


def in_place_of(old: str, new: str, block: str) -> str:
    if old not in block:
        raise CannotRun(f"{PAGE.name} has no '{old}' where it is looked for")
    return block.replace(old, new)


def soup(side: int, seed: int) -> str:
    """A square of cells, each live or dead alike at every call."""
    coin = random.Random(seed)
    rows = ("".join("bo"[coin.random() < 0.4] for _ in range(side)) for _ in range(side))
    return f"x = {side}, y = {side}, rule = B3/S23\n" + "$\n".join(rows) + "!\n"


def kill_session(leader: int) -> None:
    """Kills the processes of a session that this script started."""
    for it in pathlib.Path("/proc").glob("[0-9]*"):
        try:
            # The session is the fourth field behind the name in brackets.
            session = int((it / "stat").read_text().rpartition(")")[2].split()[3])
            if session == leader:
                os.kill(int(it.name), signal.SIGKILL)
        except (OSError, ValueError):
            pass
