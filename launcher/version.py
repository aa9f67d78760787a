"""Which version this is: that of CHANGELOG.md, with the commit and the logic of the kit."""
import functools
import re
import subprocess
from dataclasses import dataclass

from crates import ROOT

VERSION = re.compile(r"## (\d+\.\d+\.\d+), (\d{4}-\d{2}-\d{2})")


@dataclass(frozen=True)
class Release:
    """A version, its date, and what is new in it."""

    number: str
    date: str
    items: list[str]


def releases() -> list[Release]:
    """What CHANGELOG.md lists, the newest first."""
    text = (ROOT / "CHANGELOG.md").read_text(encoding="utf-8")
    found = []
    for part in re.split(r"^(?=## )", text, flags=re.MULTILINE)[1:]:
        head, _, body = part.partition("\n")
        number, date = VERSION.fullmatch(head).groups()
        found.append(
            Release(number, date, [" ".join(it.split()) for it in re.split(r"^- ", body, flags=re.MULTILINE)[1:]])
        )
    return found


def printed(*words: str) -> str:
    """What a command prints, or nothing if it fails."""
    try:
        return subprocess.run(
            words, cwd=ROOT, stdin=subprocess.DEVNULL, capture_output=True, text=True, check=True
        ).stdout.strip()
    except (OSError, subprocess.CalledProcessError):
        return ""


@functools.cache
def whole_version() -> str:
    """The version with the commit and the kit's logic, in one line."""
    commit = printed("git", "describe", "--always", "--dirty", "--exclude=*") or "unknown"
    logic = re.search(r"logic (\w+)", printed("rt", "version"))
    return f"{releases()[0].number} (commit {commit}, logic {logic[1] if logic else 'unknown'})"
