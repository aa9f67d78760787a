#!/usr/bin/env python3
"""Tests whether the Python of this repository keeps to pyproject.toml, and uses all that it imports.

    checks/python_style.py

black has to leave each file that git lists as it is, and pycodestyle and pyflakes have to find nothing in them. To lay
files out, call black in the folder of pyproject.toml. It does not fill paragraphs of texts and comments.
"""
import re
import subprocess
import tomllib

from common.check import CannotRun, Check, end, status_of, tool
from common.program import ROOT

CHECK = Check(
    text=__doc__,
    needs=tuple(tool(name, name) for name in ("black", "pycodestyle", "pyflakes3", "git")),
    takes="10 s",
    replay="run it again; the files and the lines are printed.",
)


def printed(*words: str) -> subprocess.CompletedProcess:
    """What a command says of the repository."""
    how = {"stdin": subprocess.DEVNULL, "stdout": subprocess.PIPE, "stderr": subprocess.STDOUT, "text": True}
    return subprocess.run(words, cwd=ROOT, **how)


def commands() -> list[list[str]]:
    """The three commands, as pyproject.toml has their options."""
    tools = tomllib.loads((ROOT / "pyproject.toml").read_text(encoding="utf-8"))["tool"]
    wanted, found = tools["black"]["required-version"], printed("black", "--version").stdout
    if not re.match(rf"black, {wanted}\.", found):
        raise CannotRun(f"black has to be of version {wanted}; this is {found.splitlines()[0]}")
    width, left_out = tools["black"]["line-length"], ",".join(tools["pycodestyle"]["ignore"])
    style = ["pycodestyle", f"--max-line-length={width}", f"--ignore={left_out}"]
    return [["black", "--quiet", "--check", "--diff"], style, ["pyflakes3"]]


def main() -> int:
    CHECK.options(CHECK.parser())
    files, wrong = printed("git", "ls-files", "*.py").stdout.split(), 0
    for words in commands():
        ran = printed(*words, *files)
        if ran.returncode:
            wrong += 1
            print(f"differs: {words[0]}:\n{ran.stdout}", end="")
    print(f"{len(files)} files, {wrong} of three tools find something")
    return status_of(len(files), wrong)


if __name__ == "__main__":
    end(main)
