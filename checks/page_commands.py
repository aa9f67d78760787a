#!/usr/bin/env python3
"""Runs the commands that README.md, questions, formats and from-bgolly show, and compares their output with the pages.

    checks/page_commands.py
    checks/page_commands.py --only grows    the commands under headings with this text in them

A block of commands runs by bash, beside a copy of examples/ and the programs, and has to end with status 0. Where a
block without a language follows it under the same heading, the commands have to print that at their end. The rule of a
Makefile has to make its file, and to leave none if the run fails. Blocks that build, install or call the kit are left
out, and a line says so.
"""
import os
import pathlib
import re
import shutil
import subprocess
import tempfile
from collections.abc import Iterator
from dataclasses import dataclass

from common.check import BGOLLY, BUILT, BUILT_VIEW, GOLLY_PATTERNS, Check, end, sum_up, tool
from common.program import ROOT
from common.programs import all_programs

CHECK = Check(
    text=__doc__,
    needs=(BUILT, BUILT_VIEW, BGOLLY, GOLLY_PATTERNS, tool("make", "make"), tool("curl", "curl")),
    takes="10 s",
    replay="give the heading, or a part of it, to --only.",
)

PAGES = ["README.md", "docs/questions.md", "docs/formats.md", "docs/from-bgolly.md"]
HEADING = re.compile(r"^#+ ([^\n]*)$|^```(\w*)\n(.*?)^```$", re.MULTILINE | re.DOTALL)
# What this check can't run.
LEFT_OUT = re.compile(r"\brt \w|launcher/|checks/|apt install")
# How many seconds a block may take.
SECONDS = 120


@dataclass(frozen=True)
class Block:
    """Commands, under a heading of a page, in a language, and what they print if the page shows it."""

    page: str
    heading: str
    language: str
    text: str
    output: str | None

    def says(self) -> str:
        return f"{self.page}, {self.heading}: {self.text.strip().splitlines()[0]}"


def blocks(page: str) -> Iterator[Block]:
    """The blocks of a page that have a language, each with the one that follows, if that has none."""
    heading, found = "", []
    for title, language, text in HEADING.findall((ROOT / page).read_text(encoding="utf-8")):
        heading = title or heading
        found.append((heading, language, None if title else text))
    for place, (under, language, text) in enumerate(found):
        following = found[place + 1] if place + 1 < len(found) else ("", "", None)
        is_output = following[0] == under and following[1] == "" and following[2] is not None
        if text is not None and language in ("sh", "make"):
            yield Block(page, under, language, text, following[2] if is_output else None)


class Folder:
    """A folder with the programs, where ./NAME is, and the files that the commands read."""

    def __init__(self, path: pathlib.Path, programs: dict[str, pathlib.Path]):
        self.path = path
        shutil.copytree(ROOT / "examples", path / "examples")
        for name, program in programs.items():
            (path / name).symlink_to(program)
        (path / "body.txt").write_text("bob$2bo$3o!\n")
        (path / "marked.rle").write_bytes(b"\xef\xbb\xbfx = 3, y = 1\n3o!\n")
        (path / "x.rle").write_text("x = 3, y = 1\n3o!\n")
        self.settings = {**os.environ, "PATH": f"{path}:{os.environ['PATH']}", "URL": f"file://{path}/x.rle"}

    def run(self, words: list[str]) -> tuple[int, str]:
        how = {
            "cwd": self.path,
            "env": self.settings,
            "stdin": subprocess.DEVNULL,
            "stdout": subprocess.PIPE,
            "stderr": subprocess.PIPE,
        }
        ran = subprocess.run(words, timeout=SECONDS, text=True, **how)
        return ran.returncode, ran.stdout

    def holds(self, block: Block) -> bool:
        if block.language == "make":
            return self.makes(block.text)
        status, printed = self.run(["bash", "-c", block.text.replace("/tmp/", f"{self.path}/")])
        return status == 0 and printed.replace(f"{self.path}/", "/tmp/").endswith(block.output or "")

    def makes(self, rules: str) -> bool:
        """Whether the rules make a file, and none of a faulty one: here the program writes a part and fails."""
        (self.path / "rules.mk").write_text(rules)
        good, _ = self.run(["make", "-f", "rules.mk", "examples/glider-later.rle"])
        (self.path / "bin").mkdir()
        (self.path / "bin" / "lifebatch").write_text('#!/bin/sh\necho "x = 1" >"$5"; exit 3\n')
        (self.path / "bin" / "lifebatch").chmod(0o755)
        bad, _ = self.run(
            [
                "env",
                f"PATH={self.path / 'bin'}:{os.environ['PATH']}",
                "make",
                "-f",
                "rules.mk",
                "examples/blinker-later.rle",
            ]
        )
        written = [(self.path / "examples" / f"{it}-later.rle").exists() for it in ("glider", "blinker")]
        return (good, written) == (0, [True, False]) and bad != 0


def main() -> int:
    parser = CHECK.parser()
    parser.add_argument("--only", default="", help="only the commands under headings with this text in them")
    options = CHECK.options(parser)
    held = []
    with tempfile.TemporaryDirectory() as name:
        folder = Folder(pathlib.Path(name), all_programs(options))
        for block in (it for page in PAGES for it in blocks(page) if options.only in it.heading):
            if LEFT_OUT.search(block.text):
                print(f"left out {block.says()}")
                continue
            held.append(folder.holds(block))
            print(f"{'holds  ' if held[-1] else 'differs'}  {block.says()}", flush=True)
    return sum_up(held, "blocks of commands")


if __name__ == "__main__":
    end(main)
