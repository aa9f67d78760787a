#!/usr/bin/env python3
"""Looks up each link and each script in README.md and docs/*.md.

    checks/page_links.py
    checks/page_links.py --root FOLDER    the pages of another copy

A link or an image has to name a file or a folder of the repository, relative to its page. An anchor has to be that of a
heading, as GitHub makes them. Links in code and links to other sites are skipped. A script of checks/, bench/ or
launcher/ that a page names, also in code, has to exist and to be executable.
"""
import os
import pathlib
import re
import urllib.parse
from collections import Counter
from collections.abc import Iterator

from common.check import CannotRun, Check, end, status_of
from common.program import ROOT

CHECK = Check(
    text=__doc__,
    needs=(),
    takes="1 s",
    replay="run it again; the page and the line are printed.",
)

FENCE = re.compile(r" {0,3}(```|~~~)")
CODE = re.compile(r"(`+)(?!`).*?(?<!`)\1(?!`)")
HEADING = re.compile(r" {0,3}#{1,6}[ \t]+(.*?)(?:[ \t]+#+)?[ \t]*$")
# A target stands in brackets behind a text, in "<>" or not, perhaps with a title; or behind a name at the start of a
# line.
LINK = re.compile(r"\]\(\s*(?:<([^>]*)>|([^\s()]*(?:\([^\s()]*\)[^\s()]*)*))(?:\s+[\"'(][^\"')]*[\"')])?\s*\)")
DEFINITION = re.compile(r"^ {0,3}\[[^\]]+\]:\s*<?([^\s>]+)>?")
IMAGE = re.compile(r'<img\b[^>]*\bsrc="([^"]*)"')
SCRIPT = re.compile(r"(?<![\w/.])(?:checks|bench|launcher)/\w+\.py\b")
OUTSIDE = re.compile(r"[a-zA-Z][a-zA-Z0-9+.-]*:|//")


def plain_lines(page: pathlib.Path) -> Iterator[tuple[int, str]]:
    """The lines of a page outside blocks of code, with their numbers from 1 on."""
    fence = None
    for number, line in enumerate(page.read_text(encoding="utf-8").splitlines(), 1):
        mark = FENCE.match(line)
        if mark and fence in (None, mark[1]):
            fence = None if fence else mark[1]
        elif not fence:
            yield number, line


def targets(page: pathlib.Path) -> Iterator[tuple[int, str]]:
    """The targets of the links of a page that lead to no other site, with the numbers of their lines."""
    for number, line in plain_lines(page):
        text = CODE.sub("", line)
        found = [link[1] if link[1] is not None else link[2] for link in LINK.finditer(text)]
        found += DEFINITION.findall(text)[:1] + IMAGE.findall(text)
        yield from ((number, it) for it in found if not OUTSIDE.match(it))


def scripts(page: pathlib.Path) -> Iterator[tuple[int, str]]:
    """The scripts that a page names, with the numbers of their lines."""
    for number, line in enumerate(page.read_text(encoding="utf-8").splitlines(), 1):
        yield from ((number, name) for name in SCRIPT.findall(line))


def anchor(heading: str) -> str:
    """The anchor that GitHub gives to a heading."""
    text = re.sub(r"!?\[([^\]]*)\]\([^)]*\)", r"\1", heading).replace("`", "").replace("*", "")
    return re.sub(r"[^\w\- ]", "", text.lower()).replace(" ", "-")


def anchors(page: pathlib.Path) -> set[str]:
    """The anchors of a page: of headings that are alike, the later ones have a number."""
    found, counts = set(), Counter()
    for _, line in plain_lines(page):
        if heading := HEADING.match(line):
            name = anchor(heading[1])
            found.add(f"{name}-{counts[name]}" if counts[name] else name)
            counts[name] += 1
    return found


def fault(page: pathlib.Path, target: str, root: pathlib.Path) -> str | None:
    """Why a target doesn't resolve, if it doesn't."""
    name, _, part = (urllib.parse.unquote(it) for it in target.partition("#"))
    file = (page.parent / name).resolve() if name else page
    if not file.is_relative_to(root):
        return "lies outside the repository"
    if not target or not file.exists():
        return "names no file"
    if part and (file.suffix != ".md" or part not in anchors(file)):
        return "names no heading"
    return None


def pages(root: pathlib.Path) -> list[pathlib.Path]:
    found = [it for it in [root / "README.md", *sorted((root / "docs").glob("*.md"))] if it.is_file()]
    if not found:
        raise CannotRun(f"{root} has neither README.md nor docs/*.md")
    return found


def script_fault(name: str, root: pathlib.Path) -> str | None:
    """Why a script can't be called by its name, if it can't."""
    if not (root / name).is_file():
        return "names no file"
    return None if os.access(root / name, os.X_OK) else "is not executable"


def looked_up(page: pathlib.Path, root: pathlib.Path) -> Iterator[tuple[int, str, str | None]]:
    """Each link and each script of a page: its line, what it says, and why it doesn't resolve, if it doesn't."""
    yield from ((line, f"({target})", fault(page, target, root)) for line, target in targets(page))
    yield from ((line, name, script_fault(name, root)) for line, name in scripts(page))


def main() -> int:
    parser = CHECK.parser()
    parser.add_argument(
        "--root", type=pathlib.Path, default=ROOT, help="the folder of README.md and docs (this repository)"
    )
    root = CHECK.options(parser).root.resolve()
    count, wrong = 0, 0
    for page in pages(root):
        for line, said, reason in looked_up(page, root):
            count += 1
            if reason:
                wrong += 1
                print(f"differs: {page.relative_to(root)}, line {line}: {said} {reason}")
    print(f"{count - wrong} links and names of scripts resolve, {wrong} don't")
    return status_of(count, wrong)


if __name__ == "__main__":
    end(main)
