#!/usr/bin/env python3
"""Looks up the edits and tests that checks/wrong_bodies.txt names, and the rows of it that docs/testing.md shows.

    checks/wrong_bodies.py
    checks/wrong_bodies.py --root FOLDER    the list, the page and the crates of another copy

A line of the list says which body is wrong, and names what refuses it: an edit as crate/file.edit, or a test as
crate::module::test. The edit has to stand in crates/CRATE/must-fail, and the test in the module's file in
crates/CRATE/src/tests. Each row of the page's table has to be a line of the list. `rt ci` shows that the edits are
refused and that the tests pass.
"""
import pathlib
import re
from collections.abc import Iterator

from common.check import CannotRun, Check, end, status_of
from common.program import ROOT

CHECK = Check(
    text=__doc__,
    needs=(),
    takes="1 s",
    replay="run it again; the row and the name are printed.",
)

LIST = pathlib.Path("checks") / "wrong_bodies.txt"
PAGE = pathlib.Path("docs") / "testing.md"
HEAD = "| Wrong body | Refused by |"
NAME = re.compile(r"`([^`]+)`")
EDIT = re.compile(r"(\w+)/(\w+\.edit)")
TEST = re.compile(r"(\w+)((?:::\w+)+)::(\w+)")


def listed(file: pathlib.Path) -> dict[str, list[str]]:
    """The lines of the list: each wrong body, and what is named behind it."""
    lines = (it.rpartition(" | ") for it in file.read_text(encoding="utf-8").splitlines() if it[:1] not in ("", "#"))
    return {body: names.split(", ") for body, _, names in lines}


def shown(page: pathlib.Path) -> Iterator[tuple[str, list[str]]]:
    """The rows of the page's table: the wrong body, and what is named beside it."""
    lines = iter(page.read_text(encoding="utf-8").splitlines())
    if HEAD not in lines:
        raise CannotRun(f"{page} has no table with the head {HEAD}")
    next(lines, None)
    for line in lines:
        if not line.startswith("|"):
            return
        _, body, refused_by, _ = line.split("|")
        yield body.strip(), NAME.findall(refused_by)


def has_test(file: pathlib.Path, test: str) -> bool:
    """Whether a file has a test of this name."""
    return file.is_file() and re.search(rf"#\[test\]\nfn {test}\(", file.read_text(encoding="utf-8")) is not None


def is_found(name: str, root: pathlib.Path) -> bool:
    """Whether an edit or a test stands where its name says."""
    edit, test = EDIT.fullmatch(name), TEST.fullmatch(name)
    if edit:
        return (root / "crates" / edit[1] / "must-fail" / edit[2]).is_file()
    if test:
        modules = test[2].removeprefix("::").split("::")
        return has_test((root / "crates" / test[1] / "src" / "tests").joinpath(*modules).with_suffix(".rt"), test[3])
    return False


def main() -> int:
    parser = CHECK.parser()
    parser.add_argument(
        "--root", type=pathlib.Path, default=ROOT, help="the folder of checks, docs and crates (this repository)"
    )
    root = CHECK.options(parser).root.resolve()
    bodies = listed(root / LIST)
    count, missing, others = 0, 0, 0
    for body, names in bodies.items():
        for name in names:
            count += 1
            if not is_found(name, root):
                missing += 1
                print(f"differs: {body}: no {name}")
    for body, names in shown(root / PAGE):
        if bodies.get(body) != names:
            others += 1
            print(f"differs: {PAGE}: the list has no line for: {body}")
    print(
        f"{count - missing} edits and tests of wrong bodies found, {missing} not; "
        f"{others} rows of {PAGE} that the list has not"
    )
    return status_of(count, missing + others)


if __name__ == "__main__":
    end(main)
