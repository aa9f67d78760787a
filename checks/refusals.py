#!/usr/bin/env python3
"""Compares where the prover refuses each must-fail edit with the list checks/refusals.txt.

    checks/refusals.py --log FILE            read what rt ci or rt must-fail printed
    checks/refusals.py                       call rt must-fail, which tries what no earlier run has tried
    checks/refusals.py plane png_writer      only the edits of these crates
    checks/refusals.py --write png_writer    rewrite the lines that differ
    checks/refusals.py --root FOLDER         the crates and the list of another copy

A line of the list names the function that is not proved with an edit, and the clause of its contract that the edit
breaks:

    CRATE/EDIT: FUNCTION, clause NAME

or `its clause`, if that has no name. Where no clause refuses the edit, it says what else does, as `the invariant of its
type`. Of all that the prover finds, rt prints the first. If that is not what the edit is about, it stands behind, as in
`FUNCTION, clause full, clause ok`. An edit differs if rt prints something that its line does not name, or that the edit
is bad, not tried or not refused.
"""
import argparse
import pathlib
import re
import shutil
import subprocess
from collections.abc import Iterator

from common.check import CannotRun, Check, Need, end, sum_up
from common.program import ROOT

CHECK = Check(
    text=__doc__,
    needs=(
        Need(
            "rt",
            "the kit brings it, and has to be on the PATH",
            lambda it: getattr(it, "log", None) is not None or shutil.which("rt") is not None,
        ),
    ),
    takes="a second with --log, and else up to two hours",
    replay="run it again with the crate. rt check in a copy of the crate with the edit prints all that is not proved.",
    quick=("job_queues",),
    quickly="a minute",
)

LIST = pathlib.Path("checks") / "refusals.txt"
HEAD = """\
# Which contract refuses each must-fail edit: CRATE/EDIT: FUNCTION, clause NAME. Where no clause does, what else does.
# Behind what an edit is about stands what rt prints, if that is another place. checks/refusals.py compares both.
"""

PRINTED = re.compile(r"(?:rt: )?must-fail (\w+/[\w.-]+\.edit): (.*)")
REFUSED = re.compile(r"refused, as it must be(?: \((only .*?)\))?(?:: (.*))?")
# What is not proved: an answer in a file of proofs, or a goal at a line of code.
ANSWERED = re.compile(r"(?:note: )?(?:\./)?proofs/(\S+)\.antt:\d+:\d+: error: `([^`]+)`")
OPEN = re.compile(r"(?:note: )?src/(\S+)\.rt:(\d+):\d+: .*\(`([^`]+)`\)")
# The head of a block of functions: a trait, or a type behind a trait that it implements, if it does.
BLOCK = re.compile(r"(?:pub(?:\(crate\))? )?trait (\w+)|impl (?:(?:\w+::)*(\w+) for )?&?(?:\w+::)*(\w+)")
FUNCTION = re.compile(r"[^/]*?\bfn (\w+)")


def blocks(code: str) -> Iterator[tuple[int, str, str]]:
    """The blocks of functions of a file: the line, the trait that is implemented, if one is, and the type or trait."""
    for number, line in enumerate(code.splitlines(), 1):
        if found := BLOCK.match(re.sub(r"<[^<>]*>", "", re.sub(r"<[^<>]*>", "", line))):
            yield number, found[2] or "", found[1] or found[3]


def path_of(src: pathlib.Path, parts: list[str]) -> str:
    """A function's path: behind its type, or else behind its modules. Proofs name a type with its trait: AtSquares for
    `impl Squares for At`."""
    *before, name = parts
    if not before or before[-1].islower():
        return "::".join([*(it for it in before if it not in ("lib", "main")), name])
    files = (it.read_text(encoding="utf-8") for it in sorted(src.rglob("*.rt")))
    types = {own + trait: own for code in files for _, trait, own in blocks(code)}
    return f"{types.get(before[-1], before[-1])}::{name}"


def function_at(src: pathlib.Path, file: str, line: int) -> str:
    """The function that a line of a file stands in. The prover tells where a function begins, at its attributes too."""
    code = (src / f"{file}.rt").read_text(encoding="utf-8")
    lines = code.splitlines()
    while lines[line - 1].strip().startswith("#["):
        line += 1
    start = max((number for number, text in enumerate(lines[:line], 1) if text.startswith("}")), default=0)
    block = [own for number, _, own in blocks(code) if start < number <= line]
    names = [found[1] for found in map(FUNCTION.match, lines[:line]) if found]
    return path_of(src, [*file.split("/"), *block[-1:], names[-1]])


def what_of(goal: str) -> str:
    """What a goal of a function is about."""
    if goal.startswith("returns"):
        _, is_named, clause = goal.rpartition("-clause-")
        return f"clause {clause}" if is_named else "its clause"
    if "-requires" in goal:
        return f"a requires of {goal.partition('-')[0]}"
    if goal.startswith("invariant_of"):
        return "the invariant of its type"
    if re.search(r"-(init|preserved)\b", goal):
        return "the invariant of its loop"
    return "the measure of its loop" if goal.endswith("-smaller") else f"the proof of {goal}"


def place(function: str, goal: str, in_ring: bool) -> str:
    """The place of a goal. Before a goal of functions that call one another stands the name of its function."""
    own = re.match(r"(?!returns-)(\w+)-" if in_ring else r"(\w+)-(?=returns)", goal)
    if own:
        modules, colons, _ = function.rpartition("::")
        function, goal = f"{modules}{colons}{own[1]}", goal[own.end() :]
    return f"{function}, {what_of(goal)}"


def place_of(text: str, src: pathlib.Path) -> str:
    """The place that a message of the prover names: FUNCTION, WHAT."""
    if found := ANSWERED.match(text):
        *folders, name = found[1].split("/")
        if not folders or name not in ("Answers", "Invariants", "Proof"):
            return f"the proof of {found[2]}"
        folder = folders.pop()
        return place(path_of(src, [*folders, folder.strip("+").partition("+")[0]]), found[2], folder.startswith("+"))
    if found := OPEN.match(text):
        return place(function_at(src, found[1], int(found[2])), found[3], False)
    return text or "which rt does not name"


def listed_in(line: str) -> set[str]:
    """The places that a line of the list names behind its edit. A lemma may belong to several functions."""
    parts = [it.split(", ") for it in line.split("; ")]
    return {name for function, *whats in parts for it in whats for name in (f"{function}, {it}", it)}


def read_list(file: pathlib.Path) -> dict[str, str]:
    """The lines of the list, by CRATE/EDIT."""
    lines = file.read_text(encoding="utf-8").splitlines() if file.is_file() else []
    return {name: text for name, _, text in (it.partition(": ") for it in lines if it and not it.startswith("#"))}


def difference(place: str, said: str, line: str) -> str:
    """What differs between what rt says of an edit and its line of the list, or nothing."""
    if not place:
        return said or "rt printed nothing of it"
    if not line:
        return f"it is not listed: {place}"
    return "" if place in listed_in(line) else f"it is refused elsewhere: {place}, and not as listed: {line}"


def make_parser() -> argparse.ArgumentParser:
    parser = CHECK.parser()
    parser.add_argument("crates", nargs="*", metavar="CRATE", help="the crates whose edits are compared (all)")
    parser.add_argument("--log", type=pathlib.Path, metavar="FILE", help="what rt ci or rt must-fail printed")
    parser.add_argument("--write", action="store_true", help="rewrite the lines that differ")
    parser.add_argument(
        "--root", type=pathlib.Path, default=ROOT, help="the folder of crates/ and checks/ (this repository)"
    )
    return parser


def main() -> int:
    options = CHECK.options(make_parser())
    root, chosen = options.root.resolve(), options.crates
    edits = {f"{it.parent.parent.name}/{it.name}" for it in root.glob("crates/*/must-fail/*.edit")}
    unknown = set(chosen) - {it.partition("/")[0] for it in edits}
    if unknown:
        raise CannotRun(f"there is no crate with edits of the name {', '.join(sorted(unknown))}")
    if options.log:
        printed = options.log.read_text(encoding="utf-8", errors="replace")
    else:
        printed = subprocess.run(
            ["rt", "must-fail", *chosen], cwd=root, stdout=subprocess.PIPE, errors="replace", check=False
        ).stdout
    said = {it[1]: it[2] for it in map(PRINTED.fullmatch, printed.splitlines()) if it}
    if not said:
        raise CannotRun("rt printed nothing of any edit")
    refused = {name: found for name in edits & said.keys() if (found := REFUSED.fullmatch(said[name]))}
    places = {
        name: it[1] or place_of(it[2] or "", root / "crates" / name.partition("/")[0] / "src")
        for name, it in refused.items()
    }
    listed = read_list(root / LIST)
    names = [it for it in sorted(edits | listed.keys()) if not chosen or it.partition("/")[0] in chosen]
    differs = {
        it: difference(places.get(it, ""), said.get(it, ""), listed.get(it, ""))
        if it in edits
        else "there is no such edit"
        for it in names
    }
    for name, text in differs.items():
        if text:
            print(f"differs: {name}: {text}")
    if options.write:
        kept = {name: text for name, text in listed.items() if name in edits or name not in names}
        new = {name: places[name] for name in names if differs[name] and places.get(name)}
        (root / LIST).write_text(
            HEAD + "".join(f"{name}: {text}\n" for name, text in sorted((kept | new).items())), encoding="utf-8"
        )
    return sum_up([not it for it in differs.values()], "edits")


if __name__ == "__main__":
    end(main)
