#!/usr/bin/env python3
"""Tests whether crates/ takes anything without proof: unsafe code, foreign functions, axioms or holes of proofs.

    checks/no_axioms.py
    checks/no_axioms.py --root FOLDER    the crates of another copy

The script searches each .rt and .antt file of src/, specs/ and proofs/, including comments and texts, for the words
that declare such a thing, and for holes, which are written ?, ?name or {! .. !}. It also looks for `also_owns`, by
which a type says of itself what it owns, in all files but the one of History, for proofs by hand (Proof.antt) outside
of the crate plane that name the notes of a device, Counted and History, which such a proof could set to anything, and
for files of C. It reads no proof: `rt ci` shows that the rest is proved. The kit's own list of what the proofs of a
crate take as written is `rt check --list-axioms`, in the crate's folder.
"""
import pathlib
import re

from common.check import Check, end, status_of
from common.program import ROOT

CHECK = Check(
    text=__doc__,
    needs=(),
    takes="1 s",
    replay="run it again; the file and the line are printed.",
)

WORDS = {
    ".rt": re.compile(r"\b(unsafe|extern|no_mangle|sorry)\b"),
    # A `?` within a name, as in get_elem?, is not a hole.
    ".antt": re.compile(r"(\b[Aa]xioms?\b|(?:^|(?<=[\s(\[{,;=]))\?|\{!)"),
}
C_FILES = {".c", ".h", ".o", ".a", ".so"}
OWNS = re.compile(r"\b(also_owns|also_shares)\b")
# A device that notes what went through it, and its notes.
NOTES = re.compile(r"\b(Counted|History|counted_\w+|given|taken)\b")
NOTES_CRATE = pathlib.PurePath("crates/plane")
# The bytes that only contracts read.
OWNER = pathlib.PurePath("crates/plane/src/device/history.rt")


def sources(root: pathlib.Path) -> list[pathlib.Path]:
    """The files of all crates, without what was built."""
    files = (it for it in (root / "crates").rglob("*") if it.is_file())
    return sorted(it for it in files if "out" not in it.relative_to(root).parts)


def findings(file: pathlib.Path, name: pathlib.PurePath) -> list[str]:
    """What a file of this name has that would be taken without proof, each with its line."""
    if file.suffix in C_FILES:
        return ["a file of C"]
    words = WORDS.get(file.suffix)
    if words is None:
        return []
    searched = [words] if name == OWNER else [words, OWNS]
    if file.name == "Proof.antt" and NOTES_CRATE not in name.parents:
        searched.append(NOTES)
    lines = enumerate(file.read_text(encoding="utf-8").splitlines(), 1)
    return [f"line {number}: {found}" for number, line in lines for it in searched for found in it.findall(line)]


def main() -> int:
    parser = CHECK.parser()
    parser.add_argument("--root", type=pathlib.Path, default=ROOT, help="the folder of crates/ (this repository)")
    root = CHECK.options(parser).root.resolve()
    read, found = 0, 0
    for file in sources(root):
        read += file.suffix in WORDS
        for it in findings(file, file.relative_to(root)):
            found += 1
            print(f"differs: {file.relative_to(root)}, {it}")
    print(f"{read} files read, {found} words, holes or files that bring in something unproved")
    return status_of(read, found)


if __name__ == "__main__":
    end(main)
