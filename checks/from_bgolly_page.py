#!/usr/bin/env python3
"""Runs lifebatch and bgolly for each line of docs/from-bgolly.md, and tests whether the line holds.

    checks/from_bgolly_page.py
    checks/from_bgolly_page.py --only rule    the lines with "rule" in them

The page says what is the same in both programs and what differs: options, reports, where cells lie, and what lifebatch
refuses. The script prints the arguments and the first lines of both runs. It was written for bgolly 3.3; a line may
fail with another version.
"""
import gzip
import pathlib
import tempfile

from common.bgolly_lines import FILES, LINES, SECONDS, WATCHED, Line, Ran
from common.check import BGOLLY, BUILT, CannotRun, Check, end, sum_up
from common.program import run

CHECK = Check(
    text=__doc__,
    needs=(BUILT, BGOLLY),
    takes="5 s",
    replay="give the line, or a part of it, to --only.",
)


class Programs:
    """Both programs, in a folder with the files of the lines."""

    def __init__(self, program: pathlib.Path, folder: pathlib.Path):
        self.program, self.folder = str(program.resolve()), folder
        for name, text in FILES.items():
            (folder / name).write_text(text)
        (folder / "pentomino.rle.gz").write_bytes(gzip.compress(FILES["pentomino.rle"].encode()))
        self.keep("-h -m 100 -o out.mc later.rle", "theirs.mc")
        self.keep("-h -m 150 -i 50 -o out.rle later.rle", "theirs.rle")
        self.keep("-h -t -m 4 -i 1 -o out.mc glider.rle", "timeline.mc")

    def run(self, name: str, words: str, seconds: float = SECONDS) -> Ran:
        for it in self.folder.glob("out.*"):
            it.unlink()
        program = self.program if name == "lifebatch" else name
        ended = run([program, *words.split()], self.folder, seconds)
        written = [it.read_text(errors="backslashreplace") for it in self.folder.glob("out.*") if it.suffix != ".gz"]
        return Ran([name, *words.split()], ended, "".join(written))

    def keep(self, words: str, to: str) -> None:
        """Keeps a file that bgolly writes."""
        written = self.run("bgolly", words).file
        if not written:
            raise CannotRun(f"bgolly {words} writes no file")
        (self.folder / to).write_text(written)

    def shows(self, line: Line) -> bool:
        """Prints both runs, and returns whether the line holds."""
        ours = self.run("lifebatch", line.ours)
        theirs = self.run("bgolly", line.theirs, WATCHED if line.is_endless else SECONDS)
        holds = bool(line.holds(ours, theirs))
        print(f"{'holds  ' if holds else 'differs'}  {line.says}\n    {ours.shown()}    {theirs.shown()}", flush=True)
        return holds


def main() -> int:
    parser = CHECK.parser()
    parser.add_argument("--only", default="", help="only the lines with this text in them")
    options = CHECK.options(parser)
    with tempfile.TemporaryDirectory() as name:
        programs = Programs(options.program, pathlib.Path(name))
        held = [programs.shows(it) for it in LINES if options.only in it.says]
    return sum_up(held, "lines")


if __name__ == "__main__":
    end(main)
