"""The lines of docs/from-bgolly.md: for each the arguments of both programs, and what has to hold of the two runs."""
import re
from collections.abc import Callable
from dataclasses import dataclass

from common.program import Ended

# How many seconds a run may take, and how many an endless one is watched.
SECONDS, WATCHED = 60, 2

FILES = {
    "pentomino.rle": "#C Five cells.\nx = 3, y = 3, rule = B3/S23\nb2o$2o$bo!\n",
    "later.rle": "#CXRLE Pos=5,7 Gen=100\n#C Five cells.\nx = 3, y = 3, rule = B3/S23\nb2o$2o$bo!\n",
    "glider.rle": "x = 3, y = 3\nbob$2bo$3o!\n",
    "pentomino.mc": "[M2]\n#R B3/S23\n#G 100\n#C Five cells.\n$$$$$$$.**$\n**$.*$\n4 0 1 0 2\n",
    "text.rle": "hello\n",
    "cells.lif": "#Life 1.06\n0 0\n1 0\n2 0\n",
    "glider.cells": "!Name: Glider\n.O.\n..O\nOOO\n",
    "states.rle": "x = 3, y = 1, rule = 345/2/4\n.AB!\n",
    "zero.rle": "x = 3, y = 1\n0b3o!\n",
    "old.lif": "#Life 1.05\n#P 0 0\n***\n",
    "glider.mcl": "#MCell 4.00\n#GAME Life\n#RULE 23/3\n#BOARD 40x40\n#L .A$..A$3A\n",
    "states.mc": "[M2]\n#R 345/2/4\n1 0 1 2 0\n2 0 1 0 0\n3 0 2 0 0\n",
    "script.txt": "show\n",
    # A rule in a file, by which a cell is born beside one live cell, and none lives on.
    "Lonely.rule": "@RULE Lonely\n@TABLE\nn_states:2\nneighborhood:Moore\nsymmetries:permute\n"
    "0,1,0,0,0,0,0,0,0,1\n1,0,0,0,0,0,0,0,0,0\n",
}


@dataclass(frozen=True)
class Ran:
    """A run of a program: its arguments, how it ended, and what it wrote to its file."""

    words: list[str]
    ended: Ended
    file: str = ""

    @property
    def status(self) -> int | None:
        return self.ended.status

    @property
    def out(self) -> str:
        return self.ended.report

    @property
    def err(self) -> str:
        return self.ended.message

    def report(self) -> list[tuple[str, str]]:
        """The lines of the report, each as a generation and a population."""
        return [tuple(it.split(": ")) for it in self.out.splitlines() if re.fullmatch(r"[\d,]+: [\d,]+", it)]

    def generations(self) -> list[str]:
        return [generation for generation, _ in self.report()]

    def last(self) -> tuple[str, str]:
        """The last line of the report, or empty texts if there is none."""
        return (self.report() or [("", "")])[-1]

    def refusal(self) -> str:
        return self.err.strip().rpartition(": ")[2]

    def shown(self) -> str:
        """The arguments, the status and the first lines of the output."""
        lines = [it for it in self.out.splitlines() if it != "- " + " ".join(self.words)]
        lines += self.err.splitlines() + self.file.splitlines()
        lines = [it if len(it) <= 60 else it[:57] + "..." for it in lines if it]
        lines = lines[:4] + ["..."] * (len(lines) > 4)
        status = "no end" if self.status is None else f"status {self.status}"
        return f"{' '.join(self.words)}   [{status}]\n" + "".join(f"      {it}\n" for it in lines)


@dataclass(frozen=True)
class Line:
    """A line of the page: the arguments of both programs, and what has to hold of the two runs."""

    says: str
    ours: str
    theirs: str
    holds: Callable[[Ran, Ran], bool]
    # Whether bgolly never ends.
    is_endless: bool = False


def not_here(text: str) -> Line:
    """A line with an option that bgolly takes, and that lifebatch does not have."""
    return Line(
        f"{text.split()[0]} isn't there",
        f"{text} -m 4 pentomino.rle",
        f"{text} -h -m 4 -i 4 pentomino.rle",
        lambda ours, theirs: ours.status == 2 and theirs.status == 0,
    )


def refused(what: str, options: str, file: str, name: str, theirs: str) -> Line:
    """A file or a rule that bgolly takes, and lifebatch refuses by this name."""
    return Line(
        f"{what} is refused as {name}",
        f"{options} -m 1 {file}",
        f"{theirs} -m 1 -i 1 {file}",
        lambda ours, theirs: ours.status == 1 and ours.refusal() == name and theirs.status == 0,
    )


def nodes(text: str) -> list[str]:
    """The node lines of a macrocell text."""
    return [it for it in text.splitlines() if it and it[0] not in "#["]


def rows(text: str) -> str:
    """The items of an RLE text, without what stands before them."""
    return "".join(it for it in text.splitlines() if it[:1] not in "#x")


LINES = [
    # Options.
    Line(
        "-m N is N generations on from the file's own; there it is the generation to stop at",
        "-m 50 later.rle",
        "-h -m 150 -i 50 later.rle",
        lambda ours, theirs: ours.report() == theirs.report() == [("100", "5"), ("150", "64")],
    ),
    Line(
        "there -m 50 leaves a file of generation 100 as it is",
        "-m 0 later.rle",
        "-h -m 50 -i 10 later.rle",
        lambda ours, theirs: ours.report() == theirs.report() == [("100", "5")],
    ),
    Line(
        "without -m no generation is run; there the run goes on for ever",
        "pentomino.rle",
        "pentomino.rle",
        lambda ours, theirs: ours.report() == [("0", "5")] and theirs.status is None,
        is_endless=True,
    ),
    Line(
        "-i never overshoots; there a run ends at the first multiple from -m on",
        "-m 25 -i 10 pentomino.rle",
        "-h -m 25 -i 10 pentomino.rle",
        lambda ours, theirs: ours.generations() == ["0", "10", "20", "25"]
        and theirs.generations() == ["0", "10", "20", "30"],
    ),
    Line(
        "without -i the first and the last are reported; there some between them too",
        "-m 100 pentomino.rle",
        "-m 100 pentomino.rle",
        lambda ours, theirs: ours.report() == [("0", "5"), ("100", "121")]
        and len(theirs.report()) > 2
        and theirs.last() == ours.last(),
    ),
    Line(
        "-q reports nothing; there it leaves the generations, and twice nothing",
        "-q -m 20 pentomino.rle",
        "-q -h -m 20 -i 20 pentomino.rle",
        lambda ours, theirs: ours.out == "" and theirs.out.endswith("\n0\n20\n"),
    ),
    Line(
        "-q may not be repeated; there it may",
        "-q -q -m 20 pentomino.rle",
        "-q -q -h -m 20 -i 20 pentomino.rle",
        lambda ours, theirs: ours.status == 2 and theirs.status == 0 and theirs.report() == [],
    ),
    Line(
        "-r takes the place of the file's rule in both",
        "-r B36/S23 -m 40 pentomino.rle",
        "-r B36/S23 -h -m 40 -i 40 pentomino.rle",
        lambda ours, theirs: ours.report() == theirs.report() != [],
    ),
    Line(
        "the long names of -m, -i, -r, -q and -o are the same",
        "--generation 8 --stepsize 8 --rule B36/S23 --quiet --output out.rle pentomino.rle",
        "--generation 8 --stepsize 8 --rule B36/S23 --quiet --output out.rle pentomino.rle",
        lambda ours, theirs: ours.status == theirs.status == 0 and rows(ours.file) == rows(theirs.file) != "",
    ),
    Line(
        "-h shows the help; there it asks for HashLife, which is always on here",
        "-h",
        "-h -m 0 pentomino.rle",
        lambda ours, theirs: "--generation" in ours.out
        and ours.status == theirs.status == 0
        and theirs.last() == ("0", "5"),
    ),
    Line(
        "numbers have no commas",
        "-m 1103 pentomino.rle",
        "-h -m 1103 -i 1103 pentomino.rle",
        lambda ours, theirs: ours.last() == ("1103", "116") and theirs.last() == ("1,103", "116"),
    ),
    Line(
        "the report is all of standard output; there the version and the command come first",
        "pentomino.rle",
        "-h -m 0 pentomino.rle",
        lambda ours, theirs: ours.out == "0: 5\n" and theirs.out.startswith("This is bgolly"),
    ),
    Line(
        "options stand anywhere, and values also behind = or at once; there only before the file and in a word of their"
        " own",
        "pentomino.rle -m=4 -i4",
        "pentomino.rle -m=4 -i4",
        lambda ours, theirs: ours.last() == ("4", "8") and theirs.status == 10,
    ),
    Line(
        "what is wrong goes to standard error with status 1, 2 or 3; there with status 10, and to standard output",
        "-m 4 nothing.rle",
        "-m 4 nothing.rle",
        lambda ours, theirs: ours.status == 3 and ours.out == "" and theirs.status == 10 and "Fatal" in theirs.out,
    ),
    Line(
        "-m takes numbers to 2^64 - 1, of which what passes 2^63 is TooFar; there any",
        "-m 18446744073709551615 glider.rle",
        "-h -m 18446744073709551616 -i 18446744073709551616 glider.rle",
        lambda ours, theirs: ours.refusal() == "TooFar" and theirs.last() == ("18,446,744,073,709,551,616", "5"),
    ),
    Line(
        "-m of 2^64 is a usage error; there it runs",
        "-m 18446744073709551616 glider.rle",
        "-h -m 18446744073709551616 -i 18446744073709551616 glider.rle",
        lambda ours, theirs: ours.status == 2 and theirs.last() == ("18,446,744,073,709,551,616", "5"),
    ),
    Line(
        "options may stand after the file; there they may not",
        "pentomino.rle -m 4",
        "-h pentomino.rle -m 4 -i 4",
        lambda ours, theirs: ours.last() == ("4", "8") and theirs.status == 10,
    ),
    Line(
        "a value may follow an option directly, or after =; there only after a blank",
        "-m=4 -i4 pentomino.rle",
        "-m=4 -i4 -h pentomino.rle",
        lambda ours, theirs: ours.last() == ("4", "8") and theirs.status == 10,
    ),
    Line(
        "--workers is there; there it is not",
        "--workers 2 -m 4 pentomino.rle",
        "--workers 2 -h -m 4 -i 4 pentomino.rle",
        lambda ours, theirs: ours.last() == ("4", "8") and theirs.status == 10,
    ),
    Line(
        "--exec isn't there",
        "--exec script.txt",
        "--exec script.txt",
        lambda ours, theirs: ours.status == 2 and "0: 0" in theirs.out,
    ),
    *map(not_here, ("-a HashLife", "-M 100", "-T 1", "-b", "-2", "-v", "-t", "-s .")),
    *map(not_here, ("--render", "--scale 1", "--autofit", "--progress", "--popcount")),
    # Where cells lie.
    Line(
        "a macrocell file's rows lie one apart: there the file of the same cells has them a row higher",
        "-m 0 -o out.mc later.rle",
        "-h -m 100 -o out.mc later.rle",
        lambda ours, theirs: nodes(ours.file)[:1] == ["$$$$$$$......**$"]
        and nodes(theirs.file)[:1] == ["$$$$$$......**$.....**$"],
    ),
    Line(
        "so a macrocell file of bgolly's is a row higher here than the cells were there",
        "-m 0 -o out.rle theirs.mc",
        "-h -m 100 -o out.mc later.rle",
        lambda ours, theirs: "Pos=5,6 Gen=100" in ours.file,
    ),
    Line(
        "a macrocell file goes through either with its squares as they are",
        "-m 0 -o out.mc theirs.mc",
        "-h -m 100 -o out.mc theirs.mc",
        lambda ours, theirs: nodes(ours.file) == nodes(theirs.file) != [],
    ),
    Line(
        "an RLE file lies at its Pos in both",
        "-m 0 -o out.rle later.rle",
        "-h -m 100 -o out.mc later.rle",
        lambda ours, theirs: "Pos=5,7" in ours.file and nodes(theirs.file)[:1] == ["$$$$$$......**$.....**$"],
    ),
    Line(
        "and without one its upper left corner at (0,0)",
        "-m 0 -o out.rle pentomino.rle",
        "-h -m 0 -o out.mc pentomino.rle",
        lambda ours, theirs: "Pos=0,0" in ours.file and nodes(theirs.file)[:1] == ["$$$$$$$.**$"],
    ),
    Line(
        "an RLE file is written with position, generation and comments; there without all three",
        "-m 50 -o out.rle later.rle",
        "-h -m 150 -i 50 -o out.rle later.rle",
        lambda ours, theirs: re.match(r"#CXRLE Pos=-?\d+,-?\d+ Gen=150\n#C Five", ours.file)
        and theirs.file.startswith("x =")
        and rows(ours.file) == rows(theirs.file),
    ),
    Line(
        "so a run that goes on with such a file counts from 0",
        "-m 1 theirs.rle",
        "-h -m 1 -i 1 theirs.rle",
        lambda ours, theirs: ours.report()[:1] == theirs.report()[:1] == [("0", "64")],
    ),
    Line(
        "a macrocell file is written with the generation in both, with comments only here",
        "-m 0 -o out.mc pentomino.mc",
        "-h -m 100 -o out.mc pentomino.mc",
        lambda ours, theirs: "#G 100" in ours.file
        and "#G 100" in theirs.file
        and "#C Five" in ours.file
        and "#C" not in theirs.file,
    ),
    Line(
        "there only HashLife (-h) writes a macrocell file",
        "-m 0 -o out.mc pentomino.rle",
        "-m 0 -i 1 -o out.mc pentomino.rle",
        lambda ours, theirs: nodes(ours.file) != [] and "Not yet implemented" in theirs.out + theirs.err,
    ),
    Line(
        "names end with .rle or .mc in both",
        "-m 0 -o out.txt pentomino.rle",
        "-h -m 0 -o out.txt pentomino.rle",
        lambda ours, theirs: ours.status == 2 and theirs.status == 10,
    ),
    Line(
        "and there with .gz behind it, which compresses",
        "-m 0 -o out.rle.gz pentomino.rle",
        "-h -m 0 -o out.rle.gz pentomino.rle",
        lambda ours, theirs: ours.status == 2 and theirs.status == 0,
    ),
    # Files and rules.
    refused("a compressed file", "", "pentomino.rle.gz", "NotAPattern", ""),
    refused("a Life file (1.06)", "", "cells.lif", "NotAPattern", ""),
    refused("an old Life file (1.05)", "", "old.lif", "NotAPattern", ""),
    refused("an MCell file (.mcl)", "", "glider.mcl", "NotAPattern", ""),
    refused("a picture of cells (.cells)", "", "glider.cells", "NotAPattern", ""),
    refused("any other text", "", "text.rle", "NotAPattern", ""),
    refused("a file of more than two states", "", "states.rle", "MoreStates", "-a Generations"),
    refused("a macrocell file of more than two states", "", "states.mc", "BadNodeLine", "-a Generations"),
    refused("a timeline", "", "timeline.mc", "FramesNotRead", "-h"),
    refused("a count of 0", "", "zero.rle", "BadCount", ""),
    refused("a rule with Hensel's letters", "-r B2e3/S23", "pentomino.rle", "BadRule", "-r B2e3/S23"),
    refused("a bounded grid", "-r B3/S23:T10,10", "pentomino.rle", "BadRule", "-r B3/S23:T10,10"),
    Line(
        "rules of more states are refused as BadRule",
        "-r 345/2/4 -m 1 pentomino.rle",
        "-a Generations -m 1 -i 1 states.rle",
        lambda ours, theirs: ours.refusal() == "BadRule" and theirs.status == 0,
    ),
    refused("a rule in a file", "-r Lonely", "pentomino.rle", "BadRule", "-s ./ -a RuleLoader -r Lonely"),
    refused("birth on zero neighbours", "-r B0/S23", "pentomino.rle", "BirthOnZero", "-a QuickLife -r B0/S23"),
    Line(
        "HashLife refuses birth on zero neighbours in both",
        "-r B0/S23 -m 1 pentomino.rle",
        "-a HashLife -r B0/S23 -m 1 -i 1 pentomino.rle",
        lambda ours, theirs: ours.refusal() == "BirthOnZero" and theirs.status == 10,
    ),
    Line(
        "rules of four neighbours are the same",
        "-r B13/S012V -m 4 pentomino.rle",
        "-r B13/S012V -h -m 4 -i 4 pentomino.rle",
        lambda ours, theirs: ours.report() == theirs.report() != [],
    ),
    Line(
        "rules of six neighbours are the same",
        "-r B2/S34H -m 4 pentomino.rle",
        "-r B2/S34H -h -m 4 -i 4 pentomino.rle",
        lambda ours, theirs: ours.report() == theirs.report() != [],
    ),
    Line(
        "M may stand behind a rule of eight; there it may not",
        "-r B3/S23M -m 4 pentomino.rle",
        "-r B3/S23M -h -m 4 -i 4 pentomino.rle",
        lambda ours, theirs: ours.status == 0 and theirs.status == 10,
    ),
]
