"""Files of random cells, the same in every run: an RLE text, and the macrocell file that bgolly makes of it."""
import pathlib
import random
import re
import subprocess
from collections.abc import Iterator
from dataclasses import dataclass

from common.check import CannotRun

# How many binary digits the share of live cells has.
DIGITS = 16

# A line of an RLE text: whole items, and no more than 70 characters.
LINE = re.compile(r".{0,69}[bo$!]")


class Items(dict[str, str]):
    """The RLE item of each run of equal cells, which is a text of zeros or of ones. An item is made once."""

    def __missing__(self, run: str) -> str:
        self[run] = (str(len(run)) if len(run) > 1 else "") + "bo"[int(run[0])]
        return self[run]


def random_row(coin: random.Random, side: int, share: float) -> str:
    """A row of cells as zeros and ones, each of which is 1 with the same probability."""
    cells, digits = 0, round(share * 2**DIGITS)
    for place in range(DIGITS):
        bits = coin.getrandbits(side)
        cells = cells | bits if digits >> place & 1 else cells & bits
    return f"{cells:0{side}b}"


@dataclass(frozen=True)
class Soup:
    """A square of random cells: its side, the share of live cells, and the ending of its file, which is rle or mc."""

    side: int
    share: float
    ending: str = "rle"

    def lines(self) -> Iterator[str]:
        """The lines of the RLE text, row by row: the most memory that the script itself took is the least that it can
        measure of a program."""
        yield f"x = {self.side}, y = {self.side}, rule = B3/S23\n"
        coin, items, rest = random.Random(self.side), Items(), ""
        for place in range(1, self.side + 1):
            runs = re.findall("0+|1+", random_row(coin, self.side, self.share).rstrip("0"))
            row = "".join(map(items.__getitem__, runs)) + ("$" if place < self.side else "!")
            *whole, rest = LINE.findall(rest + row)
            yield from (line + "\n" for line in whole)
        yield rest + "\n"

    def file(self, folder: pathlib.Path) -> pathlib.Path:
        """The path of the file in a folder. The first call makes the file."""
        rle = folder / f"soup-{self.side}-{self.share:.2f}.rle"
        if not rle.is_file():
            with rle.open("w") as text:
                text.writelines(self.lines())
        return rle if self.ending == "rle" else macrocell(rle)


def macrocell(rle: pathlib.Path) -> pathlib.Path:
    """The path of the macrocell file that bgolly makes of an RLE file. The first call makes it."""
    path = rle.with_suffix(".mc")
    if not path.is_file():
        ran = subprocess.run(
            ["bgolly", "-a", "HashLife", "-m", "0", "-o", path, rle], stdin=subprocess.DEVNULL, capture_output=True
        )
        if ran.returncode or not path.is_file():
            raise CannotRun(f"bgolly makes no macrocell file of {rle.name}")
    return path
