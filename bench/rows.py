"""The rows that compare.py runs, by sets, and the aims of each set."""
import pathlib
import random
import re
from collections.abc import Callable
from dataclasses import dataclass

from soups import Soup


@dataclass(frozen=True)
class Aims:
    """The aims beside HashLife: the most time of one worker, the mean of the times with a number of workers, and the
    most memory, if there is such an aim."""

    time: float
    means: dict[int, float]
    memory: float | None


@dataclass(frozen=True)
class Row:
    """A run of lifebatch and of bgolly."""

    name: str
    # A file of Golly's, a text, a function that makes one, or a file of random cells.
    source: str | Callable[[], str] | Soup
    generations: int
    step: int = 0
    output: str = ""
    # The most time of one worker beside HashLife's, if it differs from that of the set.
    aim: float | None = None

    def words(self, path: pathlib.Path) -> list[str]:
        """The arguments that both programs take."""
        words = ["-m", str(self.generations)]
        words += ["-i", str(self.step)] if self.step else []
        words += ["-o", self.output] if self.output else []
        return [*words, str(path)]

    def only_reads(self) -> bool:
        """Whether it runs no generation and writes no file."""
        return self.generations == 0 and not self.output

    def suits_quicklife(self, path: pathlib.Path) -> bool:
        """Whether bgolly's QuickLife takes the row's file and writes what is asked for: it does so with RLE only."""
        return path.suffix == ".rle" and not self.output.endswith(".mc")

    def said(self) -> str:
        """The generations, with the step if there is one."""
        return f"{self.generations}, every {self.step}" if self.step else str(self.generations)

    def label(self) -> str:
        """The name and the generations in words, for a chart, or only the name if no generation is run."""
        if self.generations == 0:
            return self.name
        reports = f", a report every {self.step}" if self.step else ""
        return f"{self.name}, {self.generations} generations{reports}"


R_PENTOMINO = "x = 3, y = 3, rule = B3/S23\nb2o$2o$bo!\n"
REPLICATOR = "x = 1, y = 1, rule = B1357/S1357\no!\n"


def soup(side: int = 4096) -> str:
    """A square of random cells, the same at every call."""
    coin = random.Random(side)
    rows = (f"{coin.getrandbits(side):0{side}b}" for _ in range(side))
    runs = (re.sub("0+|1+", lambda run: f"{len(run[0])}{'bo'[int(run[0][0])]}", row) for row in rows)
    return f"x = {side}, y = {side}\n" + "$\n".join(runs) + "!\n"


def small_soup(rule: str) -> str:
    """A square of 200 by 200 random cells with a rule, 37 % of them live, the same at every call."""
    coin = random.Random(7)
    rows = ("".join("bo"[coin.random() < 0.37] for _ in range(200)) for _ in range(200))
    return f"x = 200, y = 200, rule = {rule}\n" + "$\n".join(rows) + "!\n"


USUAL = Aims(time=1.1, means={1: 0.6, 4: 0.4}, memory=1.5)
AIMS = {
    "runs": USUAL,
    "steps": USUAL,
    "rules": Aims(time=0.35, means={}, memory=1.5),
    "formats": USUAL,
    "files": Aims(time=1.5, means={1: 1.0}, memory=None),
    "long": Aims(time=2.0, means={1: 1.3, 4: 0.6}, memory=1.0),
    "large-tables": Aims(time=2.0, means={1: 1.0, 4: 1.0}, memory=None),
}
SETS = {
    "runs": [
        Row("metapixel-galaxy", "HashLife/metapixel-galaxy.mc.gz", 2**16),
        Row("hexadecimal", "HashLife/hexadecimal.mc.gz", 2**16),
        Row("loafer-gun-p8388608-linear", "HashLife/loafer-gun-p8388608-linear.mc.gz", 2**16, aim=1.8),
        Row("gotts-dots", "HashLife/gotts-dots.mc", 2**16),
        Row("LWSS-breeder", "Life/Breeders/LWSS-breeder.rle", 2**16),
        Row(
            "one-cell-thick-quadratic-growth-2596x1",
            "Life/Breeders/one-cell-thick-quadratic-growth-2596x1.rle",
            2**16,
        ),
        Row("pi-blink-breeder1", "Life/Breeders/pi-blink-breeder1.rle", 2**16),
        Row("replicator", REPLICATOR, 2**20),
        Row("R-pentomino", R_PENTOMINO, 1103),
    ],
    "steps": [
        Row("R-pentomino", R_PENTOMINO, 1103, step=1),
        Row("lidka-predecessor", "Life/Methuselahs/lidka-predecessor.rle", 30000, step=100),
        Row("gun-p165mwss", "Life/Guns/gun-p165mwss.rle", 100000, step=1000),
        Row("rabbits-relation-17423", "Life/Methuselahs/rabbits-relation-17423.rle", 17408, step=64),
    ],
    "rules": [
        Row("soup by B36/S23", small_soup("B36/S23"), 4096),
        Row("soup by B3678/S34678", small_soup("B3678/S34678"), 4096),
        Row("soup by B36/S125", small_soup("B36/S125"), 4096),
        Row("soup by B1357/S1357", small_soup("B1357/S1357"), 4096),
        Row("soup by B2/S34H", small_soup("B2/S34H"), 4096),
        Row("soup by B13/S012V", small_soup("B13/S012V"), 256),
    ],
    "formats": [
        Row("R-pentomino, written", R_PENTOMINO, 1103, output="out.rle"),
        Row("replicator, written", REPLICATOR, 2**20, output="out.rle"),
        Row("one run of 2^28 cells", "x = 268435456, y = 1\n268435456o!\n", 0),
        Row("one run of 2^28 cells, written", "x = 268435456, y = 1\n268435456o!\n", 0, output="out.rle"),
        Row("soup of 4096 by 4096 cells, written", soup, 0, output="out.rle"),
        Row("breeder", "Life/Breeders/switch-engine-breeder.rle", 2**16),
        Row("spacefiller", "Life/Breeders/spacefiller.rle", 2**14),
        Row("Turing machine", "Life/Signal-Circuitry/Turing-Machine-3-state.rle", 2**14),
        Row("metapixel galaxy, written", "HashLife/metapixel-galaxy.mc.gz", 0, output="out.rle"),
    ],
    # The last two are the largest files of Golly's, of each format, with two states.
    "files": [
        Row("soup of 4096 by 4096, a third live, RLE", Soup(4096, 1 / 3), 0),
        Row("soup of 2048 by 2048, half live, RLE", Soup(2048, 1 / 2), 0),
        Row("soup of 4096 by 4096, 3 in 100 live, RLE", Soup(4096, 3 / 100), 0),
        Row("soup of 4096 by 4096, a third live, macrocell", Soup(4096, 1 / 3, "mc"), 0),
        Row("soup of 2048 by 2048, half live, macrocell", Soup(2048, 1 / 2, "mc"), 0),
        Row("soup of 4096 by 4096, 3 in 100 live, macrocell", Soup(4096, 3 / 100, "mc"), 0),
        Row("soup of 4096 by 4096, a third live, RLE to RLE", Soup(4096, 1 / 3), 0, output="out.rle"),
        Row("soup of 4096 by 4096, a third live, macrocell to macrocell", Soup(4096, 1 / 3, "mc"), 0, output="out.mc"),
        Row("soup of 4096 by 4096, a third live, macrocell to RLE", Soup(4096, 1 / 3, "mc"), 0, output="out.rle"),
        Row("high-bandwidth-telegraph, RLE", "Life/Signal-Circuitry/high-bandwidth-telegraph.rle.gz", 0),
        Row("demonoid-c512-hashlife-friendly, macrocell", "HashLife/demonoid-c512-hashlife-friendly.mc.gz", 0),
    ],
    "long": [
        Row("hexadecimal", "HashLife/hexadecimal.mc.gz", 2**18),
        Row("hexadecimal", "HashLife/hexadecimal.mc.gz", 2**20),
        Row("loafer-gun-p8388608-linear", "HashLife/loafer-gun-p8388608-linear.mc.gz", 2**20),
        Row("metapixel-p216-gun", "HashLife/metapixel-p216-gun.mc.gz", 2**20),
        Row("metapixel-p216-gun", "HashLife/metapixel-p216-gun.mc.gz", 2**24),
        Row("demonoid-c512-hashlife-friendly", "HashLife/demonoid-c512-hashlife-friendly.mc.gz", 2**17),
        Row("demonoid-c512-hashlife-friendly", "HashLife/demonoid-c512-hashlife-friendly.mc.gz", 2**20),
        Row("gotts-dots", "HashLife/gotts-dots.mc", 2**24),
        Row("jagged", "HashLife/jagged.mc", 2**20),
        Row("jagged", "HashLife/jagged.mc", 2**24),
        Row("metapixel-parity64", "HashLife/metapixel-parity64.mc.gz", 2**22),
        Row("metapixel-parity64", "HashLife/metapixel-parity64.mc.gz", 2**24),
        Row("linear-propagator-p237228340", "HashLife/linear-propagator-p237228340.mc.gz", 2**23),
        Row("broken-lines", "HashLife/broken-lines.mc", 2**22),
        Row("nick-gotts-1", "HashLife/nick-gotts-1.mc", 2**24),
    ],
    "large-tables": [
        Row("hexadecimal", "HashLife/hexadecimal.mc.gz", 2**20),
        Row("metapixel-p216-gun", "HashLife/metapixel-p216-gun.mc.gz", 2**24),
        Row("jagged", "HashLife/jagged.mc", 2**24),
        Row("nick-gotts-1", "HashLife/nick-gotts-1.mc", 2**24),
    ],
}
