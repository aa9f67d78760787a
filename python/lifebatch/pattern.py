"""Patterns that stay open."""
import gzip
import operator
import os
import pathlib
import struct
import zlib
from collections.abc import Iterator
from types import TracebackType
from typing import TYPE_CHECKING, NamedTuple, Optional, Union

from .errors import Closed, Refused
from .process import Process, Reply
from .program import find_program

if TYPE_CHECKING:
    import numpy

PathLike = Union[str, "os.PathLike[str]"]
Text = Union[str, bytes]

RUN = struct.Struct("<qqQ")
GZIP = b"\x1f\x8b"


class Bounds(NamedTuple):
    """The first and last column and row with a live cell. x grows to the right, y downwards."""

    left: int
    top: int
    right: int
    bottom: int


class Run(NamedTuple):
    """Live cells side by side: the first one, and how many there are, to the right."""

    x: int
    y: int
    length: int


class Move(NamedTuple):
    """How far a pattern has moved, to the right and down."""

    dx: int
    dy: int


class Period(NamedTuple):
    """After so many generations a pattern is for the first time what it was, moved so far to the right and down."""

    generations: int
    dx: int
    dy: int


def as_bytes(text: Text) -> bytes:
    return text.encode("utf-8", "surrogateescape") if isinstance(text, str) else bytes(text)


def as_text(data: bytes) -> str:
    """The text, from which `as_bytes` makes the same bytes."""
    return data.decode("utf-8", "surrogateescape")


def unpacked(data: bytes) -> bytes:
    """What gzip has compressed, or the data itself. Where it is cut or damaged, the error is an `OSError`."""
    if not data.startswith(GZIP):
        return data
    try:
        return gzip.decompress(data)
    except (EOFError, zlib.error) as error:
        raise gzip.BadGzipFile(str(error)) from error


def open(
    path: PathLike,
    rule: Optional[str] = None,
    *,
    workers: int = 1,
    nodes: Optional[int] = None,
    timeout: Optional[float] = None,
) -> "Pattern":
    """Opens a pattern file, RLE or macrocell, which may be compressed by gzip.

    `rule` is used in place of the file's. `workers` (1 to 64) take the steps, in tables of `nodes` slots (a power of
    two from 1024 to 268435456, 4194304 by default). `timeout` is how many seconds each later call may take.
    """
    data = unpacked(pathlib.Path(path).read_bytes())
    return parse(data, rule, workers=workers, nodes=nodes, timeout=timeout)


def parse(
    text: Text,
    rule: Optional[str] = None,
    *,
    workers: int = 1,
    nodes: Optional[int] = None,
    timeout: Optional[float] = None,
) -> "Pattern":
    """Opens the pattern in the text of a pattern file, as `open` does."""
    return Pattern(as_bytes(text), rule, workers=workers, nodes=nodes, timeout=timeout)


class Pattern:
    """A pattern that stays open, with a process of its own. Use `open` or `parse` to make one.

    Each call raises `Refused` where the engine refuses it, `Closed` where the pattern is closed or its process has
    ended, and `TimedOut` where it takes longer than `timeout` seconds, which closes it. An interrupt (Ctrl-C) closes it
    too. Threads may share it: their calls follow one another.
    """

    timeout: Optional[float]

    def __init__(
        self, text: bytes, rule: Optional[str], *, workers: int, nodes: Optional[int], timeout: Optional[float]
    ):
        words = ["--workers", str(int(workers))]
        if nodes is not None:
            words += ["--nodes", str(int(nodes))]
        self.timeout = timeout
        self._words = words
        self._process = Process(find_program(), words)
        try:
            self.load(text, rule)
        except BaseException:
            self._process.close()
            raise

    def load(self, text: Text, rule: Optional[str] = None) -> None:
        """Opens the pattern in the text of another pattern file, in the same process and in place of this one. That is
        faster than a new `Pattern`.

        Where it is refused, no pattern is open, and each call but this one raises `Bad`.
        """
        data = as_bytes(text)
        self._ask(f"open {len(data)}" if rule is None else f"open {len(data)} {rule_word(rule)}", data)

    def _ask(self, request: str, block: bytes = b"", has_block: bool = False) -> Reply:
        return self._process.ask(request, block, has_block, self.timeout)

    def _number(self, request: str) -> int:
        return int(self._ask(request).words[0])

    # ---- going on

    def advance(self, generations: int = 1) -> int:
        """Goes so many generations on, and returns the number of the generation then.

        Where this is refused by `TooFar` the pattern is as it was. By `NodesFull` it is at a generation on the way.
        """
        return self._number(f"advance {number_word(generations)}")

    def period(self, most: int = 1000, *, multiple: Optional[int] = None, advance: bool = False) -> Optional[Period]:
        """The least period, if it is at most `most` (up to 2^32), or, with `multiple` (up to 2^63), if it divides that
        number; else None.

        The search goes on generation by generation. It is made in a copy, and this pattern stays where it is; with
        `advance` it is made in this pattern, which is then so many generations on, or as many as were tried.
        """
        request = f"period {number_word(most)}" if multiple is None else f"multiple {number_word(multiple)}"
        if not advance:
            with self.copy() as other:
                return found_period(other._ask(request))
        return found_period(self._ask(request))

    # ---- what it is

    @property
    def generation(self) -> int:
        """The number of the generation."""
        return self._number("generation")

    @property
    def rule(self) -> str:
        """The rule, as B3/S23."""
        return self._ask("rule").words[0]

    @property
    def population(self) -> int:
        """How many cells are live."""
        return self._number("population")

    @property
    def bounds(self) -> Optional[Bounds]:
        """The smallest box that holds the live cells, or None if there are none."""
        words = self._ask("bounds").words
        return None if words == ["empty"] else Bounds(*map(int, words))

    def window(self, x: int, y: int, width: int, height: int) -> list[str]:
        """The rows of a window, from its upper left cell: `*` for live cells, `.` for others. A side has 1 to 1024
        cells."""
        numbers = " ".join(map(number_word, (x, y, width, height)))
        return self._ask(f"window {numbers}", has_block=True).block.decode("ascii").splitlines()

    def runs(self) -> list[Run]:
        """The runs of live cells, row by row from the top, in a row from the left, each as long as it can be."""
        return [Run(*it) for it in RUN.iter_unpack(self._run_bytes())]

    def run_array(self) -> "numpy.ndarray":
        """The runs as rows x, y, length of an array of 64-bit numbers. It needs numpy."""
        import numpy

        return numpy.frombuffer(self._run_bytes(), dtype="<i8").reshape(-1, 3)

    def cells(self) -> Iterator[tuple[int, int]]:
        """The live cells x, y, row by row from the top, in a row from the left."""
        for x, y, length in RUN.iter_unpack(self._run_bytes()):
            for column in range(x, x + length):
                yield column, y

    def cell_array(self) -> "numpy.ndarray":
        """The live cells as rows x, y of an array of 64-bit numbers. It needs numpy."""
        import numpy

        first, row, length = self.run_array().T
        found = numpy.empty((int(length.sum()), 2), dtype="<i8")
        # The first cell of each run, and how many cells stand before the run.
        before = numpy.cumsum(length) - length
        found[:, 0] = numpy.repeat(first - before, length) + numpy.arange(len(found))
        found[:, 1] = numpy.repeat(row, length)
        return found

    def _run_bytes(self) -> bytes:
        return self._ask("runs", has_block=True).block

    def same_as(self, other: Union["Pattern", Text]) -> Optional[Move]:
        """How far this pattern is another one, or one in the text of a pattern file, moved; None if it is not. Rules
        and generations do not count."""
        text = other._file("mc") if isinstance(other, Pattern) else as_bytes(other)
        words = self._ask(f"same {len(text)}", text).words
        return None if words == ["none"] else Move(*map(int, words))

    # ---- files and pictures

    def _file(self, form: str) -> bytes:
        return self._ask(f"write {form}", has_block=True).block

    def rle(self) -> str:
        """The RLE file of this generation, with the comments of the file that was opened."""
        return as_text(self._file("rle"))

    def macrocell(self) -> str:
        """The macrocell file of this generation."""
        return as_text(self._file("mc"))

    def save(self, path: PathLike) -> None:
        """Writes a file of this generation, whose name ends with .rle or .mc, or with .gz behind that. Where it is
        refused, no file is written."""
        place = pathlib.Path(path)
        is_packed = place.suffix == ".gz"
        ending = place.with_suffix("").suffix if is_packed else place.suffix
        if ending not in (".rle", ".mc"):
            raise ValueError(f"{place} ends neither with .rle nor with .mc")
        data = self._file(ending[1:])
        place.write_bytes(gzip.compress(data) if is_packed else data)

    def png(self, size: int = 1024, window: Optional[tuple[int, int, int, int]] = None) -> bytes:
        """A picture of the live cells, or of a window (x, y, width, height), as a PNG file with at most `size` (16 to
        4096) pixels on a side."""
        if window is None:
            sides = self.bounds or Bounds(0, 0, 0, 0)
        else:
            x, y, width, height = window
            sides = Bounds(x, y, x + width - 1, y + height - 1)
        return self._ask(f"picture {' '.join(map(number_word, sides))} {number_word(size)}", has_block=True).block

    def _repr_png_(self) -> Optional[bytes]:
        """The picture that a notebook shows."""
        try:
            return self.png(512)
        except (Closed, Refused):
            return None

    # ---- its process

    def copy(self) -> "Pattern":
        """The same generation of the same pattern, with a process of its own. What the pattern has found out so far is
        not copied."""
        other = Pattern.__new__(Pattern)
        other.timeout, other._words = self.timeout, self._words
        text = self._file("mc")
        other._process = Process(find_program(), self._words)
        try:
            other.load(text)
        except BaseException:
            other._process.close()
            raise
        return other

    @property
    def is_open(self) -> bool:
        """Whether it is open. Its process may have ended without a call that has found it out."""
        return self._process.is_open

    def close(self) -> None:
        """Ends the process. Closing it again does nothing."""
        self._process.close()

    def __enter__(self) -> "Pattern":
        return self

    def __exit__(
        self, kind: Optional[type[BaseException]], error: Optional[BaseException], trace: Optional[TracebackType]
    ) -> None:
        self.close()

    def __repr__(self) -> str:
        if not self.is_open:
            return "<Pattern, closed>"
        return f"<Pattern of process {self._process.identifier}>"


def number_word(number: int) -> str:
    """A whole number as a request has it."""
    return str(operator.index(number))


def rule_word(rule: str) -> str:
    """A rule's text as a request has it: without blanks at its ends, and with no others."""
    word = rule.strip(" \t")
    if not word or any(it.isspace() for it in word):
        raise Refused(3, "BadRule")
    return word


def found_period(reply: Reply) -> Optional[Period]:
    return None if reply.words == ["none"] else Period(*map(int, reply.words))
