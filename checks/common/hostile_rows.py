"""Files that are hard to read, and their results by docs/formats.md."""
from collections.abc import Callable, Iterator
from dataclasses import dataclass

CHUNK = 1 << 20


@dataclass
class Row:
    """A file of one piece over and over, between a head and a tail."""

    name: str
    head: bytes
    piece: bytes
    tail: bytes = b""
    report: str = ""
    refusal: tuple[int, str] | None = None
    # A place in the file, or its length.
    place: int | str | None = None
    words: tuple[str, ...] = ()
    # What the output file holds before the pieces and behind them.
    written: tuple[bytes, bytes] | None = None
    # How much smaller this file is than the others.
    share: int = 1

    def pieces(self, size: int) -> Iterator[bytes]:
        count, step = max(size // self.share // len(self.piece), 1), max(CHUNK // len(self.piece), 1)
        for _ in range(count // step):
            yield self.piece * step
        yield self.piece * (count % step)

    def file(self, size: int) -> Iterator[bytes]:
        yield self.head
        yield from self.pieces(size)
        yield self.tail

    def told(self, size: int, length: int) -> tuple[int, str, str]:
        """The status, the report and the message for the file, which has this length."""
        if self.refusal is None:
            return 0, self.report, ""
        place = length if self.place == "length" else self.place
        at = "" if place is None else f" at {place}"
        return 1, self.report, f"lifebatch: refused {self.refusal[0]}{at}: {self.refusal[1]}\n"

    def output(self, size: int) -> Iterator[bytes] | None:
        if self.written is None:
            return None
        return (part for parts in ([self.written[0]], self.pieces(size), [self.written[1]]) for part in parts)


@dataclass
class Tree:
    """A macrocell file of a full tree whose nodes are each used once, above leaves of these words."""

    name: str
    word: Callable[[int], int]
    words: tuple[str, ...] = ()
    refusal: tuple[int, str] | None = None

    def leaves(self, size: int) -> int:
        """A power of four, 2^20 where files have 100 MB."""
        return max(4**power for power in range(1, 16) if 4**power * 95 <= size)

    def leaf(self, number: int) -> bytes:
        rows = (range(8 * row, 8 * row + 8) for row in range(3))
        word = self.word(number)
        return b"".join(b"".join(b".*"[word >> bit & 1 :][:1] for bit in row) + b"$" for row in rows) + b"\n"

    def file(self, size: int) -> Iterator[bytes]:
        yield b"[M2]\n"
        count, first, level = self.leaves(size), 1, 4
        yield from (self.leaf(number) for number in range(1, count + 1))
        while count > 1:
            for kid in range(first, first + count, 4):
                yield b"%d %d %d %d %d\n" % (level, kid, kid + 1, kid + 2, kid + 3)
            first, count, level = first + count, count // 4, level + 1

    def told(self, size: int, length: int) -> tuple[int, str, str]:
        if self.refusal:
            return 1, "", f"lifebatch: refused {self.refusal[0]}: {self.refusal[1]}\n"
        cells = sum(self.word(number).bit_count() for number in range(1, self.leaves(size) + 1))
        return 0, f"0: {cells}\n", ""

    def output(self, size: int) -> None:
        return None


HEAD, THREE, OUTPUT = b"x = 1, y = 1\n", "0: 3\n", ("-o", "out.rle")
NO_PATTERN, NO_HEADER, NO_TAG, NO_COUNT = (1, "NotAPattern"), (2, "BadHeader"), (5, "BadTag"), (7, "BadCount")
MORE_STATES, OUT_OF_RANGE, NO_NODE, NO_CHILD = (
    (6, "MoreStates"),
    (8, "OutOfRange"),
    (10, "BadNodeLine"),
    (11, "BadChild"),
)
NO_GENERATION = (13, "BadGen")
THREE_WRITTEN = b"x = 3, y = 1, rule = B3/S23\n3o!\n"

# A square of side 2^63 whose cells are all live.
FULL_SQUARE = (
    b"[M2]\n"
    + b"********$" * 8
    + b"\n"
    + b"".join(b"%d %d %d %d %d\n" % (level, *[level - 3] * 4) for level in range(4, 64))
)
# Of a file that is small at each size.
ALONE = 10**12

RLE_ROWS = [
    Row("digits that no tag follows", HEAD, b"9", refusal=NO_COUNT, place=13),
    Row("digits of a count", HEAD, b"9", b"o!", refusal=OUT_OF_RANGE, place=13),
    Row("zeros before a count", HEAD, b"0", b"3o!", THREE),
    Row("digits of a side", b"x = ", b"9", b", y = 1\n3o!", THREE),
    Row("digits of a position", b"#CXRLE Pos=", b"9", b",0\n" + HEAD, refusal=OUT_OF_RANGE, place=0),
    Row("digits of a generation", b"#CXRLE Gen=", b"9", b"\n" + HEAD, refusal=NO_GENERATION, place=0),
    Row("digits of a rule", b"x = 1, y = 1, rule = B", b"3", b"/S23\n3o!", THREE),
    Row("positions on one line", b"#CXRLE", b" Pos=7,7", b"\n" + HEAD + b"3o!", THREE),
    Row("one line of blanks", b"", b" ", refusal=NO_PATTERN, place="length"),
    Row("empty lines", b"", b"\n", refusal=NO_PATTERN, place="length"),
    Row("lines of blanks before a header", b"", b" \t\r\n", HEAD + b"3o!", THREE),
    Row("blanks in a body", HEAD, b" \t\r\n", b"3o!", THREE),
    Row("blanks in a count", HEAD + b"0", b"\n", b"3o!", THREE),
    Row("#C lines, read", b"", b"#C\n", HEAD + b"3o!", THREE),
    Row(
        "#C lines, written again",
        b"",
        b"#C\n",
        HEAD + b"3o!",
        THREE,
        words=OUTPUT,
        written=(b"#CXRLE Pos=0,0 Gen=0\n", THREE_WRITTEN),
    ),
    Row(
        "one #C line, written again",
        b"#C",
        b"y",
        b"\n" + HEAD + b"3o!",
        THREE,
        words=OUTPUT,
        written=(b"#CXRLE Pos=0,0 Gen=0\n#C", b"\n" + THREE_WRITTEN),
    ),
    Row("#C lines in a count", HEAD + b"0\n", b"#C\n", b"3o!", THREE),
    Row("a line that is not a header", b"x", b"x", refusal=NO_HEADER, place=0),
    Row("row ends", HEAD, b"$", b"3o!", THREE),
    Row("row ends and dead cells", HEAD, b"b$", b"3o!", THREE),
    Row("dead cells on one line", HEAD, b"b", b"3o!", THREE),
    Row("text behind the end", HEAD + b"3o!", b"0z", report=THREE),
    Row("NUL bytes", b"", b"\0", refusal=NO_PATTERN, place=0),
    Row("high bytes", b"", b"\xff", refusal=NO_PATTERN, place=0),
    Row("NUL bytes in a body", HEAD, b"\0", refusal=NO_TAG, place=13),
    Row("high bytes behind digits", HEAD + b"3", b"\xff", refusal=NO_TAG, place=13),
    Row("NUL and high bytes in #C lines", b"", b"#C\0\xff\x80\r\r\n", HEAD + b"3o!", THREE),
    Row(
        "NUL and high bytes on one #C line",
        b"#C",
        b"\0\xff\x80",
        b"\n" + HEAD + b"3o!",
        THREE,
        words=OUTPUT,
        written=(b"#CXRLE Pos=0,0 Gen=0\n#C", b"\n" + THREE_WRITTEN),
    ),
]

MACROCELL_ROWS = [
    Row("macrocell: digits of a level", b"[M2]\n", b"9", b" 0 0 0 0\n", refusal=OUT_OF_RANGE, place=5),
    Row("macrocell: digits of a quadrant", b"[M2]\n4 ", b"9", b" 0 0 0\n", refusal=NO_CHILD, place=5),
    Row("macrocell: zeros of a quadrant", b"[M2]\n4 ", b"0", b" 0 0 0\n", "0: 0\n"),
    Row("macrocell: digits of a generation", b"[M2]\n#G ", b"9", b"\n", refusal=NO_GENERATION, place=5),
    Row("macrocell: a first line without an end", b"[M2]", b"9", report="0: 0\n"),
    Row("macrocell: blanks", b"[M2]\n", b" ", report="0: 0\n"),
    Row("macrocell: blanks between numbers", b"[M2]\n4 ", b" \t", b"0 0 0 0\n", "0: 0\n"),
    Row("macrocell: empty lines", b"[M2]\n", b"\n", report="0: 0\n"),
    Row(
        "macrocell: #C lines, written again",
        b"[M2]\n",
        b"#C\n",
        report="0: 0\n",
        words=("-o", "out.mc"),
        written=(b"[M2] (lifebatch 1)\n#R B3/S23\n#G 0\n", b""),
    ),
    Row("macrocell: row ends on one line", b"[M2]\n", b"$", refusal=NO_NODE, place=5),
    Row("macrocell: empty leaves", b"[M2]\n", b"$\n", report="0: 0\n", share=4),
    Row("macrocell: NUL bytes", b"[M2]\n", b"\0", refusal=NO_NODE, place=5),
    Row("macrocell: high bytes in a leaf", b"[M2]\n*", b"\xff", refusal=NO_NODE, place=5),
    Row("macrocell: all 2^126 cells", FULL_SQUARE, b"\n", report=f"0: {2**126}\n", share=ALONE),
    Row(
        "macrocell: all 2^126 cells, one generation on",
        FULL_SQUARE,
        b"\n",
        refusal=(14, "TooFar"),
        words=("-m", "1"),
        share=ALONE,
    ),
    Tree("macrocell: a tree, its leaves equal", lambda number: 1),
    Tree(
        "macrocell: a tree, its leaves different",
        lambda number: number,
        refusal=(17, "NodesFull"),
        words=("--nodes", "4096"),
    ),
    Tree("macrocell: the same with room", lambda number: number, words=("--nodes", "33554432")),
]
