"""What lifepipe replies, in plain Python, by docs/lifepipe.md and docs/formats.md. It shares nothing with it."""
import re
import struct
from collections.abc import Iterator
from dataclasses import dataclass, replace
from typing import Union

from common import cells as plain
from common.moves import displacement
from common.png import calculated, picture_in

# A pattern with more cells is not followed.
MOST_CELLS = 3000
LONGEST = 255
UNSIGNED, SIGNED = re.compile(rb"[0-9]+"), re.compile(rb"-?[0-9]+")
# For each name the number of words behind it, the form of each number among them, and its limits.
FORMS = {
    b"open": ((1, 2), (UNSIGNED,), {}),
    b"advance": ((1,), (UNSIGNED,), {}),
    b"generation": ((0,), (), {}),
    b"rule": ((0,), (), {}),
    b"population": ((0,), (), {}),
    b"bounds": ((0,), (), {}),
    b"window": ((4,), (SIGNED, SIGNED, UNSIGNED, UNSIGNED), {}),
    b"runs": ((0,), (), {}),
    b"write": ((1,), (), {}),
    b"picture": ((5,), (SIGNED,) * 4 + (UNSIGNED,), {4: (16, 4096)}),
    b"period": ((1,), (UNSIGNED,), {0: (1, 2**32)}),
    b"multiple": ((1,), (UNSIGNED,), {0: (1, 2**63)}),
    b"same": ((1,), (UNSIGNED,), {}),
    b"close": ((0,), (), {}),
}
# The replies to these have a block where they are ok.
WITH_BLOCK = (b"window", b"runs", b"write", b"picture")
FULL = b"refused 17 NodesFull\n"


class NotFollowed(Exception):
    """The pattern grows too large for this model, or its file is unknown to it."""


@dataclass(frozen=True)
class File:
    """A pattern file: what it means, or how it is refused: always, or only where no rule is given."""

    cells: frozenset = frozenset()
    rule: plain.Rule = plain.Rule({3}, {2, 3})
    generation: int = 0
    comments: tuple[str, ...] = ()
    fault: Union[tuple[int, str, int], None] = None
    rule_fault: Union[tuple[int, str, int], None] = None


@dataclass(frozen=True)
class Request:
    """A line with its bytes and those of its block. `bad` is why it is no request, if it is none, and `numbers` those
    behind its name."""

    raw: bytes
    name: bytes = b""
    words: tuple[bytes, ...] = ()
    numbers: tuple[int, ...] = ()
    block: bytes = b""
    bad: str = ""

    @property
    def has_block_in_reply(self) -> bool:
        return not self.bad and self.name in WITH_BLOCK


def read_line(line: bytes) -> Request:
    """What a line asks for."""
    raw = line + b"\n"
    name, *words = line.split(b" ")
    if len(line) > LONGEST:
        return Request(raw, bad="long")
    if name not in FORMS:
        return Request(raw, bad="name")
    counts, forms, limits = FORMS[name]
    if len(words) not in counts:
        return Request(raw, bad="words")
    if name == b"write" and words[0] not in (b"rle", b"mc"):
        return Request(raw, bad="format")
    if not all(form.fullmatch(word) for form, word in zip(forms, words)):
        return Request(raw, bad="number")
    numbers = tuple(int(word) for _, word in zip(forms, words))
    for place, (least, most) in limits.items():
        if not least <= numbers[place] <= most:
            return Request(raw, bad="number")
    return Request(raw, name, tuple(words), numbers)


def requests_in(data: bytes) -> Iterator[Request]:
    """The requests of an input, each with its block."""
    at = 0
    while at < len(data):
        end = data.find(b"\n", at)
        if end < 0:
            yield Request(data[at:], bad="cut")
            return
        request, start = read_line(data[at:end]), end + 1
        at = start + (request.numbers[0] if request.name in (b"open", b"same") else 0)
        block = data[start:at]
        if at > len(data):
            yield Request(request.raw + block, bad="cut")
            return
        yield replace(request, raw=request.raw + block, block=block)


@dataclass
class Opened:
    rule: plain.Rule
    generation: int
    comments: tuple[str, ...]
    cells: set
    # The last generation at which it may be, where the tables were full on its way.
    latest: Union[int, None] = None

    def go_on(self, generations: int) -> None:
        if not self.cells:
            # Nothing is born of nothing, however long.
            self.generation += generations
            return
        for _ in range(generations):
            self.cells = self.rule.next(self.cells)
            self.generation += 1
            if len(self.cells) > MOST_CELLS:
                raise NotFollowed


class Output:
    """What a program has written, read from its front."""

    def __init__(self, data: bytes):
        self.data, self.at = data, 0

    def begins(self, text: bytes) -> bool:
        return self.data.startswith(text, self.at)

    def line(self) -> bytes:
        end = self.data.find(b"\n", self.at) + 1 or len(self.data)
        line, self.at = self.data[self.at : end], end
        return line

    def take(self, count: int) -> bytes:
        self.at += count
        return self.data[self.at - count : self.at]


@dataclass
class Model:
    """The pattern that is open, and the files that are known. `may_fill` says whether tables are so small that they may
    be full."""

    files: dict[bytes, File]
    rules: dict[bytes, Union[plain.Rule, str]]
    may_fill: bool
    opened: Union[Opened, None] = None

    def compare(self, data: bytes, output: bytes) -> str:
        """What differs in the output for this input, or "same"."""
        out = Output(output)
        for number, request in enumerate(requests_in(data), 1):
            start = out.at
            found = self.differs(request, out)
            if found:
                return f"request {number}, {request.raw[:80]!r}: {output[start : start + 80]!r}, and not {found[:80]!r}"
        rest = output[out.at :]
        return f"{rest[:80]!r} behind the last reply" if rest else "same"

    def differs(self, request: Request, out: Output) -> bytes:
        """What should stand in the output, if something else does."""
        if request.bad:
            return self.take(out, f"bad {request.bad}\n".encode())
        if request.name == b"open":
            return self.open(request, out)
        if self.opened is None:
            return self.take(out, b"bad closed\n")
        if self.may_fill and out.begins(FULL) and request.name in (b"advance", b"period", b"multiple", b"same"):
            return self.full(request, out)
        if self.opened.latest is not None and not self.finds_generation(request, out):
            return b"the number of a generation on the way"
        if request.name == b"picture":
            return self.picture(request, out)
        return self.take(out, getattr(self, request.name.decode())(request))

    @staticmethod
    def take(out: Output, wanted: bytes) -> bytes:
        return b"" if out.take(len(wanted)) == wanted else wanted

    def file(self, block: bytes) -> File:
        """The file that a block is. What stands behind the `!` of an RLE file is ignored."""
        for text, file in self.files.items():
            if block == text or (text.endswith(b"!\n") and block.startswith(text)):
                return file
        raise NotFollowed

    def full(self, request: Request, out: Output) -> bytes:
        out.line()
        if request.name != b"same":
            self.opened.latest = self.opened.generation + request.numbers[0] - 1
        return b""

    def finds_generation(self, request: Request, out: Output) -> bool:
        """Goes on to the generation that is told next, and says whether the pattern may be there."""
        it, start = self.opened, out.at
        said = re.fullmatch(rb"ok (\d+)\n", out.line())
        out.at = start
        if request.name != b"generation" or not said or not it.generation <= int(said[1]) <= it.latest:
            return False
        it.latest = None
        it.go_on(int(said[1]) - it.generation)
        return True

    # ---- requests that change what is open

    def open(self, request: Request, out: Output) -> bytes:
        self.opened = None
        given = self.rules[request.words[1]] if len(request.words) > 1 else None
        if isinstance(given, str):
            return self.take(out, given.encode())
        file = self.file(request.block)
        fault = file.fault or (None if given else file.rule_fault)
        if fault:
            return self.take(out, refused(*fault))
        if self.may_fill and out.begins(FULL):
            out.line()
            return b""
        self.opened = Opened(given or file.rule, file.generation, file.comments, set(file.cells))
        return self.take(out, ok(file.generation))

    def advance(self, request: Request) -> bytes:
        it, (generations,) = self.opened, request.numbers
        if plain.is_too_far(it.cells, it.generation, generations):
            return refused(14, "TooFar")
        it.go_on(generations)
        return ok(it.generation)

    def period(self, request: Request) -> bytes:
        return self.search(range(1, request.numbers[0] + 1))

    def multiple(self, request: Request) -> bytes:
        whole = request.numbers[0]
        return self.search([it for it in range(1, whole + 1) if whole % it == 0])

    def search(self, candidates) -> bytes:
        it, done = self.opened, 0
        first = set(it.cells)
        for tried in candidates:
            if plain.is_too_far(it.cells, it.generation, tried - done):
                return refused(14, "TooFar")
            it.go_on(tried - done)
            done = tried
            moves = displacement(first, it.cells)
            if moves:
                return ok(tried, *moves)
        return b"ok none\n"

    def close(self, _: Request) -> bytes:
        self.opened = None
        return b"ok\n"

    # ---- requests that change nothing

    def generation(self, _: Request) -> bytes:
        return ok(self.opened.generation)

    def rule(self, _: Request) -> bytes:
        return ok(self.opened.rule.text())

    def population(self, _: Request) -> bytes:
        return ok(len(self.opened.cells))

    def bounds(self, _: Request) -> bytes:
        return ok(*plain.box(self.opened.cells)) if self.opened.cells else b"ok empty\n"

    def window(self, request: Request) -> bytes:
        x, y, width, height = request.numbers
        if not (1 <= width <= 1024 and 1 <= height <= 1024 and abs(x) <= plain.END and abs(y) <= plain.END):
            return refused(16, "WindowTooLarge")
        return with_block(plain.picture(self.opened.cells, request.numbers).encode())

    def runs(self, _: Request) -> bytes:
        found: list[list[int]] = []
        for x, y in sorted(self.opened.cells, key=lambda cell: (cell[1], cell[0])):
            if found and found[-1][1] == y and sum(found[-1][::2]) == x:
                found[-1][2] += 1
            else:
                found.append([x, y, 1])
        return with_block(b"".join(struct.pack("<qqq", *it) for it in found))

    def write(self, request: Request) -> bytes:
        it = self.opened
        if request.words[0] == b"mc":
            return with_block(plain.macrocell_text(it.cells, it.rule.text(), it.generation, it.comments).encode())
        if plain.is_too_wide(it.cells):
            return refused(15, "BoxTooLarge")
        return with_block(plain.rle_text(it.cells, it.rule.text(), it.generation, it.comments).encode())

    def same(self, request: Request) -> bytes:
        file = self.file(request.block)
        if file.fault:
            return refused(*file.fault)
        moves = displacement(set(file.cells), self.opened.cells)
        return ok(*moves) if moves else b"ok none\n"

    def picture(self, request: Request, out: Output) -> bytes:
        """Pictures are compared by their pixels."""
        left, top, right, bottom, size = request.numbers
        if not (-plain.END <= left <= right <= plain.END and -plain.END <= top <= bottom <= plain.END):
            return self.take(out, refused(16, "WindowTooLarge"))
        said = re.fullmatch(rb"ok (\d+)\n", out.line())
        wanted = calculated(self.opened.cells, (left, top, right, bottom), size)
        if said and picture_in(out.take(int(said[1]))) == wanted:
            return b""
        return f"a picture of {wanted[0]} by {wanted[1]} pixels".encode()


def ok(*words: object) -> bytes:
    return f"ok {' '.join(map(str, words))}\n".encode()


def refused(*words: object) -> bytes:
    return f"refused {' '.join(map(str, words))}\n".encode()


def with_block(block: bytes) -> bytes:
    return ok(len(block)) + block
