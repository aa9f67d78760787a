#!/usr/bin/env python3
"""Compares lifepipe with a plain model of docs/lifepipe.md, on random dialogues.

    checks/random_dialogues.py --count 2000 --seed 7
    checks/random_dialogues.py --seed 7 --only 31    only dialogue 31 of seed 7

Each dialogue has random requests for random small patterns, with malformed lines, files that are refused, blocks that
are longer than their file, an end within a line or a block, or small tables, which may be full. It is sent in one
piece, in small ones, or request by request, each after the reply to the one before, which has to come. The replies have
to be the same to the byte, and pictures to the pixel.
"""
import argparse
import os
import pathlib
import random
import select
import subprocess
import tempfile
import threading
from collections import Counter

from common import cells as plain
from common.check import BUILT_PIPE, Check, end, status_of
from common.dialogue_model import File, Model, NotFollowed, requests_in

CHECK = Check(
    text=__doc__,
    needs=(BUILT_PIPE,),
    takes="20 s for 400 dialogues",
    quick=("--count", "100"),
    quickly="5 s",
    replay="give the --seed and the --only that are printed. The input stays at the path that is printed.",
)

LIFE = plain.Rule({3}, {2, 3})
# Rule texts of requests, each with what it means or how it is refused.
RULES = {
    b"B3/S23": LIFE,
    b"b36s23": plain.Rule({3, 6}, {2, 3}),
    b"23/3": LIFE,
    b"S/B2": plain.Rule({2}, ()),
    b"B24/S13V": plain.Rule({2, 4}, {1, 3}, "V"),
    b"B2/S34h": plain.Rule({2}, {3, 4}, "H"),
    b"": "refused 3 BadRule\n",
    b"Life": "refused 3 BadRule\n",
    b"B3/S5V": "refused 3 BadRule\n",
    b"B3/S23\xff": "refused 3 BadRule\n",
    b"B03/S23": "refused 4 BirthOnZero\n",
}
# Files that are refused, by docs/formats.md.
REFUSED = {
    b"": File(fault=(1, "NotAPattern", 0)),
    b"\n#C no header\n": File(fault=(1, "NotAPattern", 14)),
    b"x = 1, y = 1\nq!\n": File(fault=(6, "MoreStates", 13)),
    b"x = 1, y = 1\n2!\n": File(fault=(7, "BadCount", 13)),
    b"[M2]\n#R B3/S23\n4 1 0 0 0\n": File(fault=(11, "BadChild", 15)),
    b"[M2]\n#R B3/S23\n#FRAMES 2\n": File(fault=(12, "FramesNotRead", 15)),
    b"#CXRLE Gen=x\nx = 1, y = 1\no!\n": File(fault=(13, "BadGen", 0)),
    b"#C a\nx = 1, y = 1, rule = B0/S\no!\n": File(
        cells=frozenset({(0, 0)}), comments=("#C a",), rule_fault=(4, "BirthOnZero", 5)
    ),
    b"[M2]\n#R 9\n*$\n": File(cells=frozenset({(-4, -4)}), rule_fault=(3, "BadRule", 5)),
}
BAD_LINES = [
    b"", b" ", b"generation ", b" generation", b"Generation", b"generation\r", b"generation\0", b"write",
    b"write RLE", b"write  mc", b"write png", b"advance", b"advance -1", b"advance +1", b"advance 0x1",
    b"advance 1 2", b"advance 1.", b"window 1 2 3", b"window 1 2 3 -4", b"window - 2 3 4", b"window 1 2 3 4 5",
    b"picture 0 0 1 1 15", b"picture 0 0 1 1 4097", b"picture 0 0 1 1", b"period 0", b"period 4294967297",
    b"multiple 0", b"multiple 9223372036854775809", b"open", b"open x", b"open 1 B3/S23 x", b"open -5", b"same",
    b"same x", b"close now", b"\xff\xfe", b"quit", b"a" * 255, b"a" * 256, b"generation " + b"a" * 245,
    b"advance " + b"0" * 248, b"b" * 9000, b"\xc3\xa9",
]  # fmt: skip


class Dialogue:
    """A random dialogue: its input, the words of the program, and the files in it."""

    def __init__(self, chance: random.Random):
        self.chance, self.files, self.parts = chance, dict(REFUSED), []
        self.has_small_tables = chance.random() < 0.15
        self.workers, self.way = chance.choice([1, 1, 2, 8]), chance.choice(["whole", "pieces", "turns"])
        self.corner = chance.choice(
            [(0, 0), (0, 0), (-70, 1000), (2**40, -(2**33)), (plain.END - 30, 5 - plain.END)]
        )
        for _ in range(chance.randint(1, 14)):
            self.add()
        self.input = self.ended(b"".join(self.parts))

    def words(self) -> list[str]:
        return ["--workers", str(self.workers), *(["--nodes", "1024"] if self.has_small_tables else [])]

    def ended(self, data: bytes) -> bytes:
        """The input, sometimes cut anywhere."""
        return data[: self.chance.randint(0, len(data))] if self.chance.random() < 0.15 else data

    def add(self) -> None:
        kind = self.chance.random()
        if kind < 0.25 or not self.parts:
            self.add_open()
        elif kind < 0.35:
            self.parts.append(self.chance.choice(BAD_LINES) + b"\n")
        elif kind < 0.6:
            self.add_step()
        else:
            self.add_look()

    def add_open(self) -> None:
        rule = b" " + self.chance.choice(list(RULES)) if self.chance.random() < 0.4 else b""
        self.add_block(b"open", rule)

    def add_block(self, name: bytes, behind: bytes = b"") -> None:
        text = self.random_file()
        length = len(text)
        extra = b""
        if text.endswith(b"!\n") and self.chance.random() < 0.1:
            extra = self.chance.randbytes(self.chance.choice([1, 10, 9000, 70000]))
        digits = b"0" * self.chance.choice([0, 0, 0, 3]) + str(length + len(extra)).encode()
        self.parts.append(name + b" " + digits + behind + b"\n" + text + extra)

    def random_file(self) -> bytes:
        if self.chance.random() < 0.12:
            return self.chance.choice(list(REFUSED))
        cells, rule = self.random_cells(), self.chance.choice(
            [LIFE, LIFE, LIFE, *(it for it in RULES.values() if isinstance(it, plain.Rule))]
        )
        generation = self.chance.choice([0, 0, 0, 77, plain.LAST, plain.LAST - 3])
        comments = tuple(self.chance.sample(["#C one", "#N a name", "#O somebody"], self.chance.choice([0, 0, 1, 3])))
        make = self.chance.choice([plain.rle_text, plain.macrocell_text])
        if make is plain.rle_text and plain.is_too_wide(cells):
            make = plain.macrocell_text
        text = make(cells, rule.text(), generation, comments).encode()
        self.files[text] = File(frozenset(cells), rule, generation, comments)
        return text

    def random_cells(self) -> set[plain.Cell]:
        chance, (left, top) = self.chance, self.corner
        kind = chance.random()
        if kind < 0.1:
            return set()
        if kind < 0.4:
            x, y = left + chance.randint(-5, 5), top + chance.randint(-5, 5)
            shapes = [
                [(1, 0), (2, 1), (0, 2), (1, 2), (2, 2)],
                [(0, 0), (1, 0), (2, 0)],
                [(0, 0), (1, 0), (0, 1), (1, 1)],
            ]
            return {(x + dx, y + dy) for dx, dy in chance.choice(shapes)}
        cells = {
            (left + x, top + y)
            for x in range(chance.randint(1, 12))
            for y in range(chance.randint(1, 12))
            if chance.random() < 0.4
        }
        return cells | ({(left + 2**31 * (-1 if left > 0 else 1), top)} if chance.random() < 0.1 else set())

    def add_step(self) -> None:
        name = self.chance.choice([b"advance", b"advance", b"period", b"multiple"])
        most = {b"advance": [0, 1, 2, 5, 12, 30], b"period": [1, 2, 5, 12, 20], b"multiple": [1, 4, 12, 24, 30]}[name]
        number = self.chance.choice(most)
        if name == b"advance" and self.chance.random() < 0.15:
            number = self.chance.choice([2**63, 2**63 + 1, 2**64 - 1, 2**64, 10**40])
        self.parts.append(name + b" " + str(number).encode() + b"\n")
        if self.has_small_tables:
            # It tells the generation, if the tables were full.
            self.parts[-1] += b"generation\n"

    def add_look(self) -> None:
        kind = self.chance.choice(
            [
                b"same",
                b"close",
                b"window",
                b"window",
                b"picture",
                *[b"generation", b"rule", b"population", b"bounds", b"runs"] * 2,
                b"write",
                b"write",
            ]
        )
        if kind == b"same":
            self.add_block(kind)
        elif kind == b"window":
            self.parts.append(
                self.line(kind, *self.near(), *self.sides([1, 3, 20, 40, 1024, 1025, 0, 2**32, 2**64]))
            )
        elif kind == b"picture":
            self.add_picture()
        elif kind == b"write":
            self.parts.append(self.line(kind, self.chance.choice(["rle", "mc"])))
        else:
            self.parts.append(self.line(kind))

    @staticmethod
    def line(*words: object) -> bytes:
        return b" ".join(it if isinstance(it, bytes) else str(it).encode() for it in words) + b"\n"

    def near(self) -> list[int]:
        """A cell near the patterns, or at the ends of what can be shown."""
        if self.chance.random() < 0.1:
            return self.chance.choices(
                [-plain.END - 1, -plain.END, plain.END, plain.END + 1, -(2**63), -(10**30)], k=2
            )
        return [part + self.chance.randint(-20, 10) for part in self.corner]

    def sides(self, choice: list[int]) -> list[int]:
        return self.chance.choices(choice, [8, 8, 8, 8, 1, 1, 1, 1, 1][: len(choice)], k=2)

    def add_picture(self) -> None:
        left, top = self.near()
        width, height = self.sides([1, 7, 20, 60, 3000, 0])
        size = self.chance.choice([16, 17, 64, 200])
        self.parts.append(self.line(b"picture", left, top, left + width - 1, top + height - 1, size))


def whole(command: list[str], data: bytes, seconds: float) -> tuple[int, bytes]:
    """The input in one piece."""
    ran = subprocess.run(command, input=data, stdout=subprocess.PIPE, timeout=seconds)
    return ran.returncode, ran.stdout


def pieces(command: list[str], data: bytes, seconds: float, chance: random.Random) -> tuple[int, bytes]:
    """The input in small pieces."""
    with subprocess.Popen(command, stdin=subprocess.PIPE, stdout=subprocess.PIPE, bufsize=0) as process:
        killer = threading.Timer(seconds, process.kill)
        killer.start()

        def send() -> None:
            at = 0
            while at < len(data):
                count = chance.choice([1, 2, 7, 100, 5000])
                try:
                    os.write(process.stdin.fileno(), data[at : at + count])
                except BrokenPipeError:
                    break
                at += count
            process.stdin.close()

        sender = threading.Thread(target=send)
        sender.start()
        output = process.stdout.read()
        sender.join()
        killer.cancel()
    return process.returncode, output


def turns(command: list[str], data: bytes, seconds: float) -> tuple[int, bytes]:
    """Request by request. Fails where a reply does not come."""
    output = bytearray()
    with subprocess.Popen(command, stdin=subprocess.PIPE, stdout=subprocess.PIPE, bufsize=0) as process:
        try:
            for request in requests_in(data):
                send_all(process.stdin.fileno(), request.raw)
                if request.bad == "cut":
                    break
                start = len(output)
                while not is_whole_reply(bytes(output[start:]), request.has_block_in_reply):
                    output += read_some(process.stdout.fileno(), seconds)
            process.stdin.close()
            output += process.stdout.read()
        finally:
            if not process.stdin.closed:
                process.kill()
    return process.returncode, bytes(output)


def send_all(place: int, data: bytes) -> None:
    view = memoryview(data)
    while view:
        view = view[os.write(place, view) :]


def read_some(place: int, seconds: float) -> bytes:
    if not select.select([place], [], [], seconds)[0]:
        raise TimeoutError("a reply did not come")
    data = os.read(place, 65536)
    if not data:
        raise TimeoutError("the output ended before a reply")
    return data


def is_whole_reply(said: bytes, has_block: bool) -> bool:
    line, end, block = said.partition(b"\n")
    if not end or not has_block or not line.startswith(b"ok "):
        return bool(end)
    return len(block) >= int(line[3:])


def compare(program: str, dialogue: Dialogue, seconds: float) -> str:
    """What differs, or "same"."""
    command = [program, *dialogue.words()]
    try:
        if dialogue.way == "whole":
            status, output = whole(command, dialogue.input, seconds)
        elif dialogue.way == "pieces":
            status, output = pieces(command, dialogue.input, seconds, dialogue.chance)
        else:
            status, output = turns(command, dialogue.input, seconds)
    except (subprocess.TimeoutExpired, TimeoutError, BrokenPipeError) as error:
        return f"no end: {error}"
    if status:
        return f"status {status}"
    return Model(dialogue.files, RULES, dialogue.has_small_tables).compare(dialogue.input, output)


def answers(options: argparse.Namespace) -> Counter:
    counts = Counter()
    for number in range(options.count) if options.only is None else [options.only]:
        dialogue = Dialogue(random.Random(f"{options.seed} {number}"))
        try:
            answer = compare(str(options.pipe.resolve()), dialogue, options.seconds)
        except NotFollowed:
            counts["large"] += 1
            continue
        counts["same" if answer == "same" else "different"] += 1
        counts["requests"] += sum(1 for _ in requests_in(dialogue.input))
        if answer != "same":
            file = pathlib.Path(tempfile.gettempdir()) / f"differs-{options.seed}-{number}.txt"
            file.write_bytes(dialogue.input)
            print(f"differs: {answer}: lifepipe {' '.join(dialogue.words())} < {file}", flush=True)
            print(f"    to replay: checks/random_dialogues.py --seed {options.seed} --only {number}", flush=True)
    return counts


def parsed() -> argparse.Namespace:
    parser = CHECK.parser()
    parser.add_argument("--count", type=int, default=400, help="how many dialogues (400)")
    parser.add_argument("--seed", type=int, default=1, help="which dialogues (1)")
    parser.add_argument("--only", type=int, help="only this one of them")
    parser.add_argument("--seconds", type=float, default=60, help="how long a dialogue, or a reply, may take (60)")
    return CHECK.options(parser)


def main() -> int:
    counts = answers(parsed())
    print(
        f"{counts['same']} dialogues with {counts['requests']} requests are the same,"
        f" {counts['large']} were not followed to their end, {counts['different']} differ"
    )
    return status_of(counts["same"], counts["different"])


if __name__ == "__main__":
    end(main)
