"""Files in odd spellings, and files with a fault, as docs/formats.md allows and refuses them."""
from collections.abc import Sequence
from random import Random

from common import cells as plain

# The number and the name of a refusal, and with a place where the fault lies.
Refusal = tuple[int, str]
Fault = tuple[int, str, int]

# Comments that are kept, and lines that have no effect.
KEPT = ["#C a kept comment", "#N a name", "#O somebody", "#D", "#Comments of any kind", "#C \u00e9\t!"]
IGNORED = ["#r 23/3", "#P 1 1", "#", "#x = 1"]


def broken(text: str, chance: Random) -> str:
    """A text with breaks, blanks and comments strewn into it, also between the digits of a count."""
    pieces = []
    for letter in text:
        if chance.random() < 0.03:
            pieces.append(chance.choice(["\n", " ", "\t", "\r\n", "\n#C not kept\n", "\n# 3o$!\n"]))
        pieces.append(letter)
    return "".join(pieces)


def spelled_item(count: int, tag: str, chance: Random) -> str:
    tag = chance.choice({"b": "b.", "o": "oA", "$": "$"}[tag])
    if count > 1 or chance.random() < 0.1:
        return "0" * chance.choice([0, 0, 0, 1, 25]) + str(count) + tag
    return tag


def faulty_item(fault: str) -> tuple[str, Refusal]:
    """An item with a fault, its refusal and its name."""
    return {
        "tag": ("3z", (5, "BadTag")),
        "states": ("2B", (6, "MoreStates")),
        "zero": ("00o", (7, "BadCount")),
        "range": (f"{2 * plain.END + 1}b", (8, "OutOfRange")),
        "cells": (f"{2**28 + 1}o", (9, "TooManyCells")),
    }[fault]


def head_lines(
    rule: str, generation: int, corner: tuple[int, int], comments: Sequence[str], chance: Random
) -> tuple[list[str], int]:
    """The lines before the body, in odd forms, and how many of them stand before the header."""
    settings = [f"Pos={corner[0]},{corner[1]}", f"Gen={generation}"]
    chance.shuffle(settings)
    lines = ["#CXRLE " + chance.choice([" ", "\t", " x=1 "]).join(settings), *comments]
    lines.insert(chance.randint(0, len(lines)), chance.choice([*IGNORED, "", "  \t"]))
    gap = chance.choice(["", " ", " \t "])
    keys = chance.choice(["x", "X"]), chance.choice(["y", "Y"]), chance.choice(["rule", "RULE"])
    header = f"{gap}{keys[0]}{gap}={gap}1{gap},{gap}{keys[1]}{gap}={gap}07{gap},{keys[2]}{gap}={gap}{rule}{gap}"
    return [*lines, header], len(lines)


def rle_file(
    cells: plain.Cells, rule: str, generation: int, comments: Sequence[str], chance: Random, fault: str | None = None
) -> tuple[bytes, int, Fault | None]:
    """An RLE file in odd forms; the place of its header; its fault, with its place, if it has one."""
    corner = plain.box(cells)[:2] if cells else (0, 0)
    lines, before = head_lines(rule, generation, corner, comments, chance)
    end = chance.choice(["\n", "\r\n"])
    head = "".join(line + end for line in lines)
    place = len("".join(line + end for line in lines[:before]).encode())
    items = plain.rle_items(cells) if cells else []
    told = None
    if fault:
        cut = chance.randint(0, len(items))
        front = "".join(spelled_item(*item, chance) for item in items[:cut])
        front = broken(front, chance) + chance.choice(["", "\n"])
        text, refusal = faulty_item(fault)
        told = (*refusal, len((head + front).encode()))
        body = front + text + "".join(spelled_item(*item, chance) for item in items[cut:])
    else:
        body = broken("".join(spelled_item(*item, chance) for item in items), chance)
    body += chance.choice(["", "!", "!\n", "! what follows is not read 0z"])
    return (head + body).encode(), place, told


def spelled_node(line: str, chance: Random) -> str:
    """A node line in an odd form."""
    if line[0].isdigit():
        blanks = chance.choice([" ", " ", "  ", "\t"])
        return blanks.join("0" * chance.choice([0, 0, 3]) + number for number in line.split(" "))
    if chance.random() < 0.3:
        return line[:-1]
    return line + "$" * chance.randint(0, 8 - line.count("$"))


def faulty_line(fault: str) -> tuple[str, Refusal]:
    """A line with a fault, its refusal and its name."""
    return {
        "tag": ("o$", (10, "BadNodeLine")),
        "states": ("3 0 0 0 0", (10, "BadNodeLine")),
        "zero": ("5 0 0 99999999999999999999 0", (11, "BadChild")),
        "range": ("64 0 0 0 0", (8, "OutOfRange")),
        "cells": ("#FRAMES 2", (12, "FramesNotRead")),
        "generation": ("#Golly", (13, "BadGen")),
    }[fault]


def macrocell_file(
    cells: plain.Cells, rule: str, generation: int, comments: Sequence[str], chance: Random, fault: str | None = None
) -> tuple[bytes, int, Fault | None]:
    """A macrocell file in odd forms; the place of its rule; its fault, with its place, if it has one."""
    level = chance.randint(plain.root_level(cells), 63)
    nodes = [spelled_node(line, chance) for line in plain.node_lines(cells, level, chance.random() < 0.5)]
    lines, last = [f"#G {generation}", *nodes], 1
    for line in [f"#R {rule}", *comments, chance.choice([*IGNORED[:2], "", " \t"])]:
        last = chance.randint(last, len(lines))
        lines.insert(last, line)
        last += 1
    refusal = None
    if fault:
        text, refusal = faulty_line(fault)
        lines.insert(chance.randint(1, len(lines)), text)
    lines = ["[M2]" + chance.choice(["", " (golly 2.0)", "x = 1, y = 1"]), *lines]
    end = chance.choice(["\n", "\r\n"])
    places = {}
    place = 0
    for line in lines:
        places[line] = place
        place += len((line + end).encode())
    whole = "".join(line + end for line in lines).encode()
    rule_place = next(place for line, place in places.items() if line.startswith("#R"))
    return whole, rule_place, refusal and (*refusal, places[text])
