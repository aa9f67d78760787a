"""The parts of launcher/help/NAME.txt, which is the program's help to the byte, for man pages and completions."""
import re
from dataclasses import dataclass

from crates import ROOT

OPTION = re.compile(r"(?:(-\w), )?(--[\w-]+)(?: <(.*)>)?")
# An option, an argument or a command of the examples, whose lines may go on further to the right.
ITEM = re.compile(r" {2}(?:<| {4}--|-\w)|  \w")


@dataclass(frozen=True)
class Option:
    """An option, with its short form and the name of its value if it has them."""

    short: str
    long: str
    value: str
    text: str

    def forms(self) -> list[str]:
        return [it for it in (self.short, self.long) if it]

    def brief(self) -> str:
        """What it does, without its default."""
        return self.text.partition(" [default")[0]

    def is_file(self) -> bool:
        return self.value == "NAME"

    def is_joined(self) -> bool:
        """Whether its value is written behind `=`: it may begin with a minus, and then is no word by itself."""
        return self.value.startswith("X,")


@dataclass(frozen=True)
class Help:
    summary: str
    paragraphs: list[str]
    usage: str
    arguments: list[tuple[str, str]]
    options: list[Option]
    # Commands, each with what it does.
    examples: list[tuple[str, str]]


def items(block: str) -> list[tuple[str, str]]:
    """The items of a block, each with its text in one line."""
    found: list[list[str]] = []
    for line in block.splitlines()[1:]:
        if ITEM.match(line):
            found.append([line])
        else:
            found[-1].append(line)
    return [split("  ".join([first.strip(), *map(str.strip, rest)])) for first, *rest in found]


def split(line: str) -> tuple[str, str]:
    """What stands before and behind the first gap of a line. The other gaps are breaks of a line."""
    head, _, text = line.partition("  ")
    return head, " ".join(text.split())


def option(head: str, text: str) -> Option:
    short, long, value = OPTION.fullmatch(head).groups("")
    return Option(short, long, value, text)


def help_of(name: str) -> Help:
    """The parts of a program's help."""
    blocks = (ROOT / "launcher" / "help" / f"{name}.txt").read_text(encoding="utf-8").rstrip().split("\n\n")
    named = {it.partition(":")[0]: it for it in blocks if re.match(r"(Usage|Arguments|Options|Examples):", it)}
    summary, *paragraphs = (" ".join(it.split()) for it in blocks if it not in named.values())
    usage = " ".join(named["Usage"].partition(":")[2].split())
    options = [option(*it) for it in items(named["Options"])]
    return Help(summary, paragraphs, usage, items(named.get("Arguments", "")), options, items(named["Examples"]))
