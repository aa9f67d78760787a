"""The random cases of a check: which it tries, and how to run one again that differs."""
import argparse
import pathlib
import random
import sys
import tempfile
from collections.abc import Iterator, Sequence


def add_cases(parser: argparse.ArgumentParser, kind: str, count: int) -> None:
    """The options that choose cases of this kind, by default so many."""
    parser.add_argument("--count", type=int, default=count, help=f"how many {kind}s ({count})")
    parser.add_argument("--seed", type=int, default=1, help=f"where the {kind}s come from (1)")
    parser.add_argument("--only", type=int, metavar="NUMBER", help=f"only the {kind} of this number, from 0 on")


def chances(options: argparse.Namespace) -> Iterator[tuple[int, random.Random]]:
    """The number of each case that is tried, and the chance that makes it: the same in every run."""
    for number in range(options.count) if options.only is None else [options.only]:
        yield number, random.Random(f"{options.seed} {number}")


def kept(number: int, options: argparse.Namespace, contents: bytes, ending: str = "") -> str:
    """The path of a case's input file, which stays when the check has ended."""
    file = pathlib.Path(tempfile.gettempdir()) / f"differs-{options.seed}-{number}{ending}"
    file.write_bytes(contents)
    return str(file)


def show_difference(number: int, options: argparse.Namespace, answer: str, words: Sequence[str]) -> None:
    """Prints what differs in a case, the words of its run, and how to run it again."""
    workers = ["--workers", *options.workers] if "workers" in options else []
    again = [f"checks/{pathlib.Path(sys.argv[0]).name}", "--seed", options.seed, "--only", number, *workers]
    print(f"differs: {answer}: {' '.join(words)}", flush=True)
    print(f"    to replay: {' '.join(map(str, again))}", flush=True)
