"""The commands of a row: lifebatch, bgolly and lifeview, on the same file."""
import argparse
import pathlib
import shutil

from common.launcher import malloc_settings
from common.program import PATTERNS, unpacked
from rows import Row
from soups import Soup
from timing import Command

# What ./lifebatch and ./lifeview ask of malloc.
SETTINGS = malloc_settings()
# QuickLife is ended after so many times the time of HashLife.
PATIENCE = 8


def pattern_file(row: Row, folder: pathlib.Path) -> pathlib.Path | None:
    """The path of a row's pattern, or None if Golly's patterns are not there."""
    if isinstance(row.source, Soup):
        return row.source.file(folder)
    source = row.source() if callable(row.source) else row.source
    if "\n" in source:
        path = folder / "pattern.rle"
        path.write_text(source)
        return path
    return unpacked(PATTERNS / source, folder) if (PATTERNS / source).is_file() else None


def limit(option: str, number: int | None) -> list[str]:
    return [] if number is None else [option, str(number)]


def lifebatch(row: Row, path: pathlib.Path, workers: int, options: argparse.Namespace) -> Command:
    program = [str(options.program.resolve()), *options.words.split(), *limit("--nodes", options.nodes)]
    return Command([*program, "--workers", str(workers), *row.words(path)], SETTINGS)


def hashlife(row: Row, path: pathlib.Path, options: argparse.Namespace) -> Command:
    return Command([shutil.which("bgolly"), "-a", "HashLife", *limit("-M", options.golly_memory), *row.words(path)])


def quicklife(row: Row, path: pathlib.Path) -> Command:
    """The same by QuickLife, for a list of commands in which HashLife is the one before."""
    return Command([shutil.which("bgolly"), "-a", "QuickLife", *row.words(path)], patience=PATIENCE)


def lifeview(path: pathlib.Path, options: argparse.Namespace) -> Command:
    """Draws a file as it is."""
    program = [str(options.view.resolve()), *limit("--nodes", options.nodes)]
    return Command([*program, "-m", "0", "-o", "out.png", str(path)], SETTINGS)
