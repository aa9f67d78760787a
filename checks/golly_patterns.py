#!/usr/bin/env python3
"""Compares the cells that lifebatch and bgolly find for Golly's own patterns.

    checks/golly_patterns.py --generations 300 --workers 1 2 4
    checks/golly_patterns.py --only HashLife/ Life/Guns    the patterns with one of these texts in their paths
    checks/golly_patterns.py --words='--nodes 65536'       more options for lifebatch

The script tries each RLE and macrocell file of the folder, including compressed ones. lifebatch runs a pattern with
each number of workers, and has to print and write the same bytes each time. Then bgolly runs it. Both have to report
the same last generation and population, and to write the same RLE text from the sides in the header on: bgolly leaves
the position out. With --macrocell bgolly also reads the macrocell file that lifebatch writes, and has to find the same
cells.

The script skips and counts patterns that lifebatch refuses by name (more states, bounded grids, other rules), that take
bgolly too long, or that bgolly doesn't write. Any other end of lifebatch is a difference: a crash, a run of more than
ten times the time that bgolly may take, another status, a file left by a refused run, or a refusal with some numbers of
workers only.
"""
import argparse
import pathlib
import re
import tempfile
from collections import Counter
from dataclasses import dataclass

from common.check import BGOLLY, BUILT, GOLLY_PATTERNS, Check, end, status_of
from common.program import PATTERNS, refusal, run, unpacked

CHECK = Check(
    text=__doc__,
    needs=(BUILT, BGOLLY, GOLLY_PATTERNS),
    takes="5 minutes",
    quick=(
        "--only",
        "Life-Like/",
        "Life/Oscillators/",
        "--generations",
        "64",
        "--workers",
        "1",
        "4",
        "--macrocell",
        "--seconds",
        "5",
    ),
    quickly="10 s",
    replay="give the same options, and --only with the path that is printed.",
)

# A run of lifebatch may take this many times the time of bgolly. A longer one counts as endless.
PATIENCE = 10
# Tables may be full with some numbers of workers only.
FULL = "NodesFull"


class Skipped(Exception):
    """Why a pattern can't be compared."""


class Different(Exception):
    """What differs."""


@dataclass(frozen=True)
class Answer:
    """The result of a run of lifebatch: a refusal, or a report and a file."""

    refusal: str | None
    report: str = ""
    file: bytes = b""


def body(path: pathlib.Path) -> tuple[tuple[str, ...], str] | None:
    """The sides of an RLE file and its items, one after the other, or None if it has no header."""
    lines = [line for line in path.read_text(encoding="latin-1").splitlines() if not line.startswith("#")]
    sides = re.match(r"x = (\d+), y = (\d+)", lines[0]) if lines else None
    return (sides.groups(), "".join(lines[1:])) if sides else None


def ours(path: pathlib.Path, options: argparse.Namespace, folder: pathlib.Path, workers: int, output: str) -> Answer:
    """Runs lifebatch with a number of workers."""
    (folder / output).unlink(missing_ok=True)
    words = [str(options.program.resolve()), *options.words.split(), "-m", str(options.generations), "-o", output]
    ended = run([*words, "--workers", str(workers), str(path)], folder, PATIENCE * options.seconds)
    by = f"with --workers {workers}"
    if ended.status is None:
        raise Different(f"lifebatch takes more than {PATIENCE * options.seconds:g} s {by}")
    is_written = (folder / output).exists()
    if name := refusal(ended):
        if is_written:
            raise Different(f"lifebatch refuses the run as {name} {by}, and leaves a file")
        return Answer(name)
    if ended.status or ended.message:
        raise Different(f"lifebatch ends with {ended} {by}")
    if not is_written:
        raise Different(f"lifebatch writes no file {by}")
    return Answer(None, ended.report, (folder / output).read_bytes())


def theirs(path: str, generation: int, options: argparse.Namespace, folder: pathlib.Path, output: str) -> str:
    """Runs bgolly up to a generation, and returns its report without the commas in its numbers."""
    (folder / output).unlink(missing_ok=True)
    words = ["bgolly", "-a", "HashLife", "-m", str(generation), "-i", str(generation), "-o", output, path]
    ended = run(words, folder, options.seconds)
    if ended.status is None:
        raise Skipped("bgolly is slow")
    if ended.status or not (folder / output).exists() or body(folder / output) is None:
        raise Skipped("bgolly writes nothing")
    return ended.report.replace(",", "")


def one_answer(path: pathlib.Path, options: argparse.Namespace, folder: pathlib.Path) -> Answer:
    """The result of a pattern, the same with each number of workers."""
    answers = {ours(path, options, folder, workers, "ours.rle") for workers in options.workers}
    refusals = {it.refusal for it in answers}
    if FULL in refusals:
        raise Skipped(FULL)
    if len(refusals) > 1:
        names = sorted(it or "accepted" for it in refusals)
        raise Different(f"the result depends on the number of workers: {', '.join(names)}")
    if len(answers) > 1:
        raise Different("what lifebatch prints or writes depends on the number of workers")
    return answers.pop()


def last(report: str) -> tuple[int, int] | None:
    """The last generation that is reported, and its population."""
    lines = re.findall(r"^(\d+): (\d+)$", report, re.MULTILINE)
    return (int(lines[-1][0]), int(lines[-1][1])) if lines else None


def compare(path: pathlib.Path, options: argparse.Namespace, folder: pathlib.Path) -> None:
    """Runs a pattern with each number of workers, and with bgolly."""
    answer = one_answer(path, options, folder)
    if answer.refusal:
        raise Skipped(answer.refusal)
    (folder / "ours.rle").write_bytes(answer.file)
    ended = last(answer.report)
    if ended is None:
        raise Different("lifebatch reports no generation")
    if ended != last(theirs(str(path), ended[0], options, folder, "theirs.rle")):
        raise Different("bgolly reports another generation or population")
    if body(folder / "ours.rle") != body(folder / "theirs.rle"):
        raise Different("bgolly finds other cells")
    if options.macrocell:
        compare_macrocell(path, options, folder)


def compare_macrocell(path: pathlib.Path, options: argparse.Namespace, folder: pathlib.Path) -> None:
    """Has bgolly read the macrocell file that lifebatch writes."""
    name = ours(path, options, folder, options.workers[-1], "ours.mc").refusal
    if name == FULL:
        raise Skipped(FULL)
    if name:
        raise Different(f"lifebatch writes RLE, and refuses to write a macrocell file as {name}")
    theirs("ours.mc", 0, options, folder, "read.rle")
    if body(folder / "ours.rle") != body(folder / "read.rle"):
        raise Different("bgolly reads other cells in the macrocell file")


def tried(path: pathlib.Path, options: argparse.Namespace, folder: pathlib.Path) -> tuple[str, str]:
    """The result of a pattern, and the reason."""
    try:
        compare(unpacked(path, folder), options, folder)
    except Skipped as reason:
        return "skipped", str(reason)
    except Different as reason:
        print(f"differs: {path}: {reason}", flush=True)
        return "different", str(reason)
    return "compared", "same"


def chosen(options: argparse.Namespace) -> list[pathlib.Path]:
    """The pattern files of the folder to try."""
    files = [
        it for it in options.folder.resolve().rglob("*") if re.search(r"\.(rle|mc)(\.gz)?$", it.name) and it.is_file()
    ]
    return sorted(it for it in files if not options.only or any(part in str(it) for part in options.only))


def sum_up(found: Counter) -> int:
    """Prints the results of all patterns, and returns the status."""
    reasons = ", ".join(f"{reason}: {count}" for (answer, reason), count in found.most_common() if answer == "skipped")
    counts = Counter()
    for (answer, _), count in found.items():
        counts[answer] += count
    skipped = f"{counts['skipped']} skipped" + (f" ({reasons})" if reasons else "")
    print(f"{counts['compared']} patterns are the same, {skipped}, {counts['different']} differ")
    return status_of(counts["compared"], counts["different"])


def parsed() -> argparse.Namespace:
    parser = CHECK.parser()
    parser.add_argument("--generations", type=int, default=300, help="how many generations lifebatch runs (300)")
    parser.add_argument(
        "--workers", type=int, nargs="+", default=[1, 2, 4], help="numbers of workers, each of which runs (1 2 4)"
    )
    parser.add_argument("--macrocell", action="store_true", help="let bgolly read what lifebatch writes as macrocell")
    parser.add_argument(
        "--only", nargs="+", default=[], help="only the patterns with one of these texts in their paths"
    )
    parser.add_argument(
        "--folder", type=pathlib.Path, default=PATTERNS, help=f"the folder of the patterns ({PATTERNS})"
    )
    parser.add_argument(
        "--seconds",
        type=float,
        default=30,
        help=f"how long a run of bgolly may take (30), and lifebatch {PATIENCE} times as long",
    )
    parser.add_argument("--words", default="", help="more options for lifebatch, as '--nodes 65536'")
    return CHECK.options(parser)


def main() -> int:
    options = parsed()
    found = Counter()
    with tempfile.TemporaryDirectory() as name:
        for path in chosen(options):
            found[tried(path, options, pathlib.Path(name))] += 1
    return sum_up(found)


if __name__ == "__main__":
    end(main)
