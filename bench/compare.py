#!/usr/bin/env python3
"""Times lifebatch beside Golly's bgolly, by HashLife and QuickLife, compares their last populations, prints a table.

    bench/compare.py                           the sets runs and steps, the best of three rounds, one worker
    bench/compare.py --workers 1 4             with one worker and with four
    bench/compare.py --rounds 5 --rows gun     the rows with "gun" in their names, the best of five
    bench/compare.py --set rules               soups by rules other than Life
    bench/compare.py --set formats             the rows that read, write and count, and run little
    bench/compare.py --set files               large files: the rows that read one, some of which write it again
    bench/compare.py --set files --lifeview    and the times of lifeview on these files, beside lifebatch
    bench/compare.py --set long                long runs, most of which fill the tables
    bench/compare.py --set large-tables        long runs that need more slots, for --nodes and --golly-memory
    bench/compare.py --nodes 16777216          with another limit of the node tables than the default of lifebatch
    bench/compare.py --golly-memory 1024       with another limit of memory than the default of bgolly, in megabytes
    bench/compare.py --processors 2            on two processors
    bench/compare.py --aims                    with the aims in brackets
    bench/compare.py --json FILE --svg FILE    the table as JSON too, and the ratios as a bar chart

In a round each program runs once, one after the other, so that load affects all equally. QuickLife runs where the file
is RLE and no macrocell file is written, and is ended after eight times the time of HashLife. A ratio is the time of
lifebatch divided by that of the faster of the two: below 1 lifebatch is faster. The chart divides all times by that of
HashLife. "Memory" is the ratio of the peaks of memory of lifebatch and HashLife, where the latter takes 30 MiB or more.
"Serial", with more than one worker, is the part of the time in which one of them ran, if all ran in the rest of it: (w
* clock - processor) / ((w - 1) * clock) for w workers, where clock is the time of the best run and processor its user
and system time. Waiting counts as serial too, so it exceeds 100 % if the run waits for a processor. lifebatch runs with
the setting of malloc that ./lifebatch gives it. --aims shows each ratio to HashLife with its aim, and an aim for the
mean only if all rows have the same aims. A row differs if the programs report different populations, or if lifebatch or
lifeview fails. The soups of the set files are the same in every run of this script; bgolly makes their macrocell files.
"""
import argparse
import json
import os
import pathlib
import sys
import tempfile
from collections.abc import Sequence
from dataclasses import asdict

sys.path.insert(0, str(pathlib.Path(__file__).resolve().parent.parent / "checks"))

from chart import Group, svg
from commands import hashlife, lifebatch, pattern_file, quicklife
from common.check import BGOLLY, BUILT, BUILT_VIEW, DIFFERS, HOLDS, NOT_RUN, CannotRun, Check, Need, add_view, end
from results import Result, average
from rows import SETS, Row
from timing import Found, best_of_rounds
from views import View, print_views

VIEW_IF_ASKED = Need(
    f"{BUILT_VIEW.name} (for --lifeview)",
    BUILT_VIEW.brings,
    lambda options: not options.lifeview or BUILT_VIEW.is_there(options),
)

CHECK = Check(
    text=__doc__,
    needs=(BUILT, VIEW_IF_ASKED, BGOLLY),
    takes="a minute for the sets runs and steps with one worker, and four minutes for a round of the set long",
    replay="give the name of the row, or a part of it, to --rows.",
)


def result(name: str, row: Row, options: argparse.Namespace, folder: pathlib.Path) -> Result:
    """Runs a row of a set."""
    path = pattern_file(row, folder)
    if path is None:
        return Result(name, row, {}, "Golly's patterns are not installed")
    commands = [*(lifebatch(row, path, workers, options) for workers in options.workers), hashlife(row, path, options)]
    commands += [quicklife(row, path)] if row.suits_quicklife(path) else []
    found = best_of_rounds(commands, options.rounds, folder)
    ours, theirs = found[: len(options.workers)], found[len(options.workers) :]
    return Result(name, row, dict(zip(options.workers, ours)), *theirs)


def with_aim(ratio: float | None, aim: float | None) -> str:
    if ratio is None:
        return ""
    return f"{ratio:.2f}" if aim is None else f"{ratio:.2f} ({aim})"


def ratios(found: Result, workers: int, options: argparse.Namespace) -> str:
    """The ratio to the faster of the two, and with --aims that to HashLife."""
    said = with_aim(found.ratio(workers), None)
    if not options.aims or not said:
        return said
    aim = found.row.aim or found.aims.time if workers == 1 else None
    return f"{said}; to HashLife {with_aim(found.to_hashlife(found.ours[workers]), aim)}"


def percent(part: float | None) -> str:
    return "" if part is None else f"{round(100 * part)} %"


def table_row(found: Result, options: argparse.Namespace) -> str:
    """A row of the table."""
    cells = [found.row.name, found.row.said()]
    for workers in options.workers:
        cells += [str(found.ours.get(workers, "")), ratios(found, workers, options)]
        cells += [percent(found.serial(workers))] if workers > 1 else []
    memory = with_aim(found.memory(), found.aims.memory if options.aims else None)
    cells += [str(found.hashlife), str(found.quicklife or ""), memory, found.population()]
    return f"| {' | '.join(cells)} |"


def table_head(options: argparse.Namespace) -> str:
    heads = ["Pattern", "Generations"]
    for workers in options.workers:
        heads += [said(workers), "Ratio", *(["Serial"] if workers > 1 else [])]
    heads += ["HashLife", "QuickLife", "Memory", "Last population"]
    return f"| {' | '.join(heads)} |\n{'|---' * len(heads)}|"


def said(workers: int) -> str:
    return f"{workers} worker{'s' if workers > 1 else ''}"


def print_means(results: Sequence[Result], options: argparse.Namespace) -> None:
    all_aims = [it.aims for it in results]
    aims = all_aims[0].means if options.aims and all(it == all_aims[0] for it in all_aims) else {}
    for workers in options.workers:
        found = average(results, workers)
        if found:
            aim = f"; to HashLife {with_aim(found.hashlife, aims.get(workers))}" if options.aims else ""
            print(f"\nThe ratios, --workers {workers}: geometric mean {found.mean:.2f}, median {found.median:.2f}{aim}")


def run_data(found: Found) -> dict:
    return {"failed": found} if isinstance(found, str) else asdict(found)


def row_data(found: Result, options: argparse.Namespace) -> dict:
    row = found.row
    data = {
        "set": found.set,
        "pattern": row.name,
        "generations": row.generations,
        "step": row.step,
        "output": row.output,
    }
    data["lifebatch"] = {
        str(it): {**run_data(run), "ratio": found.ratio(it), "serial": found.serial(it)}
        for it, run in found.ours.items()
    }
    data |= {
        "hashlife": run_data(found.hashlife),
        "quicklife": found.quicklife and run_data(found.quicklife),
        "memory_ratio": found.memory(),
        "last_population": found.population(),
    }
    if options.aims:
        data["aims"] = {"time": row.aim or found.aims.time, "memory": found.aims.memory}
    return data


def view_data(found: View) -> dict:
    return {"pattern": found.row.name, "lifebatch": run_data(found.ours), "lifeview": run_data(found.view)}


def json_text(results: Sequence[Result], views: Sequence[View], options: argparse.Namespace) -> str:
    """The tables as JSON: seconds, mebibytes and ratios as numbers."""
    data = {
        "rounds": options.rounds,
        "words": options.words,
        "nodes": options.nodes,
        "golly_memory": options.golly_memory,
        "processors": len(os.sched_getaffinity(0)),
        "rows": [row_data(it, options) for it in results],
        "lifeview": [view_data(it) for it in views],
        "averages": {str(it): asdict(found) for it in options.workers if (found := average(results, it))},
    }
    return json.dumps(data, indent=2) + "\n"


def svg_text(results: Sequence[Result], options: argparse.Namespace) -> str:
    """All times beside that of HashLife, as a bar chart."""
    runs = {f"lifebatch, {said(workers)}": [it.ours.get(workers) for it in results] for workers in options.workers}
    runs["bgolly, QuickLife"] = [it.quicklife for it in results]
    series = {name: found for name, found in runs.items() if any(found)}
    groups = [
        Group(it.row.label(), [it.to_hashlife(found[place]) for found in series.values()])
        for place, it in enumerate(results)
    ]
    return svg("Time divided by that of bgolly's HashLife", "HashLife", list(series), groups)


def write_files(results: Sequence[Result], views: Sequence[View], options: argparse.Namespace) -> None:
    if options.json:
        options.json.write_text(json_text(results, views, options))
    if options.svg:
        options.svg.write_text(svg_text(results, options))


def status(results: Sequence[Result | View]) -> int:
    if any(it.differs() for it in results):
        return DIFFERS
    return HOLDS if all(it.is_compared() for it in results) else NOT_RUN


def chosen(options: argparse.Namespace) -> list[tuple[str, Row]]:
    """The chosen rows, each with the name of its set."""
    rows = [(name, row) for name in options.set for row in SETS[name]]
    found = [(name, row) for name, row in rows if not options.rows or any(part in row.name for part in options.rows)]
    if not found:
        raise CannotRun("no row has such a name")
    return found


def viewed(rows: Sequence[tuple[str, Row]], options: argparse.Namespace) -> list[Row]:
    """The rows whose files lifeview draws: those of the set files that are only read, if it is asked for."""
    found = [row for name, row in rows if options.lifeview and name == "files" and row.only_reads()]
    if options.lifeview and not found:
        raise CannotRun("--lifeview needs a row of the set files that is only read")
    return found


def parsed() -> argparse.Namespace:
    parser = CHECK.parser()
    add_view(parser)
    parser.add_argument("--rounds", type=int, default=3, help="how many runs of each; the best counts (3)")
    parser.add_argument(
        "--set", nargs="+", choices=sorted(SETS), default=["runs", "steps"], help="which rows (runs steps)"
    )
    parser.add_argument("--rows", nargs="+", default=[], help="only the rows with one of these texts in their names")
    parser.add_argument("--workers", type=int, nargs="+", default=[1], help="the numbers of workers (1)")
    parser.add_argument(
        "--nodes", type=int, metavar="N", help="limit the node tables of lifebatch to N slots in total (its default)"
    )
    parser.add_argument(
        "--golly-memory", type=int, metavar="M", help="limit the memory of bgolly to M megabytes (its default)"
    )
    parser.add_argument("--words", default="", help="more options for lifebatch, as '--window=0,0,64,64'")
    parser.add_argument(
        "--lifeview", action="store_true", help="time lifeview on the files of the set files that are only read"
    )
    parser.add_argument("--processors", type=int, help="how many processors both may use (all)")
    parser.add_argument("--aims", action="store_true", help="show the aims in brackets")
    parser.add_argument("--json", type=pathlib.Path, metavar="FILE", help="write the table as JSON")
    parser.add_argument("--svg", type=pathlib.Path, metavar="FILE", help="write the ratios as a bar chart")
    return CHECK.options(parser)


def main() -> int:
    options = parsed()
    if options.processors:
        os.sched_setaffinity(0, sorted(os.sched_getaffinity(0))[: options.processors])
    rows, results, views = chosen(options), [], []
    drawn = viewed(rows, options)
    print(table_head(options))
    with tempfile.TemporaryDirectory() as name:
        folder = pathlib.Path(name)
        for set_name, row in rows:
            results.append(result(set_name, row, options, folder))
            print(table_row(results[-1], options), flush=True)
        print_means(results, options)
        if drawn:
            views = print_views(drawn, options, folder)
    write_files(results, views, options)
    return status([*results, *views])


if __name__ == "__main__":
    end(main)
