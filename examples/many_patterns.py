#!/usr/bin/env python3
"""Runs the RLE files of a folder, and writes a row for each, as a line of JSON.

    examples/many_patterns.py soups --generations 1000 --table rows.jsonl
    examples/many_patterns.py soups --table rows.jsonl --scheduler tcp://alpha:8786    by the workers of Dask

A row has the name of the file and the status: ok, or why there is no result. Where it is ok, the row also has the
generation, the population and the bounds. Files that have a row are not run again.
"""
import argparse
import contextlib
import json
import os
import pathlib
from collections.abc import Iterator
from concurrent.futures import Executor, ThreadPoolExecutor, as_completed

import lifebatch

EMPTY = "x = 0, y = 0\n!\n"


def rows_of(folder: str, names: list[str], generations: int, limits: dict) -> list[dict]:
    """Runs some files, one after the other in one process of lifepipe, and returns their rows."""
    rows, pattern = [], None
    for name in names:
        # The process has ended where a file took too long.
        pattern = pattern if pattern and pattern.is_open else lifebatch.parse(EMPTY, **limits)
        rows.append({"name": name, **result_of(pattern, pathlib.Path(folder, name), generations)})
    return rows


def result_of(pattern: lifebatch.Pattern, file: pathlib.Path, generations: int) -> dict:
    """Runs a file in the process of a pattern, and returns what its row says."""
    try:
        pattern.load(file.read_bytes())
        pattern.advance(generations)
        found = {"generation": pattern.generation, "population": pattern.population, "bounds": pattern.bounds}
        return {"status": "ok", **found}
    except FileNotFoundError:
        # This machine does not have the folder.
        raise
    except (lifebatch.Refused, lifebatch.Closed, OSError) as error:
        return {"status": str(error)}


def names_in(table: pathlib.Path) -> set[str]:
    """The names in the rows of a table. A last row that was cut is taken away."""
    table.touch()
    data = table.read_bytes()
    end = data.rfind(b"\n") + 1
    os.truncate(table, end)
    return {json.loads(line)["name"] for line in data[:end].splitlines()}


@contextlib.contextmanager
def executor(scheduler: str, jobs: int) -> Iterator[Executor]:
    """What runs the files: the workers of Dask, or as many threads, each of which waits for a process of lifepipe. At
    the end, as where the script is interrupted, what has not begun is left out."""
    if scheduler:
        from distributed import Client

        with Client(scheduler) as client:
            yield client.get_executor(pure=False)
    else:
        pool = ThreadPoolExecutor(jobs)
        try:
            yield pool
        finally:
            pool.shutdown(cancel_futures=True)


def parsed() -> argparse.Namespace:
    parser = argparse.ArgumentParser(description=__doc__, formatter_class=argparse.RawDescriptionHelpFormatter)
    parser.add_argument("folder", type=pathlib.Path, help="the files, also those in folders below it")
    parser.add_argument("--generations", type=int, default=1000, help="how many generations (1000)")
    parser.add_argument("--table", type=pathlib.Path, default="rows.jsonl", help="the file of the rows (rows.jsonl)")
    parser.add_argument("--nodes", type=int, help="the limit of the node tables, as in lifebatch")
    parser.add_argument("--timeout", type=float, help="how many seconds a file may take (no limit)")
    parser.add_argument("--jobs", type=int, default=os.cpu_count(), help="how many processes at a time (one a core)")
    parser.add_argument("--chunk", type=int, default=10, help="how many files a process runs (10)")
    parser.add_argument("--scheduler", default="", help="the address of a scheduler of Dask")
    return parser.parse_args()


def main() -> None:
    options = parsed()
    folder, limits = options.folder.resolve(), {"nodes": options.nodes, "timeout": options.timeout}
    names = sorted({str(it.relative_to(folder)) for it in folder.rglob("*.rle")} - names_in(options.table))
    chunks = [names[at : at + options.chunk] for at in range(0, len(names), options.chunk)]
    with options.table.open("a") as table, executor(options.scheduler, options.jobs) as pool:
        runs = [pool.submit(rows_of, str(folder), it, options.generations, limits) for it in chunks]
        for run in as_completed(runs):
            table.writelines(json.dumps(row) + "\n" for row in run.result())
            table.flush()
    print(f"{len(names)} files were run")


if __name__ == "__main__":
    main()
