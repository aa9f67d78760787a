#!/usr/bin/env python3
"""Writes to seconds.json how long each crate's check took in the last builds of all programs on this machine.

    launcher/record_seconds.py

Build all programs first, from nothing and on a machine that does nothing else. Builds plan with these seconds, and
calculate from them how long they take.
"""
import json
import sys

from crates import PROGRAMS, crates_below
from plan import TABLE, recorded, seconds_of, sorting_seconds


def main() -> int:
    names = list(dict.fromkeys(name for program in PROGRAMS for name in crates_below(program)))
    missing = [it for it in names if not recorded(it)]
    if missing:
        print(f"no build has recorded {', '.join(missing)}: build all programs first", file=sys.stderr)
        return 2
    took = {it: max(round(recorded(it)["seconds"]), 1) for it in names}
    for name, seconds in took.items():
        print(f"{name:<18} {seconds:4} s, for {seconds_of(name):4.0f} expected")
    TABLE.write_text(json.dumps({"sorting": round(sorting_seconds()[0], 5), "crates": took}, indent=2) + "\n")
    return 0


if __name__ == "__main__":
    sys.exit(main())
