#!/usr/bin/env python3
"""Prints what a copy of some crates needs: the folders of these and of all below them, with their lines of crates.txt.

    checks/crates_below.py engine
    checks/crates_below.py batch_program view_program --folders    the folders only, one on a line

Crates of the kit (arrayvec, rayon and others) come with the kit and are left out.
"""
import argparse

from common.launcher import crates_below, lines_of_crates


def main() -> None:
    parser = argparse.ArgumentParser(description=__doc__, formatter_class=argparse.RawDescriptionHelpFormatter)
    parser.add_argument("names", nargs="+", metavar="CRATE", help="the crates that are used")
    parser.add_argument("--folders", action="store_true", help="print the folders only")
    options = parser.parse_args()
    lines = lines_of_crates()
    if unknown := [it for it in options.names if it not in lines]:
        parser.error(f"crates.txt has no {', '.join(unknown)}")
    needed = set().union(*(crates_below(it) for it in options.names))
    for name in (it for it in lines if it in needed):
        print(f"crates/{name}" if options.folders else f"crates/{name}\t{lines[name]}")


if __name__ == "__main__":
    main()
