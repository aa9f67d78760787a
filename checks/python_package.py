#!/usr/bin/env python3
"""Runs the tests of the Python package with the built lifepipe, by each Python here, and installs it by pip.

    checks/python_package.py

The Pythons are the one of this script and /usr/bin/python3, to which Debian's numpy belongs. Where numpy is not there,
its rows are skipped, and a line says so. The wheel is installed into an empty folder, without a network, and imported
from there.
"""
import argparse
import os
import pathlib
import re
import subprocess
import sys
import tempfile

from common.check import BUILT_PIPE, Check, end, sum_up
from common.program import ROOT

CHECK = Check(
    text=__doc__,
    needs=(BUILT_PIPE,),
    takes="10 s",
    replay="run it again.",
)
TESTS = ["-W", "error::ResourceWarning", "-m", "unittest", "discover", "-s", "python/tests", "-t", "python"]
CODE = "import lifebatch; it = lifebatch.parse('x = 1, y = 1\\no!'); print(lifebatch.__file__, it.population)"


def pythons() -> list[str]:
    """The Pythons, each once."""
    found = {os.path.realpath(it): it for it in (sys.executable, "/usr/bin/python3") if os.access(it, os.X_OK)}
    return list(found.values())


def passes(python: str, pipe: pathlib.Path) -> bool:
    ran = subprocess.run(
        [python, *TESTS], cwd=ROOT, env={**os.environ, "LIFEBATCH_PIPE": str(pipe)}, capture_output=True, text=True
    )
    said = re.search(r"^(OK|FAILED)(.*)", ran.stderr, re.MULTILINE)
    without = ", without numpy" if said and "skipped" in said[2] else ""
    print(f"    {python}: {said[0] if said else 'no end'}{without}")
    if ran.returncode:
        print(ran.stderr)
    return ran.returncode == 0


def installs(pipe: pathlib.Path) -> bool:
    """By pip, into an empty folder."""
    with tempfile.TemporaryDirectory() as folder:
        words = [
            sys.executable,
            "-m",
            "pip",
            "install",
            "--quiet",
            "--no-index",
            "--disable-pip-version-check",
            "--target",
            folder,
            str(ROOT / "python"),
        ]
        installed = subprocess.run(words, cwd=folder, capture_output=True, text=True)
        environment = {**os.environ, "LIFEBATCH_PIPE": str(pipe), "PYTHONPATH": folder}
        ran = subprocess.run([sys.executable, "-c", CODE], cwd=folder, env=environment, capture_output=True, text=True)
        return installed.returncode == 0 and ran.stdout == f"{folder}/lifebatch/__init__.py 1\n"


def main() -> int:
    options: argparse.Namespace = CHECK.options(CHECK.parser())
    pipe = options.pipe.resolve()
    held = []
    for python in pythons():
        held.append(passes(python, pipe))
        print(f"{'holds' if held[-1] else 'differs':8} the tests of the package, by {python}", flush=True)
    held.append(installs(pipe))
    print(f"{'holds' if held[-1] else 'differs':8} pip installs the package without a network")
    return sum_up(held, "rows")


if __name__ == "__main__":
    end(main)
