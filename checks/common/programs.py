"""All programs that the launcher builds."""
import argparse
import pathlib

from common.check import CannotRun, can_run
from common.program import ROOT


def all_programs(options: argparse.Namespace) -> dict[str, pathlib.Path]:
    """Each program: the build that is given, else that of this repository."""
    names = [it.stem for it in sorted((ROOT / "launcher" / "help").glob("*.txt"))]
    given = {"lifebatch": options.program, "lifeview": options.view}
    found = {name: given.get(name, ROOT / "crates" / name / "out" / name) for name in names}
    missing = [name for name, path in found.items() if not can_run(path)]
    if missing:
        raise CannotRun(f"{', '.join(missing)} not built: launcher/build.py NAME builds a program")
    return {name: path.resolve() for name, path in found.items()}
