"""What the checks and bench/ take from the launcher: how it reads crates.txt, plans a build, and calls a program."""
import re
import sys

from common.program import ROOT

sys.path.append(str(ROOT / "launcher"))
# They stand in a folder of their own.
from crates import PROGRAMS, crates_below, lines_of_crates
from pace import Pace, cores_of
from plan import Plan

__all__ = ["PROGRAMS", "Pace", "Plan", "cores_of", "crates_below", "lines_of_crates", "malloc_settings"]

SETTING = re.compile(r'export (\w+)="\$\{\1-([^}"]+)\}"')


def malloc_settings() -> dict[str, str]:
    """The variables that the launcher sets for a program, where its caller has not set them."""
    return dict(SETTING.findall((ROOT / "launcher" / "call.sh").read_text(encoding="utf-8")))
