"""What a check is: what it checks, what it needs, how long it takes, and how it ends."""
import argparse
import os
import pathlib
import shutil
import subprocess
import sys
import traceback
from collections.abc import Callable, Sequence
from dataclasses import dataclass

from common.program import PATTERNS, PERIOD, PIPE, PROGRAM, VIEW, games_path

HOLDS, DIFFERS, NOT_RUN = 0, 1, 2

STATUSES = """The status is
  0  if everything holds,
  1  if something differs,
  2  if something could not run, or nothing was compared."""


class CannotRun(Exception):
    """Why a check can't run."""


@dataclass(frozen=True)
class Need:
    """A thing that a check needs, what brings it, and whether it is there."""

    name: str
    brings: str
    is_there: Callable[[argparse.Namespace], bool]


def tool(name: str, package: str) -> Need:
    """A command that has to be on the PATH."""
    return Need(name, f"apt-get install {package} brings it", lambda _: shutil.which(name) is not None)


# The Python to which the modules belong that Debian has.
DEBIAN_PYTHON = "/usr/bin/python3"


def module(name: str, package: str) -> Need:
    """A module of Debian's Python."""
    code = f"import importlib.util, sys; sys.exit(importlib.util.find_spec({name!r}) is None)"

    def is_there(_: argparse.Namespace) -> bool:
        return can_run(pathlib.Path(DEBIAN_PYTHON)) and subprocess.run([DEBIAN_PYTHON, "-c", code]).returncode == 0

    return Need(f"{name} of {DEBIAN_PYTHON}", f"apt-get install {package} brings it", is_there)


def can_run(program: pathlib.Path) -> bool:
    return program.is_file() and os.access(program, os.X_OK)


def has_patterns(options: argparse.Namespace) -> bool:
    """Whether there is a folder of patterns: the one that is given, or Golly's."""
    return getattr(options, "folder", PATTERNS).is_dir()


BUILT = Need("the built program", "launcher/build.py lifebatch builds it", lambda options: can_run(options.program))
BUILT_VIEW = Need(
    "the built program lifeview", "launcher/build.py lifeview builds it", lambda options: can_run(options.view)
)
BUILT_PERIOD = Need(
    "the built program lifeperiod", "launcher/build.py lifeperiod builds it", lambda options: can_run(options.period)
)
BUILT_PIPE = Need(
    "the built program lifepipe", "launcher/build.py lifepipe builds it", lambda options: can_run(options.pipe)
)
BGOLLY = tool("bgolly", "golly")
GOLLY_PATTERNS = Need("the folder of Golly's patterns", "apt-get install golly brings it", has_patterns)
GOLLY = Need("golly", "apt-get install golly brings it", lambda _: shutil.which("golly", path=games_path()) is not None)
XVFB = tool("xvfb-run", "xvfb")
C_COMPILER = tool("cc", "gcc libc6-dev")
PGREP = tool("pgrep", "procps")
PARALLEL = tool("parallel", "parallel")
FFMPEG = tool("ffmpeg", "ffmpeg")
PNGCHECK = tool("pngcheck", "pngcheck")
SHLIBDEPS = tool("dpkg-shlibdeps", "dpkg-dev")
DASK = module("distributed", "python3-distributed")
NOTEBOOKS = (
    module("nbconvert", "jupyter-nbconvert"),
    module("ipykernel", "python3-ipykernel"),
    module("matplotlib", "python3-matplotlib"),
    module("numpy", "python3-numpy"),
)


def add_program(parser: argparse.ArgumentParser) -> None:
    parser.add_argument("--program", type=pathlib.Path, default=PROGRAM, help="another build of lifebatch")


def add_view(parser: argparse.ArgumentParser) -> None:
    parser.add_argument("--view", type=pathlib.Path, default=VIEW, help="another build of lifeview")


def add_period(parser: argparse.ArgumentParser) -> None:
    parser.add_argument("--period", type=pathlib.Path, default=PERIOD, help="another build of lifeperiod")


def add_pipe(parser: argparse.ArgumentParser) -> None:
    parser.add_argument("--pipe", type=pathlib.Path, default=PIPE, help="another build of lifepipe")


@dataclass(frozen=True)
class Check:
    """A script of this folder. The first line of its text says what it checks."""

    text: str
    needs: tuple[Need, ...]
    takes: str
    # How to run one failure again.
    replay: str
    # The options of a quick run, if it has any, and how long that takes.
    quick: tuple[str, ...] = ()
    quickly: str = ""

    def summary(self) -> str:
        return self.text.splitlines()[0]

    def missing(self, options: argparse.Namespace) -> list[Need]:
        return [it for it in self.needs if not it.is_there(options)]

    def time(self) -> str:
        quickly = f", and {self.quickly} with {' '.join(self.quick)}" if self.quick else ""
        return f"It takes {self.takes}{quickly}."

    def help_text(self) -> str:
        needs = "".join(f"\n  {it.name}: {it.brings}" for it in self.needs) or " nothing."
        parts = self.text.strip(), f"It needs{needs}", self.time(), STATUSES, f"To replay a failure, {self.replay}"
        return "\n\n".join(parts)

    def parser(self) -> argparse.ArgumentParser:
        parser = argparse.ArgumentParser(
            description=self.help_text(), formatter_class=argparse.RawDescriptionHelpFormatter
        )
        if BUILT in self.needs:
            add_program(parser)
        if BUILT_VIEW in self.needs:
            add_view(parser)
        if BUILT_PERIOD in self.needs:
            add_period(parser)
        if BUILT_PIPE in self.needs:
            add_pipe(parser)
        return parser

    def options(self, parser: argparse.ArgumentParser) -> argparse.Namespace:
        """The options of this call. Fails if something that the check needs is missing."""
        options = parser.parse_args()
        missing = [f"{it.name} is not there: {it.brings}" for it in self.missing(options)]
        if missing:
            raise CannotRun("; ".join(missing))
        return options


def status_of(compared: int, differing: int) -> int:
    """The status after some comparisons."""
    if differing:
        return DIFFERS
    if compared:
        return HOLDS
    raise CannotRun("nothing was compared")


def sum_up(held: Sequence[bool], what: str) -> int:
    """Prints how many rows, lines or others of a check hold, and returns its status."""
    differing = len(held) - sum(held)
    print(f"{sum(held)} {what} hold, {differing} differ")
    return status_of(len(held), differing)


def end(main: Callable[[], int]) -> None:
    """Calls a script's main function, and ends with its status. If the script itself fails, the status is that of a
    check that could not run."""
    try:
        sys.exit(main())
    except CannotRun as reason:
        print(f"cannot run: {reason}", file=sys.stderr)
    except BrokenPipeError:
        # The reader of its output is gone.
        os.dup2(os.open(os.devnull, os.O_WRONLY), sys.stdout.fileno())
    except Exception:
        traceback.print_exc()
    sys.exit(NOT_RUN)
