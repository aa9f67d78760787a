"""Where the program lifepipe is."""
import os
import pathlib
import shutil
from collections.abc import Iterator

from .errors import NoProgram

# An environment variable with the path of the program.
VARIABLE = "LIFEBATCH_PIPE"
HERE = pathlib.Path(__file__).resolve().parent


def beside() -> Iterator[pathlib.Path]:
    """The program in the checkout, or in the installation, that this package is a part of."""
    above = HERE.parent.parent
    yield above / "crates" / "lifepipe" / "out" / "lifepipe" if (above / "crates").is_dir() else above / "lifepipe"


def on_path() -> Iterator[pathlib.Path]:
    """The program on the PATH. In an installation that is a script, which calls the program in the folder beside."""
    found = shutil.which("lifepipe")
    if found:
        yield pathlib.Path(found).resolve().parent.parent / "lib" / "lifebatch" / "lifepipe"
        yield pathlib.Path(found)


def can_run(path: pathlib.Path) -> bool:
    return path.is_file() and os.access(path, os.X_OK)


def find_program() -> str:
    """The path of lifepipe: that in LIFEBATCH_PIPE, else that beside this package, else the one on the PATH."""
    given = os.environ.get(VARIABLE)
    if given:
        if not can_run(pathlib.Path(given)):
            raise NoProgram(f"{VARIABLE} is {given}, which is no program")
        return given
    found = next((str(it) for it in (*beside(), *on_path()) if can_run(it)), None)
    if found is None:
        raise NoProgram(
            "lifepipe is not built: run launcher/build.py lifepipe in a checkout of lifebatch,"
            f" or set {VARIABLE} to the path of the program"
        )
    return found
