"""The Rattle kit: where it is, and the commands that prove and build by it."""
import functools
import pathlib
import re
import subprocess
from collections.abc import Iterable
from typing import Union

TARGET = "x86_64-unknown-linux-gnu"
# Processors whose vectors hold a square of 16 by 16 cells, and the flags that /proc/cpuinfo lists for them.
WIDE = "x86-64-v3"
FLAGS_OF_WIDE = {"abm", "avx", "avx2", "bmi1", "bmi2", "f16c", "fma", "movbe", "xsave"}

# The words of a command.
Words = list[Union[str, pathlib.Path]]


class Failed(Exception):
    """Why nothing can be built, in one line."""


@functools.cache
def kit() -> pathlib.Path:
    """The folder of the kit."""
    try:
        page = subprocess.run(
            ["rt", "doc"], stdin=subprocess.DEVNULL, capture_output=True, text=True, check=True
        ).stdout
    except (OSError, subprocess.CalledProcessError) as error:
        raise Failed(f"rt, the command of the Rattle kit, does not run: {error}") from error
    return pathlib.Path(page.strip()).parent


def processor() -> list[str]:
    """The options that compile the program for this machine's processor, or none to compile it for any."""
    flags = re.search(r"^flags\s*:(.*)", pathlib.Path("/proc/cpuinfo").read_text(), re.MULTILINE)
    return ["--cpu", WIDE] if flags and FLAGS_OF_WIDE <= set(flags[1].split()) else []


def words_of_check(name: str, main: str, uses: Iterable[str], libraries: dict[str, pathlib.Path], jobs: int) -> Words:
    """The arguments for `rattle` that check a crate, which uses these crates, over the libraries of those below it."""
    words = ["--crate-name", name, f"src/{main}.rt", "--jobs", str(jobs)]
    words += ["--antt-project", kit() / "rattle/logic/antt-project.json", "--logic-built", kit() / "logic_built"]
    words += ["-L", f"dependency={kit() / 'rlibs'}"]
    for it in ("std", *uses):
        words += ["--extern", f"{it}={libraries.get(it, kit() / 'rlibs' / f'{it}.rlib')}"]
    for it in libraries.values():
        words += ["-L", f"dependency={it.parent}"]
    return words


def commands_for_library(words: Words, made: pathlib.Path) -> list[Words]:
    """The command that proves a crate and writes its library."""
    return [[kit() / "bin/rattle", "build", *words, "--statements", "-o", made]]


def commands_for_program(words: Words, made: pathlib.Path) -> list[Words]:
    """The commands that prove and build a program and try its help."""
    compiled, toolchain = made.with_suffix(".o"), ["--toolchain", kit() / "toolchain"]
    c_code = [kit() / "c/libos_c.a", kit() / "c/liblibc_c.a"]
    return [
        [kit() / "bin/rattle", "build", *words, *toolchain, "--backend", "llvm", *processor(), "-o", compiled],
        [kit() / "bin/rattle-link", "--target", TARGET, *toolchain, "-o", made, compiled, *c_code],
        [made, "--help"],
    ]
