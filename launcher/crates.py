"""The crates of this repository: what each uses, where it stands, and what it was proved from."""
import functools
import hashlib
import os
import pathlib
import re
import shlex
from dataclasses import dataclass

from kit import kit

ROOT = pathlib.Path(__file__).resolve().parent.parent
PROGRAMS = ["lifebatch", "lifeview", "lifeperiod", "lifepipe"]

# Crates, lowest first, each with the crates that it uses.
Crates = dict[str, list[str]]


def lines_of_crates(root: pathlib.Path = ROOT) -> dict[str, str]:
    """The lines of crates.txt by crate, without comments."""
    lines = [it.partition("#")[0].strip() for it in (root / "crates.txt").read_text().splitlines()]
    return {re.match(r"\w+", it)[0]: it for it in lines if it}


def used_by() -> dict[str, list[str]]:
    """For each crate the crates that it uses, including the kit's."""
    return {name: line.partition(":")[2].split() for name, line in lines_of_crates().items()}


def crates_below(program: str) -> Crates:
    """The program and the crates below it, lowest first, each with the crates that it uses."""
    listed = used_by()
    needed = {program}
    for name in reversed(listed):
        if name in needed:
            needed.update(listed[name])
    return {name: [it for it in below if it in listed] for name, below in listed.items() if name in needed}


def all_below(crates: Crates) -> dict[str, set[str]]:
    """For each crate those that it uses, directly or through others."""
    found = {}
    for name, below in crates.items():
        found[name] = set(below).union(*(found[it] for it in below))
    return found


def folder(name: str) -> pathlib.Path:
    return ROOT / "crates" / name


def library(name: str) -> pathlib.Path:
    return folder(name) / "out" / "library" / f"{name}.rlib"


def sum_file(name: str) -> pathlib.Path:
    """The file with the checksum of all that a library, or the program, was proved from."""
    return library(name).with_name("sum")


@functools.cache
def sum_of(name: str) -> str:
    """A checksum of all that a crate is proved from: its line, its files, the crates below it, and the kit."""
    files = [
        it for part in ("src", "specs", "proofs") for it in sorted((folder(name) / part).glob("**/*")) if it.is_file()
    ]
    said = [lines_of_crates()[name], (kit() / "KIT-ID").read_text()]
    said += [f"{it.relative_to(ROOT)} {hashlib.sha256(it.read_bytes()).hexdigest()}" for it in files]
    said += [sum_of(it) for it in used_by()[name] if it in lines_of_crates()]
    return hashlib.sha256("\n".join(said).encode()).hexdigest()


@dataclass(frozen=True)
class Program:
    name: str

    @property
    def built(self) -> pathlib.Path:
        return folder(self.name) / "out" / self.name

    @property
    def new(self) -> pathlib.Path:
        """The program until its help was tried."""
        return self.built.with_suffix(".new")

    @property
    def began(self) -> pathlib.Path:
        """A file with the time at which the last successful build began, for launcher/start.sh."""
        return self.built.with_suffix(".built")

    def is_proved(self, crate: str) -> bool:
        made = self.built if crate == self.name else library(crate)
        return made.exists() and sum_file(crate).is_file() and sum_file(crate).read_text() == sum_of(crate)

    def keep_time(self, crates: Crates, began: float) -> None:
        """Writes the file that launcher/start.sh reads. If it fails, there is none, or the old one."""
        unfinished = self.began.with_suffix(".tests")
        unfinished.write_text(self.tests(crates))
        os.utime(unfinished, (began, began))
        unfinished.rename(self.began)

    def tests(self, crates: Crates) -> str:
        """A script that returns 0 if code or contracts are newer than itself. A file that comes or goes changes its
        folder."""
        lines = [[ROOT / "crates.txt"]]
        lines += [
            [it, *sorted(it.glob("**/*"))] for name in crates for it in (folder(name) / "src", folder(name) / "specs")
        ]
        paths = [" ".join(shlex.quote(os.path.relpath(it, self.began.parent)) for it in line) for line in lines]
        words = " \\\n".join(["for file in", *paths])
        return f'{words}\ndo\n    test "$file" -nt {self.began.name} && return 0\ndone\nreturn 1\n'
