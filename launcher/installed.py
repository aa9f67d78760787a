"""The files that launcher/build.py installs and launcher/package.py packs: which, and how they come and go."""
import os
import pathlib
from dataclasses import dataclass
from typing import Union

import completions
from crates import PROGRAMS, ROOT, Program
from kit import Failed
from man_page import man_page

# Below the folder of an installation: the programs themselves, Golly's scripts, and what an installation has written.
LIBRARY = "lib/lifebatch"
SCRIPTS = "share/golly/Scripts/Lua/Lifebatch"
# Where the folder `lifebatch` of the Python package lies: one place for installations, and one for Debian's packages,
# which is on Python's path.
PYTHON, PYTHON_OF_PACKAGES = f"{LIBRARY}/python", "lib/python3/dist-packages"
LIST = f"{LIBRARY}/installed.txt"
# Where zsh looks for completions: one place for systems, one for their packages.
ZSH, ZSH_OF_PACKAGES = "share/zsh/site-functions", "share/zsh/vendor-completions"
START = '. "$root/launcher/start.sh"\n'


@dataclass(frozen=True)
class File:
    """The contents of a file, or the file that has them, and whether it can be run."""

    contents: Union[str, bytes, pathlib.Path]
    runs: bool = False

    def read(self) -> bytes:
        if isinstance(self.contents, pathlib.Path):
            return self.contents.read_bytes()
        return self.contents.encode() if isinstance(self.contents, str) else self.contents


Files = dict[str, File]


def built_programs() -> dict[str, pathlib.Path]:
    return {name: Program(name).built for name in PROGRAMS}


def command(name: str) -> str:
    """The script that calls an installed program: ./NAME with another end, and without the folder `launcher`."""
    before, start, after = (ROOT / name).read_text(encoding="utf-8").partition(START)
    if not start or after:
        raise Failed(f"./{name} does not end with {START.strip()}")
    lines = before.replace(", which is proved and built first where it is not.", ".")
    call = (ROOT / "launcher" / "call.sh").read_text(encoding="utf-8")
    place = f"endings=${{endings-}}\nprogram=$root/../{LIBRARY}/{name}\n"
    return f'{lines}set -u\n{place}\n{call}\ntest_output "$@" || exit\ncall "$@"\n'


def files_of(name: str, built: pathlib.Path, zsh: str) -> Files:
    """The files of a program."""
    return {
        f"bin/{name}": File(command(name), runs=True),
        f"{LIBRARY}/{name}": File(built, runs=True),
        f"share/man/man1/{name}.1": File(man_page(name)),
        f"share/bash-completion/completions/{name}": File(completions.bash(name)),
        f"{zsh}/_{name}": File(completions.zsh(name)),
        f"share/fish/vendor_completions.d/{name}.fish": File(completions.fish(name)),
    }


def python_files(place: str) -> Files:
    """The files of the Python package."""
    package = ROOT / "python" / "lifebatch"
    return {f"{place}/lifebatch/{it.name}": File(it) for it in [*sorted(package.glob("*.py")), package / "py.typed"]}


def all_files(built: dict[str, pathlib.Path], zsh: str = ZSH, python: str = PYTHON) -> Files:
    """All files, by their places below the folder of an installation."""
    found: Files = {}
    for name, path in built.items():
        found.update(files_of(name, path, zsh))
    for it in sorted((ROOT / "golly").glob("*.lua")):
        found[f"{SCRIPTS}/{it.name}"] = File(it)
    return {**found, **python_files(python)}


def write(file: File, path: pathlib.Path) -> None:
    """Writes a file in one step, so that a program that runs is not changed."""
    new = path.with_name(path.name + ".new")
    new.write_bytes(file.read())
    new.chmod(0o755 if file.runs else 0o644)
    os.replace(new, path)


def new_folders(places: list[str], root: pathlib.Path) -> list[str]:
    """The folders above these places that are not there yet, those above others first."""
    parents = {parent for it in places for parent in pathlib.PurePath(it).parents if str(parent) != "."}
    return [str(it) for it in sorted(parents) if not (root / it).is_dir()]


def listed(root: pathlib.Path) -> list[str]:
    """What an installation wrote: files, then the folders that it made, which end with a slash."""
    path = root / LIST
    return path.read_text(encoding="utf-8").splitlines() if path.is_file() else []


def install(files: Files, root: pathlib.Path) -> None:
    """Writes all files below a folder, in place of those of an earlier installation. Files of others stay as they
    are."""
    earlier = listed(root)
    strange = [it for it in [*files, LIST] if os.path.lexists(root / it) and it not in earlier]
    if strange:
        raise FileExistsError(f"{root / strange[0]} is there, and no installation has written it")
    uninstall(root)
    folders = new_folders([*files, LIST], root)
    for it in folders:
        (root / it).mkdir(parents=True)
        (root / it).chmod(0o755)
    names = [*files, LIST, *(f"{it}/" for it in folders)]
    write(File("\n".join(names) + "\n"), root / LIST)
    for place, file in files.items():
        write(file, root / place)


def uninstall(root: pathlib.Path) -> int:
    """Takes away what an installation has written, and its folders where they are empty. Returns how many files there
    were."""
    names = listed(root)
    files = [it for it in names if not it.endswith("/")]
    # The list goes last, so that a call that was interrupted can be repeated.
    for it in sorted(files, key=lambda it: it == LIST):
        (root / it).unlink(missing_ok=True)
    for it in reversed([it for it in names if it.endswith("/")]):
        if (root / it).is_dir() and not any((root / it).iterdir()):
            (root / it).rmdir()
    return len(files)
