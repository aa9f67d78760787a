#!/usr/bin/env python3
"""Makes a Debian package of the built programs, with their man pages, completions, Golly's
scripts and the Python package.

    launcher/package.py                     write lifebatch_VERSION_ARCHITECTURE.deb into this folder
    launcher/package.py --to FOLDER         write it there
    launcher/package.py --built FOLDER      pack the programs of this folder, and not those of crates/NAME/out

Build all programs first (launcher/build.py NAME). Another machine installs the package by `apt install
./lifebatch_*.deb`, without the kit. What it depends on is what the programs link, as dpkg-shlibdeps says (Debian:
apt-get install dpkg-dev). The version is that of CHANGELOG.md; the package also says the commit and the kit's logic.
The status is 0 if the package was written, else 2, or 3 if a file could not be read or written.
"""
import argparse
import gzip
import hashlib
import os
import pathlib
import re
import subprocess
import sys
import tempfile
import textwrap
import time
from calendar import timegm

from crates import PROGRAMS, Program, crates_below
from help_text import help_of
from installed import PYTHON_OF_PACKAGES, ZSH_OF_PACKAGES, File, Files, all_files, built_programs, write
from kit import Failed, processor
from version import Release, printed, releases, whole_version

NAME = "lifebatch"
# How long the lines of texts are.
WIDTH = 76
DOCS = f"share/doc/{NAME}"
CONTROL = """Package: {name}
Version: {version}
Architecture: {architecture}
Maintainer: {maintainer}
Installed-Size: {size}
Depends: {depends}
Recommends: python3
Suggests: golly, python3-numpy
Section: science
Priority: optional
Description: HashLife for Golly's pattern files on the command line
{description}
"""
COPYRIGHT = """{name}
Copyright (c) {year} its authors.

No licence has been chosen: none is given with this package. Who may copy, change
or hand on what is in it is for its authors to say. The owner of the copy of the
repository from which it was built is {maintainer}.
"""
# lintian takes a name in an executable for a fault of its builder. These are as the kit's linker wrote them.
OVERRIDES = (
    f"# The programs are packed as they were built, with their symbols.\n{NAME}: unstripped-binary-or-object *\n"
)


def run(words: list[str], **how) -> str:
    """What a command prints."""
    try:
        return subprocess.run(
            words, stdin=subprocess.DEVNULL, capture_output=True, text=True, check=True, **how
        ).stdout.strip()
    except FileNotFoundError as error:
        raise Failed(f"{words[0]} is not there (Debian: apt-get install dpkg-dev)") from error
    except subprocess.CalledProcessError as error:
        raise Failed(f"{words[0]} fails: {error.stderr.strip()}") from error


def depends(built: dict[str, pathlib.Path]) -> str:
    """The packages of what the programs link."""
    with tempfile.TemporaryDirectory() as name:
        folder = pathlib.Path(name)
        (folder / "debian").mkdir()
        (folder / "debian" / "control").write_text(f"Source: {NAME}\n\nPackage: {NAME}\nArchitecture: any\n")
        said = run(["dpkg-shlibdeps", "-O", *(f"-e{path.resolve()}" for path in built.values())], cwd=folder)
    return said.partition("shlibs:Depends=")[2]


def described(built: dict[str, pathlib.Path], are_proved: bool) -> str:
    """The lines of the long description."""
    texts = [f"{name}: {help_of(name).summary}" for name in built]
    texts.append(f"This is version {whole_version()}.")
    if are_proved:
        texts.append(
            "The code was proved where the package was built: a run that ends with status 0 writes what the rule of the"
            " pattern gives."
        )
    if processor():
        texts.append(f"The programs need a processor with the features of {processor()[1]}.")
    return "\n .\n".join(textwrap.fill(it, WIDTH, initial_indent=" ", subsequent_indent=" ") for it in texts)


def changes(release: Release, maintainer: str) -> str:
    """An entry of Debian's form of a list of changes."""
    day = time.strftime("%a, %d %b %Y 00:00:00 +0000", time.strptime(release.date, "%Y-%m-%d"))
    items = "\n".join(textwrap.fill(it, WIDTH, initial_indent="  * ", subsequent_indent="    ") for it in release.items)
    return f"{NAME} ({release.number}) unstable; urgency=medium\n\n{items}\n\n -- {maintainer}  {day}\n"


def packed(text: bytes) -> File:
    return File(gzip.compress(text, mtime=0))


def package_files(built: dict[str, pathlib.Path], maintainer: str) -> Files:
    """The files of an installation below /usr, with manuals packed, and those that Debian asks for."""
    files = all_files(built, ZSH_OF_PACKAGES, PYTHON_OF_PACKAGES)
    found = {place: it for place, it in files.items() if "/man/" not in place}
    found |= {f"{place}.gz": packed(it.read()) for place, it in files.items() if "/man/" in place}
    found[f"{DOCS}/changelog.gz"] = packed("\n".join(changes(it, maintainer) for it in releases()).encode())
    found[f"{DOCS}/copyright"] = File(COPYRIGHT.format(name=NAME, year=releases()[0].date[:4], maintainer=maintainer))
    found[f"share/lintian/overrides/{NAME}"] = File(OVERRIDES)
    return found


def write_all(files: Files, root: pathlib.Path) -> None:
    """Writes files below a folder. Everybody may read its folders."""
    for place, file in files.items():
        (root / place).parent.mkdir(parents=True, exist_ok=True)
        write(file, root / place)
    for it in [root, *root.rglob("*")]:
        if it.is_dir():
            it.chmod(0o755)


def make_package(built: dict[str, pathlib.Path], are_proved: bool, options: argparse.Namespace) -> pathlib.Path:
    """Writes the package, and returns its path."""
    release, architecture = releases()[0], run(["dpkg", "--print-architecture"])
    files = {f"usr/{place}": it for place, it in package_files(built, options.maintainer).items()}
    said = {"name": NAME, "version": release.number, "architecture": architecture, "maintainer": options.maintainer}
    said |= {"size": sum(len(it.read()) for it in files.values()) // 1024 + 1, "depends": depends(built)}
    control = CONTROL.format(**said, description=described(built, are_proved))
    sums = "".join(f"{hashlib.md5(it.read()).hexdigest()}  {place}\n" for place, it in sorted(files.items()))
    path = options.to / f"{NAME}_{release.number}_{architecture}.deb"
    # One time for all files: the same files make the same package.
    date = str(timegm(time.strptime(release.date, "%Y-%m-%d")))
    with tempfile.TemporaryDirectory() as name:
        write_all({**files, "DEBIAN/control": File(control), "DEBIAN/md5sums": File(sums)}, pathlib.Path(name))
        run(
            ["dpkg-deb", "--root-owner-group", "--build", name, str(path)],
            env={**os.environ, "SOURCE_DATE_EPOCH": date},
        )
    return path


def chosen(options: argparse.Namespace) -> dict[str, pathlib.Path]:
    """The programs to pack. Fails if one is not there, or is none that was built of this code."""
    if not options.built:
        late = [it for it in PROGRAMS if not all(map(Program(it).is_proved, crates_below(it)))]
        if late:
            raise Failed(f"{late[0]} is not built, or older than its code: launcher/build.py {late[0]} builds it")
        return built_programs()
    return {name: options.built / name for name in PROGRAMS}


def maintainer() -> str:
    """Who made the last commit of this copy."""
    return printed("git", "log", "-1", "--format=%an <%ae>")


def parsed() -> argparse.Namespace:
    parser = argparse.ArgumentParser(description=__doc__.strip(), formatter_class=argparse.RawDescriptionHelpFormatter)
    parser.add_argument(
        "--to",
        type=pathlib.Path,
        default=pathlib.Path(),
        metavar="FOLDER",
        help="the folder for the package (this one)",
    )
    parser.add_argument("--built", type=pathlib.Path, metavar="FOLDER", help="the folder of the programs")
    parser.add_argument(
        "--maintainer", default=maintainer(), help="the maintainer, as 'NAME <MAIL>' (who made the last commit)"
    )
    options = parser.parse_args()
    if not re.fullmatch(r"[^<>\n]+ <\S+@\S+>", options.maintainer):
        parser.error("give --maintainer 'NAME <MAIL>'")
    return options


def main() -> int:
    options = parsed()
    try:
        print(make_package(chosen(options), not options.built, options))
        return 0
    except (Failed, OSError) as error:
        print(f"package.py: {error}", file=sys.stderr)
        return 3 if isinstance(error, OSError) else 2


if __name__ == "__main__":
    sys.exit(main())
