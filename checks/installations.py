#!/usr/bin/env python3
"""Installs the programs into an empty folder, and by dpkg into an empty root, and takes them away again.

    checks/installations.py

The folder gets programs of a kit that proves nothing, the package those that are built here. Every man page has to list
the options of its program's help, and the exit statuses and refusals of docs/formats.md; bash, zsh and fish have to
offer the same options. What groff, lintian, zsh and fish would say is left out where they are not there, and a line
says so.
"""
import functools
import gzip
import os
import pathlib
import re
import shutil
import subprocess
import tempfile
from collections.abc import Callable

from common.check import BUILT, BUILT_VIEW, SHLIBDEPS, CannotRun, Check, end, sum_up
from common.fake_kit import Repository
from common.manuals import faults_of_page, offered_by_bash, offered_by_fish, offered_by_zsh, options_of, printed
from common.program import ROOT
from common.programs import all_programs

CHECK = Check(
    text=__doc__,
    needs=(BUILT, BUILT_VIEW, SHLIBDEPS),
    takes="15 s",
    replay="run it again; the rows build on those before them.",
)

VERSION = re.search(r"^## (\S+),", (ROOT / "CHANGELOG.md").read_text(encoding="utf-8"), re.MULTILINE)[1]
SCRIPTS = "share/golly/Scripts/Lua/Lifebatch"
MAINTAINER = "A Person <person@mail.org>"


def has(name: str) -> bool:
    """Whether a tool is there, so that what it says counts."""
    if shutil.which(name) is None:
        print(f"    {name} is not there (Debian: apt-get install {name}), so what it says is left out")
    return shutil.which(name) is not None


class Places:
    """A copy of the launcher with an empty folder, and the programs with a package of them in an empty root."""

    def __init__(self, folder: pathlib.Path, programs: dict[str, pathlib.Path]):
        self.programs, self.prefix, self.root = programs, folder / "an empty place", folder / "root"
        (folder / "repository").mkdir()
        self.repository = Repository(folder / "repository")
        self.built = folder / "built"
        self.built.mkdir()
        for name, path in programs.items():
            shutil.copy(path, self.built / name)
        for name in ("info", "updates"):
            (self.root / "var" / "lib" / "dpkg" / name).mkdir(parents=True)
        (self.root / "var" / "lib" / "dpkg" / "status").touch()

    def build(self, *words: str | pathlib.Path) -> tuple[int, str]:
        """A call of launcher/build.py: its status and its messages."""
        script = self.repository.folder / "launcher" / "build.py"
        ran = subprocess.run(
            [script, *words],
            env=self.repository.environment(),
            stdin=subprocess.DEVNULL,
            capture_output=True,
            text=True,
        )
        return ran.returncode, ran.stderr

    def installed(self) -> set[str]:
        return {str(it.relative_to(self.prefix)) for it in self.prefix.rglob("*") if not it.is_dir()}

    @functools.cached_property
    def package(self) -> pathlib.Path:
        words = [
            ROOT / "launcher" / "package.py",
            "--built",
            self.built,
            "--to",
            self.root.parent,
            "--maintainer",
            MAINTAINER,
        ]
        said = printed(*words).strip()
        if not said.endswith(".deb"):
            raise CannotRun(said)
        return pathlib.Path(said)

    def dpkg(self, *words: str | pathlib.Path) -> int:
        # The empty root has no C library.
        options = ["--force-depends", "--force-not-root", f"--log={self.root / 'log'}"]
        return subprocess.run(
            ["dpkg", f"--root={self.root}", *options, *words], stdin=subprocess.DEVNULL, capture_output=True
        ).returncode

    def man_page(self, name: str) -> str:
        return gzip.decompress((self.root / "usr" / "share" / "man" / "man1" / f"{name}.1.gz").read_bytes()).decode()


def installs(it: Places) -> bool:
    status, said = it.build("--install", it.prefix)
    files = it.installed()
    wanted = {f"{SCRIPTS}/{path.name}" for path in (ROOT / "golly").glob("*.lua")}
    for name in it.programs:
        wanted |= {
            f"bin/{name}",
            f"lib/lifebatch/{name}",
            f"share/man/man1/{name}.1",
            f"share/bash-completion/completions/{name}",
        }
        wanted |= {f"share/zsh/site-functions/_{name}", f"share/fish/vendor_completions.d/{name}.fish"}
    return status == 0 and wanted <= files and VERSION in said


def runs(it: Places) -> bool:
    """By its path, by a link, and on the PATH."""
    link = it.prefix.with_name("link")
    link.symlink_to(it.prefix / "bin" / "lifebatch")
    ran = [printed(word, "-m", "a b") for word in (it.prefix / "bin" / "lifebatch", link)]
    ran.append(printed("env", f"PATH={it.prefix / 'bin'}:{os.environ['PATH']}", "lifebatch", "-m", "a b"))
    refused = subprocess.run([it.prefix / "bin" / "lifeview", "-o", "no/x.png"], capture_output=True, text=True)
    return ran == ["ran: -m a b\n"] * 3 and (refused.returncode, refused.stderr.count("\n")) == (3, 1)


def replaces(it: Places) -> bool:
    before = it.installed()
    command = it.prefix / "bin" / "lifebatch"
    text = command.read_text()
    command.write_text("an earlier one\n")
    (it.prefix / "bin" / "another").touch()
    return (
        it.build("--install", it.prefix)[0] == 0
        and it.installed() == before | {"bin/another"}
        and command.read_text() == text
    )


def uninstalls(it: Places) -> bool:
    first, second = it.build("--uninstall", it.prefix)[0], it.build("--uninstall", it.prefix)[0]
    left = {str(path.relative_to(it.prefix)) for path in it.prefix.rglob("*")}
    return (first, second) == (0, 2) and left == {"bin", "bin/another"}


def keeps_other_files(it: Places) -> bool:
    (it.prefix / "bin" / "lifeview").write_text("of somebody else\n")
    status, said = it.build("--install", it.prefix)
    return (status, it.installed()) == (3, {"bin/another", "bin/lifeview"}) and "bin/lifeview is there" in said


def tells_version(it: Places) -> bool:
    return all(f"version {VERSION} (commit " in it.build(name, "--about")[1] for name in it.programs)


def packs(it: Places) -> bool:
    """What the package says of itself."""
    said = printed("dpkg-deb", "--field", it.package)
    first = it.package.read_bytes()
    del it.package
    linked = printed("ldd", *it.built.iterdir())
    are_of_c = not re.search(r"^\t(?!linux-vdso|libc\.so|libm\.so|/lib64/ld-linux)", linked, re.MULTILINE)
    fields = [f"Version: {VERSION}\n", "Depends: libc6 (>= 2.", f"Maintainer: {MAINTAINER}\n", "logic ", "commit "]
    return are_of_c and all(field in said for field in fields) and it.package.read_bytes() == first


def pleases_lintian(it: Places) -> bool:
    return not has("lintian") or not re.search("^[EW]: ", printed("lintian", it.package), re.MULTILINE)


def unpacks(it: Places) -> bool:
    status = it.dpkg("--install", it.package)
    ran = printed(it.root / "usr" / "bin" / "lifebatch", "-m", "4", ROOT / "examples" / "glider.rle")
    copyright_text = (it.root / "usr" / "share" / "doc" / "lifebatch" / "copyright").read_text()
    return (status, ran) == (0, "0: 5\n4: 5\n") and "No licence has been chosen: none is given" in copyright_text


def has_right_pages(it: Places) -> bool:
    faults = {name: faults_of_page(it.man_page(name), it.built / name, VERSION) for name in it.programs}
    print("".join(f"    {name}: {', '.join(found)}\n" for name, found in faults.items() if found), end="")
    return not any(faults.values())


def has_good_pages(it: Places) -> bool:
    if not has("groff"):
        return True
    pages = it.root / "usr" / "share" / "man" / "man1"
    warned = [
        subprocess.run(
            ["groff", "-man", "-Tutf8", "-ww"], input=it.man_page(name), capture_output=True, text=True
        ).stderr
        for name in it.programs
    ]
    return len(list(pages.iterdir())) == len(it.programs) and not any(warned)


def completes_in_bash(it: Places) -> bool:
    folder = it.root / "usr" / "share" / "bash-completion" / "completions"
    offered = {name: offered_by_bash(folder / name, name, f"{name} -") for name in it.programs}
    are_all = all(
        {form.rstrip("=") for form in found} == options_of(it.built / name) for name, found in offered.items()
    )
    file = folder / "lifebatch"
    return (
        are_all
        and offered_by_bash(file, "lifebatch", "lifebatch --gen") == ["--generation"]
        and not offered_by_bash(file, "lifebatch", "lifebatch -m -")
    )


def completes_in_fish(it: Places) -> bool:
    if not has("fish"):
        return True
    folder = it.root / "usr" / "share" / "fish" / "vendor_completions.d"
    offered = {
        name: {form.rstrip("=") for form in offered_by_fish(folder / f"{name}.fish", f"{name} --")}
        for name in it.programs
    }
    return all(
        found == {form for form in options_of(it.built / name) if form[:2] == "--"} for name, found in offered.items()
    )


def completes_in_zsh(it: Places) -> bool:
    if not has("zsh"):
        return True
    folder = it.root / "usr" / "share" / "zsh" / "vendor-completions"
    return all(offered_by_zsh(folder / f"_{name}") == options_of(it.built / name) for name in it.programs)


def is_removed(it: Places) -> bool:
    return it.dpkg("--remove", "lifebatch") == 0 and not (it.root / "usr").exists()


# Each row builds on those before it.
ROWS: list[tuple[str, Callable[[Places], bool]]] = [
    ("an installation has every program with its man page and completions, and Golly's scripts", installs),
    (
        "an installed program runs by its path, by a link and on the PATH, and names a file that can't be written",
        runs,
    ),
    ("an installation takes the place of an earlier one", replaces),
    ("what was installed is taken away, and what others have put there stays", uninstalls),
    ("an installation writes over no file of others", keeps_other_files),
    ("--about says the version of CHANGELOG.md", tells_version),
    ("the package says its version, its maintainer and what the programs link, and is the same each time", packs),
    ("lintian finds nothing", pleases_lintian),
    ("dpkg installs the package, whose program runs", unpacks),
    ("the man pages list the options of the help, and the statuses and refusals of the page", has_right_pages),
    ("groff warns of nothing in the man pages", has_good_pages),
    ("bash offers the options of the help", completes_in_bash),
    ("fish offers the options of the help", completes_in_fish),
    ("zsh offers the options of the help", completes_in_zsh),
    ("dpkg takes all away", is_removed),
]


def main() -> int:
    options = CHECK.options(CHECK.parser())
    held = []
    with tempfile.TemporaryDirectory() as name:
        places = Places(pathlib.Path(name), all_programs(options))
        for says, holds in ROWS:
            held.append(holds(places))
            print(f"{'holds  ' if held[-1] else 'differs'}  {says}", flush=True)
    return sum_up(held, "rows")


if __name__ == "__main__":
    end(main)
