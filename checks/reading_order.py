#!/usr/bin/env python3
"""Lists the definitions behind a contract's word, and compares docs/ARCHITECTURE.md's counts with them.

    checks/reading_order.py                  compare the counts of the page
    checks/reading_order.py engine::IsRun    the files for IsRun of the crate engine, lowest first, with their counts
    checks/reading_order.py --root FOLDER    the page and the crates of another copy

From the definition of that name the script follows each name in it to the definition in the same file, or to the one
that a line `use Rattle.CRATE.specs..` brings, and to the types of src/ that contracts see. What the kit defines is left
out. Lines are those of the definitions with their comments; lines of `use` don't count.
"""
import pathlib
import re
from collections.abc import Iterator

from common.check import CannotRun, Check, end, status_of
from common.launcher import lines_of_crates
from common.program import ROOT

CHECK = Check(
    text=__doc__,
    needs=(),
    takes="1 s",
    replay="run it again with the name; it prints the files.",
)

PAGE = pathlib.Path("docs") / "ARCHITECTURE.md"
ROW = re.compile(r"\| `([\w:]+)` \| (\d+) \| (\d+) \| ([\d,]+) \|")
USE = re.compile(
    r"^(?:unfoldable )?(?:pub )?use Rattle\.(\w+)\.specs\.([\w.]+?)(?:\.\{(.*)\}| as (\w+))$", re.MULTILINE
)
HEAD = re.compile(
    r"^ *(?:(?:abbrev|unfoldable) (?:pub )?|(?:pub )?(?:record|data) |(?:pub(?:\(\w+\))? )?(?:struct|enum|type|const) )"
    r"([^\s:({<;]+)|^(?:pub )?([^\s:|(]+) :",
    re.MULTILINE,
)
TOKEN = re.compile(r"[^\s(){}\[\],;.]+")
# A definition: its file, and the place of its block of lines there.
Place = tuple[pathlib.Path, int]


class Specs:
    """The definitions of the crates of a repository."""

    def __init__(self, root: pathlib.Path):
        self.root, self.files = root, {}
        self.order = list(lines_of_crates(root))

    def blocks(self, file: pathlib.Path) -> tuple[list[str], dict[str, int]]:
        """The blocks of a file, which empty lines part, and in which of them each name is defined."""
        if file not in self.files:
            blocks = file.read_text(encoding="utf-8").strip().split("\n\n")
            names = {}
            for place, block in enumerate(blocks):
                for found in HEAD.finditer(block):
                    names.setdefault(found[1] or found[2], place)
                if re.search(r"^pub data ", block, re.MULTILINE):
                    names |= {it: place for it in re.findall(r"^ +(?:pub )?(\S+) :", block, re.MULTILINE)}
            self.files[file] = blocks, names
        return self.files[file]

    def file_of(self, crate: str, path: str) -> pathlib.Path:
        """The file of specs/, or the one of src/ whose types contracts see."""
        parts = path.removesuffix(".TheVariants").split(".")
        folder = self.root / "crates" / crate
        if parts[0] != "declared":
            return (folder / "specs").joinpath(*parts).with_suffix(".antt")
        tried = [(folder / "src").joinpath(*parts[1:-1], *rest) for rest in ([], ["mod"])]
        return next(
            (it.with_suffix(".rt") for it in tried if it.with_suffix(".rt").is_file()), folder / "src" / "lib.rt"
        )

    def imports(self, file: pathlib.Path) -> Iterator[tuple[str, pathlib.Path, str]]:
        """What a file brings in: the word that stands for it there, its file, and its name."""
        for crate, path, items, alias in USE.findall(file.read_text(encoding="utf-8")):
            if crate not in self.order:
                continue
            source, variants = self.file_of(crate, path), path.endswith(".TheVariants")
            for item in (items or "").split(", ") if items else []:
                name, _, other = item.partition(" as ")
                yield other or name, source, path.split(".")[-2] if variants else name
            for name in self.blocks(source)[1] if alias and not variants else []:
                yield f"{alias}.{name}", source, name

    def home(self, file: pathlib.Path, name: str) -> Place:
        """Where the name that a file gives is defined: there, or where that file has it from."""
        if name in self.blocks(file)[1]:
            return file, self.blocks(file)[1][name]
        for it, source, other in self.imports(file) if file.suffix == ".antt" else []:
            if it == name:
                return self.home(source, other)
        raise CannotRun(f"{file} has no {name}")

    def uses(self, place: Place) -> Iterator[Place]:
        """The definitions that one definition names."""
        file, number = place
        blocks, names = self.blocks(file)
        lines = [it for it in blocks[number].splitlines() if not it.lstrip().startswith(("--", "use ", "//"))]
        text = "\n".join(lines)
        words = set(TOKEN.findall(text)) | set(re.findall(r"\w+\.\w+", text))
        known = {it: (file, at) for it, at in names.items()}
        for it, source, name in self.imports(file) if file.suffix == ".antt" else []:
            known[it] = self.home(source, name)
        yield from (
            known[it] for it in known if all(part in words for part in it.split("◌") if part) and known[it] != place
        )

    def read(self, name: str) -> list[Place]:
        """All definitions behind a name, each after those that it names."""
        crate, _, word = name.rpartition("::")
        files = sorted(self.root.glob(f"crates/{crate or '*'}/specs/**/*.antt"))
        homes = [(file, self.blocks(file)[1][word]) for file in files if word in self.blocks(file)[1]]
        if len(homes) != 1:
            raise CannotRun(
                f"{len(homes)} files define {name}: " + ", ".join(str(it[0].relative_to(self.root)) for it in homes)
            )
        done, started = {}, set()

        def visit(place: Place) -> None:
            if place not in started:
                started.add(place)
                for it in self.uses(place):
                    visit(it)
                done[place] = True

        visit(homes[0])
        return list(done)

    def lines(self, place: Place) -> int:
        return sum(not USE.match(it) for it in self.blocks(place[0])[0][place[1]].splitlines())


def summed(rows: list[tuple[str, int, int]]) -> list[int]:
    """The files, the definitions and the lines of all rows."""
    return [len(rows), sum(it[1] for it in rows), sum(it[2] for it in rows)]


def told(counts: list[int]) -> str:
    files, definitions, lines = counts
    return f"{files} files, {definitions} definitions, {lines} lines"


def by_file(specs: Specs, name: str) -> list[tuple[str, int, int]]:
    """The files for a name, lowest crate first, with how many definitions and lines of each."""
    found = {}
    for place in specs.read(name):
        found.setdefault(str(place[0].relative_to(specs.root / "crates")), []).append(specs.lines(place))
    rows = [(file, len(lines), sum(lines)) for file, lines in found.items()]
    return sorted(rows, key=lambda row: specs.order.index(row[0].split("/")[0]))


def main() -> int:
    parser = CHECK.parser()
    parser.add_argument("name", nargs="?", help="a definition in specs/, perhaps with its crate, as engine::IsRun")
    parser.add_argument(
        "--root", type=pathlib.Path, default=ROOT, help="the folder of docs and crates (this repository)"
    )
    options = CHECK.options(parser)
    root = options.root.resolve()
    specs = Specs(root)
    if options.name:
        rows = by_file(specs, options.name)
        print("".join(f"{file}: {count} definitions, {lines} lines\n" for file, count, lines in rows), end="")
        print(f"{options.name}: {told(summed(rows))}")
        return 0
    counts, wrong = ROW.findall((root / PAGE).read_text(encoding="utf-8")), 0
    for name, *said in counts:
        found = summed(by_file(specs, name))
        if [int(it.replace(",", "")) for it in said] != found:
            wrong += 1
            print(f"differs: {name}: the page says {', '.join(said)}; there are {told(found)}")
    print(f"{len(counts) - wrong} names have the counts of {PAGE}, {wrong} others")
    return status_of(len(counts), wrong)


if __name__ == "__main__":
    end(main)
