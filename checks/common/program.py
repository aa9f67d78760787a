"""Where the programs and Golly's patterns are, and how a program is run."""
import gzip
import os
import pathlib
import re
import subprocess
from collections.abc import Sequence
from dataclasses import dataclass

ROOT = pathlib.Path(__file__).resolve().parent.parent.parent
PROGRAM = ROOT / "crates" / "lifebatch" / "out" / "lifebatch"
VIEW = ROOT / "crates" / "lifeview" / "out" / "lifeview"
PERIOD = ROOT / "crates" / "lifeperiod" / "out" / "lifeperiod"
PIPE = ROOT / "crates" / "lifepipe" / "out" / "lifepipe"

# The folders in which packages of Golly put its patterns.
PLACES = [pathlib.Path(it) / "Patterns" for it in ("/usr/share/golly", "/usr/local/share/golly", "/usr/lib/golly")]
PATTERNS = next((it for it in PLACES if it.is_dir()), PLACES[0])

# The folder in which Debian puts Golly, which is not on every PATH.
GAMES = "/usr/games"

REFUSED = re.compile(r"lifebatch: refused \d+(?: at \d+)?: (\w+)\n")


@dataclass(frozen=True)
class Ended:
    """How a run ended: its status, or None if it took too long, and its output."""

    status: int | None
    report: str
    message: str

    def __str__(self) -> str:
        status = "no end" if self.status is None else f"status {self.status}"
        return f"{status} {' '.join(self.message.split())}".strip()


def games_path() -> str:
    """The PATH, with the folder of Golly's window at its end."""
    return f"{os.environ.get('PATH', os.defpath)}:{GAMES}"


def text_of(printed: bytes | None) -> str:
    return (printed or b"").decode(errors="backslashreplace")


def run(words: Sequence[str], folder: pathlib.Path, seconds: float) -> Ended:
    """Runs a program without input, and ends it if it takes too long."""
    try:
        ran = subprocess.run(words, cwd=folder, stdin=subprocess.DEVNULL, capture_output=True, timeout=seconds)
    except subprocess.TimeoutExpired as late:
        return Ended(None, text_of(late.stdout), text_of(late.stderr))
    return Ended(ran.returncode, text_of(ran.stdout), text_of(ran.stderr))


def refusal(ended: Ended) -> str | None:
    """The name by which lifebatch refuses a run, or None if it ends in another way."""
    line = REFUSED.fullmatch(ended.message)
    return line[1] if line and ended.status == 1 else None


def unpacked(path: pathlib.Path, folder: pathlib.Path) -> pathlib.Path:
    """The path of a pattern file that is not compressed. A compressed one is written to the folder."""
    packed = path.read_bytes()
    if packed[:2] != b"\x1f\x8b":
        return path
    plain = folder / path.name.removesuffix(".gz")
    plain.write_bytes(gzip.decompress(packed))
    return plain
