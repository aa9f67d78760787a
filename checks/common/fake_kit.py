"""A copy of the launcher and of the crates' code, with a kit that proves nothing and takes a moment."""
import os
import pathlib
import shutil
import signal
import subprocess

from common.launcher import PROGRAMS
from common.program import ROOT

# How many seconds a call may take.
SECONDS = 120

# It fails where a library below is missing, or where BAD names the crate.
RATTLE = """#!/bin/sh
while [ $# -gt 0 ]; do
    case $1 in
    --crate-name) name=$2 ;;
    --cpu) processor=" for $2" ;;
    --extern) case ${2#*=} in */crates/*) [ -d "${2#*=}" ] || { echo "no $2"; exit 1; } ;; esac ;;
    -o) made=$2 ;;
    esac
    shift
done
echo "fn $name::f: proved"
echo "proves $name$processor" >>"$LOG"
if [ -n "${SLEEPS:-}" ]; then read -r seconds <"$SLEEPS/$name"; else seconds=${SECONDS_EACH:-0.1}; fi
sleep "$seconds"
[ "${BAD:-}" = "$name" ] && { echo "error: $name is bad"; exit 1; }
case $made in *.rlib) mkdir "$made" ;; *) : >"$made" ;; esac
"""

LINK = """#!/bin/sh
while [ "$1" != -o ]; do shift; done
printf '#!/bin/sh\\necho "ran: $*"; [ "$1" != where ] || pwd -P; cat\\n' >"$2" && chmod +x "$2"
"""


class Repository:
    """A copy of the launcher and of the crates' code, without anything built."""

    def __init__(self, folder: pathlib.Path):
        self.folder, self.log = folder, folder / "log"
        for name in (*PROGRAMS, "crates.txt"):
            shutil.copy(ROOT / name, folder)
        for name in ("launcher", "crates", "golly", "docs", "python"):
            shutil.copytree(ROOT / name, folder / name, ignore=shutil.ignore_patterns("out", "proofs"))
        shutil.copy(ROOT / "CHANGELOG.md", folder)
        (folder / "bin").mkdir()
        (folder / "KIT-ID").touch()
        for name, text in (
            ("rt", f"#!/bin/sh\necho {folder}/START-HERE.md\n"),
            ("rattle", RATTLE),
            ("rattle-link", LINK),
        ):
            (folder / "bin" / name).write_text(text)
            (folder / "bin" / name).chmod(0o755)

    def environment(self, **settings: str) -> dict[str, str]:
        return {**os.environ, "PATH": f"{self.folder / 'bin'}:{os.environ['PATH']}", "LOG": str(self.log), **settings}

    def start(self, *words: str, name: str = "lifebatch", **settings: str) -> subprocess.Popen:
        how = {
            "stdin": subprocess.PIPE,
            "stdout": subprocess.PIPE,
            "stderr": subprocess.PIPE,
            "text": True,
            "start_new_session": True,
        }
        return subprocess.Popen([self.folder / name, *words], env=self.environment(**settings), **how)

    def run(self, *words: str, name: str = "lifebatch", **settings: str) -> tuple[int, str, str]:
        ran = self.start(*words, name=name, **settings)
        out, err = printed(ran, "input")
        return ran.returncode, out, err

    def logged(self) -> list[str]:
        """The calls of the kit since the last look."""
        lines = self.log.read_text().split("\n")[:-1] if self.log.exists() else []
        self.log.unlink(missing_ok=True)
        return lines


def printed(ran: subprocess.Popen, given: str = "") -> tuple[str, str]:
    """The output of a call, which is killed if it takes too long."""
    try:
        return ran.communicate(given, timeout=SECONDS)
    except subprocess.TimeoutExpired:
        os.killpg(ran.pid, signal.SIGKILL)
        return ran.communicate()
