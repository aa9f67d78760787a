#!/usr/bin/env python3
"""Tries the launchers of all programs with a kit that proves nothing and takes a moment.

    checks/launcher_runs.py
    checks/launcher_runs.py --short     without the build of half a minute

The script copies the launcher and the code of the crates, and puts its own rt, rattle and rattle-link on the PATH. It
tests the order in which crates are proved, the processor that the program is compiled for, the help before that, and
what the launcher does if nothing is to be built, if a crate fails, if files are newer, come, go or change during the
build, if a build is interrupted, if two calls run at once, and what one program leaves to prove for the other. It
compares the time that the launcher expects with what a build takes; only a build with the real kit shows whether that
is so there too. It does not touch the programs of this repository.
"""
import json
import os
import pathlib
import pty
import random
import re
import select
import shutil
import signal
import subprocess
import tempfile
import time
from collections.abc import Callable

from common.check import PGREP, Check, can_run, end, sum_up
from common.fake_kit import Repository, printed
from common.launcher import PROGRAMS, crates_below
from common.program import ROOT
from common.simulated_builds import MACHINES, look_after

CHECK = Check(
    text=__doc__,
    needs=(PGREP,),
    takes="80 s",
    quick=("--short",),
    quickly="45 s",
    replay="run it again; the rows build on those before them.",
)


def whole(it: Repository) -> bool:
    status, out, err = it.run("-m", "a b")
    proved = it.logged()
    wide = [line for line in proved if line.endswith(" for x86-64-v3")]
    return (
        (status, out) == (0, "ran: -m a b\ninput")
        and len(proved) == len(set(proved)) > 10
        and wide == ["proves lifebatch for x86-64-v3"] * has_wide_vectors()
        and "proved and built" in err
    )


def has_wide_vectors() -> bool:
    """What the dynamic linker says of this machine."""
    said = subprocess.run(["/lib64/ld-linux-x86-64.so.2", "--help"], capture_output=True, text=True).stdout
    return "x86-64-v3 (supported" in said


def helps(it: Repository) -> bool:
    """The help before anything is built, at once and where the kit does not run."""
    rt = it.folder / "bin" / "rt"
    text_of_rt = rt.read_text()
    rt.write_text("#!/bin/sh\nexit 1\n")
    shown = []
    for name in PROGRAMS:
        text = (it.folder / "launcher" / "help" / f"{name}.txt").read_text()
        for word in ("-h", "--help"):
            status, out, err = it.run(word, name=name)
            shown.append(
                (status, out) == (0, text)
                and err.count("\n") == 1
                and err.startswith(f"{name}: the program is not built yet")
            )
    with open("/dev/full", "w") as device:
        full = subprocess.run(
            [it.folder / "lifebatch", "-h"], env=it.environment(), stdout=device, stderr=subprocess.DEVNULL
        )
    rt.write_text(text_of_rt)
    return all(shown) and full.returncode == 3 and it.logged() == []


def own_help(_: Repository) -> bool:
    """Whether the texts are what the real programs show, if these are built."""
    equal = []
    for name in PROGRAMS:
        program = ROOT / "crates" / name / "out" / name
        if not can_run(program):
            print(f"    {name} is not built here, so its help is not compared with launcher/help/{name}.txt")
            continue
        shown = [subprocess.run([program, word], capture_output=True) for word in ("-h", "--help")]
        text = (ROOT / "launcher" / "help" / f"{name}.txt").read_bytes()
        equal.append(all((it.returncode, it.stdout, it.stderr) == (0, text, b"") for it in shown))
    return all(equal)


def narrow_help(_: Repository) -> bool:
    texts = [path.read_text() for path in (ROOT / "launcher" / "help").glob("*.txt")]
    return texts != [] and all(len(line) <= 80 for text in texts for line in text.splitlines())


def help_of_built(it: Repository) -> bool:
    return (
        it.run("--help") == (0, "ran: --help\ninput", "")
        and it.run("-h", "x")[1] == "ran: -h x\ninput"
        and it.logged() == []
    )


def second(it: Repository) -> bool:
    began = time.monotonic()
    found = it.run("x")
    print(f"    a second call takes {1000 * (time.monotonic() - began):.0f} ms")
    return found == (0, "ran: x\ninput", "") and it.logged() == []


def other_program(it: Repository) -> bool:
    status, out, err = it.run("x", name="lifeview")
    proved = {line.split()[1] for line in it.logged()}
    again = it.run("y", name="lifeview")
    return (
        (status, out) == (0, "ran: x\ninput")
        and proved == {*crates_below("lifeview")} - {*crates_below("lifebatch")}
        and "lifeview: proved and built" in err
        and again == (0, "ran: y\ninput", "")
        and it.logged() == []
    )


def tried_as_nobody(it: Repository, *words: str) -> tuple[int, str, str]:
    """A call by a user who may not write to the repository's folder."""
    it.folder.chmod(0o755)
    how = {"stdin": subprocess.DEVNULL, "capture_output": True, "text": True, "env": it.environment()}
    ran = subprocess.run([it.folder / "lifebatch", *words], **how, **({"user": "nobody"} if os.geteuid() == 0 else {}))
    return ran.returncode, ran.stdout, ran.stderr


def unwritable(it: Repository) -> bool:
    """Output files that can't be written, before a program is built."""
    (it.folder / "locked").mkdir()
    (it.folder / "locked" / "there.rle").touch(0o444)
    (it.folder / "locked").chmod(0o555)
    folder = str(it.folder)
    found = [
        it.run(*words) == (3, "", "lifebatch: cannot write no/x.rle: there is no folder no/\n")
        for words in (
            ["-o", "no/x.rle"],
            ["-m", "1", "--output=no/x.rle", "x"],
            ["-qono/x.rle"],
            ["-o=no/x.rle"],
            ["x", "--output", "no/x.rle"],
        )
    ]
    found.append(it.run("-o", "no/x.png", name="lifeview")[0] == 3)
    for name in ("locked/new.mc", "locked/there.rle"):
        status, out, err = tried_as_nobody(it, "-o", f"{folder}/{name}")
        found.append((status, out, err) == (3, "", f"lifebatch: cannot write {folder}/{name}: permission denied\n"))
    (it.folder / "folder.rle").mkdir()
    found.append(it.run("-o", f"{folder}/folder.rle")[2].endswith(": it is a folder\n"))
    return all(found) and it.logged() == []


def writable(it: Repository) -> bool:
    """What the launcher leaves to the program."""
    (it.folder / "link.rle").symlink_to("nowhere/at all")
    calls = [
        ("-o", f"{it.folder}/new.rle"),
        ("-o", "no/x.txt"),
        ("-o", "no/x.rle", "-h"),
        ("-o", f"{it.folder}/link.rle"),
        ("--", "-ono/x.rle"),
    ]
    return all(it.run(*words)[:2] == (0, f"ran: {' '.join(words)}\ninput") for words in calls) and it.logged() == []


def unknown_program(it: Repository) -> bool:
    ran = subprocess.run(
        ["python3", it.folder / "launcher" / "build.py", "plane"], env=it.environment(), capture_output=True, text=True
    )
    return ran.returncode == 2 and ", ".join(PROGRAMS) in ran.stderr and it.logged() == []


def without_the_kit(it: Repository) -> bool:
    rt = it.folder / "bin" / "rt"
    rt.write_text("#!/bin/sh\nexit 1\n")
    status, out, err = it.run()
    rt.write_text(f"#!/bin/sh\necho {it.folder}/START-HERE.md\n")
    return (
        (status, out) == (2, "")
        and err.count("the build failed: rt, ") == 1
        and "Traceback" not in err
        and it.logged() == []
    )


def failed(it: Repository) -> bool:
    status, _, err = it.run(BAD="plane")
    return status == 2 and "error: plane is bad" in err and ": proved" not in err and bool(it.logged())


def goes_on(it: Repository) -> bool:
    status, _, _ = it.run()
    lines = it.logged()
    return status == 0 and "proves plane" in lines and "proves rule_text" not in lines


def newer(it: Repository) -> bool:
    file = next((it.folder / "crates" / "viewport" / "src").glob("*.rt"))
    file.write_text(file.read_text() + "\n")
    status, _, _ = it.run()
    proved = {line.split()[1] for line in it.logged()}
    return status == 0 and {"viewport", "universe", "lifebatch"} <= proved and not proved & {"squares", "node_table"}


def of_tests_only(it: Repository) -> bool:
    for name in ("crates/worked_squares/src/lib.rt", "crates/viewport/proofs/Newer.antt"):
        (it.folder / name).parent.mkdir(exist_ok=True)
        with open(it.folder / name, "a") as file:
            file.write("\n")
    return it.run("x") == (0, "ran: x\ninput", "") and it.logged() == []


def comes_and_goes(it: Repository) -> bool:
    (it.folder / "crates" / "viewport" / "proofs").mkdir(exist_ok=True)
    it.run()
    it.logged()
    seen = []
    for name, crate in (("viewport/specs/Extra.antt", "viewport"), ("lifebatch/specs/Extra.antt", "lifebatch")):
        file = it.folder / "crates" / name
        file.parent.mkdir(exist_ok=True)
        for change in (file.touch, file.unlink):
            change()
            status, _, _ = it.run()
            proved = {line.split()[1] for line in it.logged()}
            seen.append(status == 0 and crate in proved and it.run("x") == (0, "ran: x\ninput", ""))
    return all(seen) and it.logged() == []


def from_anywhere(it: Repository) -> bool:
    it.run()
    it.logged()
    other = it.folder / "other folder"
    other.mkdir()
    (other / "absolute").symlink_to(it.folder / "lifebatch")
    (other / "relative").symlink_to("../lifebatch")
    (other / "second").symlink_to("relative")
    (other / "linked").symlink_to("..")
    path = f"{it.folder}:{it.environment()['PATH']}"
    calls = [
        ("./lifebatch where", it.folder),
        ("sh lifebatch where", it.folder),
        ("../lifebatch where", other),
        ("./absolute where", other),
        ("./relative where", other),
        ("'other folder/second' where", it.folder),
        ("linked/lifebatch where", other),
        ("cd linked/launcher; ../lifebatch where", other),
        ("lifebatch where", other),
        ("CDPATH=/ launcher/../lifebatch where", it.folder),
    ]
    found = []
    for words, folder in calls:
        ran = subprocess.run(
            ["sh", "-c", words],
            cwd=folder,
            stdin=subprocess.DEVNULL,
            env=it.environment(PATH=path),
            capture_output=True,
            text=True,
        )
        where = it.folder / "launcher" if "cd " in words else folder
        found.append((ran.returncode, ran.stdout, ran.stderr) == (0, f"ran: where\n{where.resolve()}\n", ""))
    gone = "mkdir gone; cd gone; rmdir ../gone; lifebatch x </dev/null"
    ran = subprocess.run(["sh", "-c", gone], cwd=other, env=it.environment(PATH=path), capture_output=True, text=True)
    return all(found) and (ran.returncode, ran.stdout) == (0, "ran: x\n") and it.logged() == []


def changed_meanwhile(it: Repository) -> bool:
    # A proof of the other text is not kept, whatever the file contains afterwards.
    file = next((it.folder / "crates" / "viewport" / "src").glob("*.rt"))
    text = file.read_text()
    file.write_text(text + "// one\n")
    ran = it.start(SECONDS_EACH="1")
    time.sleep(0.5)
    file.write_text(text + "// another\n")
    printed(ran)
    file.write_text(text + "// one\n")
    it.logged()
    status, _, _ = it.run()
    return (ran.returncode, status) == (0, 0) and "proves viewport" in it.logged()


def interrupted(it: Repository) -> bool:
    kept = it.folder / "crates" / "rule_text" / "out" / "library" / "sum"
    ran, began = it.start(SECONDS_EACH="0.5"), time.monotonic()
    while not kept.exists() and time.monotonic() - began < 60:
        time.sleep(0.1)
    time.sleep(0.2)
    build = subprocess.run(["pgrep", "-P", str(ran.pid)], capture_output=True, text=True).stdout.split()
    os.kill(int(build[0]), signal.SIGTERM)
    _, err = printed(ran)
    left = subprocess.run(["pgrep", "-f", str(it.folder / "bin")], capture_output=True).stdout
    return ran.returncode == 143 and "build interrupted" in err and not left and kept.exists()


def two(it: Repository) -> bool:
    it.logged()
    first, other = it.start("one"), it.start("two")
    outs = [printed(ran)[0] for ran in (first, other)]
    proved = it.logged()
    return outs == ["ran: one\n", "ran: two\n"] and len(proved) == len(set(proved)) > 0


def time_left(it: Repository) -> bool:
    """A build that takes 1.6 times the seconds that the launcher expects, here a sixtieth of those of a real one. So
    the start of the processes counts sixty times as much, and two seconds more are allowed."""
    file, sleeps, chance = it.folder / "launcher" / "seconds.json", it.folder / "sleeps", random.Random(2)
    table = json.loads(file.read_text())
    table["crates"] = {name: seconds / 60 for name, seconds in table["crates"].items()}
    file.write_text(json.dumps(table))
    sleeps.mkdir()
    for name, seconds in table["crates"].items():
        (sleeps / name).write_text(f"{1.6 * seconds * chance.uniform(0.85, 1.18):.2f}\n")
    ran, said = it.start(SLEEPS=str(sleeps)), []
    ran.stdin.close()
    for line in ran.stderr:
        words = re.search(
            r": (\d+) % after \d+:\d\d, (?:about|\d+ to) (\d+) s left; \d+ of \d+ crates proved, proving \w", line
        )
        if words:
            said.append((time.monotonic(), int(words[1]), int(words[2])))
        elif "proved and built" in line:
            ended = time.monotonic()
    shares = [share for _, share, _ in said]
    when, share, left = next(it for it in said if it[1] >= 20)
    truth, began = ended - when, said[0]
    print(f"    with {share} % done {left} s were said to be left, and {truth:.1f} s were")
    print(f"    the first estimate was {began[2]} s for {ended - began[0]:.1f}")
    return ran.wait() == 0 and shares == sorted(shares) and abs(left - truth) <= truth / 4 + 2


def says_a_range(it: Repository) -> bool:
    """A range before anything was built, and one number once a crate was."""
    _, before = told(it)
    ran = it.start(SECONDS_EACH="0.5")
    ran.stdin.close()
    while "1 of " not in (line := ran.stderr.readline()) and line:
        pass
    os.killpg(ran.pid, signal.SIGTERM)
    ran.stderr.read()
    ran.wait()
    _, after = told(it)
    return bool(re.search(r" takes \d+ to \d+ minutes here", before) and re.search(r" takes about \d+ s here", after))


def told(it: Repository) -> tuple[int, str]:
    """What the launcher says of a build that it does not begin."""
    ran = subprocess.run(
        [it.folder / "launcher" / "build.py", "lifebatch", "--about"],
        env=it.environment(),
        capture_output=True,
        text=True,
    )
    return ran.returncode, ran.stderr


def simulated_machines(_: Repository) -> bool:
    errors = sorted(look_after(0.2, name, machine).error() for name in PROGRAMS for machine in MACHINES)
    close, median = sum(it <= 0.25 for it in errors), errors[len(errors) // 2]
    print(f"    {close} of {len(errors)} are; the error is {median:.0%} in the median, {errors[-1]:.0%} in the worst")
    return close >= 0.95 * len(errors)


def records(it: Repository) -> bool:
    """The seconds of all programs' crates, once all are built."""
    first, *others = PROGRAMS
    it.run(name=first)
    file, script = it.folder / "launcher" / "seconds.json", it.folder / "launcher" / "record_seconds.py"
    before = file.read_text()
    early = subprocess.run([script], capture_output=True, text=True)
    above = (crate for name in others for crate in crates_below(name))
    missing = ", ".join(dict.fromkeys(it for it in above if it not in crates_below(first)))
    is_kept = file.read_text() == before and f"no build has recorded {missing}: " in early.stderr
    for name in others:
        it.run(name=name)
    late = subprocess.run([script], capture_output=True, text=True)
    found = json.loads(file.read_text())
    return (
        (early.returncode, late.returncode) == (2, 0)
        and is_kept
        and {*found["crates"]} == {*json.loads(before)["crates"]}
    )


def terminal(it: Repository) -> bool:
    shutil.rmtree(it.folder / "crates" / "lifebatch" / "out")
    ours, theirs = pty.openpty()
    how = {"stdin": subprocess.DEVNULL, "stdout": subprocess.DEVNULL, "stderr": theirs}
    said = ""
    with subprocess.Popen([it.folder / "lifebatch"], env=it.environment(), **how) as ran:
        while ran.poll() is None or select.select([ours], [], [], 0)[0]:
            if select.select([ours], [], [], 0.1)[0]:
                said += os.read(ours, 1 << 16).decode()
    bar = re.search(r"\r\x1b\[Klifebatch: \[#* *\] \d+ %, about \d+ s left; ", said)
    return ran.returncode == 0 and bool(bar) and said.count("\n") == 3


# The rows of a group share a repository, and build on one another.
GROUPS: list[list[tuple[str, Callable[[Repository], bool]]]] = [
    [
        ("before a program is built, --help and -h by themselves show its help and say that it is not built", helps),
        ("the help is that of the real programs, where these are built", own_help),
        ("no line of a help has more than 80 columns", narrow_help),
        ("an output file that can't be written is named before anything runs, with status 3", unwritable),
        ("the first call proves each crate once, builds the program for this processor and runs it", whole),
        ("a second call builds nothing", second),
        ("a built program shows its help itself", help_of_built),
        ("an output file that can be written, and words that the program does not take, go to the program", writable),
        ("the other program proves the crates that only it uses", other_program),
        ("the build takes only the name of a program", unknown_program),
        ("on a terminal there is one line that moves", terminal),
    ],
    [
        ("where rt fails one line says so, and the status is 2", without_the_kit),
        ("a crate that fails is named, and ends the call with status 2", failed),
        ("the next call resumes from the crates that are proved", goes_on),
        ("a newer file has its crate and those above it proved anew", newer),
        ("a newer file that only tests read, and a newer proof, build nothing", of_tests_only),
        ("a file, or a folder specs, that comes or goes has its crate proved anew", comes_and_goes),
        ("the program runs in the caller's folder, by whichever name and link the launcher is called", from_anywhere),
        ("a file that changes during the build has its crate proved anew by the next call", changed_meanwhile),
    ],
    [
        ("before anything was built the launcher says a range of times, and afterwards one", says_a_range),
    ],
    [
        ("an interrupted build leaves no process, and keeps what is proved", interrupted),
        ("two calls at once prove each crate once", two),
    ],
    [
        ("after a fifth of the work the time that is said to be left is within a quarter of the truth", time_left),
        ("after a fifth of the work it is so on 19 of 20 simulated machines too", simulated_machines),
        ("each crate's seconds are recorded once all programs are built", records),
    ],
]


def main() -> int:
    parser = CHECK.parser()
    parser.add_argument("--short", action="store_true", help="leave out the build that shows the time that is left")
    options = CHECK.options(parser)
    held = []
    for rows in GROUPS:
        with tempfile.TemporaryDirectory(prefix="life batch ") as name:
            repository = Repository(pathlib.Path(name))
            for says, holds in rows:
                if options.short and holds is time_left:
                    continue
                held.append(holds(repository))
                print(f"{'holds  ' if held[-1] else 'differs'}  {says}", flush=True)
    return sum_up(held, "rows")


if __name__ == "__main__":
    end(main)
