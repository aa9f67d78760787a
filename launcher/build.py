#!/usr/bin/env python3
"""Proves and builds a program of this repository, for the launcher of its name.

    launcher/build.py NAME                  prove and build the program NAME
    launcher/build.py NAME --about          say about how long that takes, and build nothing
    launcher/build.py --install PREFIX      build all programs, and put them below PREFIX, with man pages, completions,
                                            Golly's scripts and the Python package
    launcher/build.py --uninstall PREFIX    take away what was put there

Crates are proved side by side, as many as cores and memory allow, each after those below it. For each proved crate the
build writes a library of its statements, which is all that the crates above it read, in any program. Their checks
are shorter than over the libraries with proofs that `rt lib` keeps for editing, so the build calls the compiler of the
kit, `rattle`, and not `rt`. An interrupted build keeps the libraries that it has made, and the next one resumes from
them.

Standard error shows what is being proved, how much of the work is done and how long the rest takes. The status is 0 if
the program was built, 2 if not, 3 if files could not be installed or taken away, and 128 plus the signal's number if
the build was interrupted.
"""
import argparse
import contextlib
import os
import pathlib
import shutil
import signal
import sys
import time

from crates import PROGRAMS, ROOT, Program, crates_below, folder, sum_of
from installed import all_files, built_programs, install, uninstall
from kit import Failed
from pace import Pace
from plan import GIGABYTE, MEMORY, Plan, free_memory, machine_factor
from progress import Progress, duration
from run import Build, locked
from version import whole_version

# The disk space that the folders `out` of all crates take.
DISK = 2 * GIGABYTE


def pace_of(program: Program, proved: set[str]) -> Pace:
    """How a build goes on this machine, where these crates are proved."""
    crates = crates_below(program.name)
    plan = Plan(crates, len(os.sched_getaffinity(0)), free_memory())
    factor = machine_factor(crates)
    return Pace(plan, factor.likely, proved, doubt=(factor.least, factor.most))


def proved_crates(program: Program) -> set[str]:
    return {name for name in crates_below(program.name) if program.is_proved(name)}


def tell_about(program: Program) -> int:
    """Says whether the program has to be built, and about how long that takes."""
    try:
        proved = proved_crates(program)
    except Failed:
        proved = set()
    if proved == crates_below(program.name).keys():
        Progress(program.name, 0).tell(f"the program is built; version {whole_version()}")
        return 0
    left = duration(*pace_of(program, proved).range_left())
    why = "older than its code or contracts" if program.built.exists() else "not built yet"
    Progress(program.name, 0).tell(
        f"the program is {why}; the next run builds it, which takes {left} here; version {whole_version()}"
    )
    return 0


def tell_needs(progress: Progress, pace: Pace) -> None:
    """Says what the build needs, and about how long it takes."""
    memory, disk = pace.plan.memory // GIGABYTE, shutil.disk_usage(ROOT).free // GIGABYTE
    progress.tell(f"proving and building the program first; this takes {duration(*pace.range_left())} here")
    progress.tell(
        f"it needs rt ({shutil.which('rt')}), {MEMORY // GIGABYTE} GB of memory for each crate at a time ({memory} GB"
        f" free) and {DISK // GIGABYTE} GB of disk ({disk} GB free), and uses all cores ({pace.plan.cores})"
    )


def build_program(program: Program) -> int:
    """Proves and builds a program. Returns the exit status."""
    began = time.time()
    crates = crates_below(program.name)
    progress = Progress(program.name, len(crates))
    with locked(progress, [ROOT / "launcher", *map(folder, crates)]):
        progress.begin()
        pace = pace_of(program, proved_crates(program))
        if pace.done < crates.keys():
            tell_needs(progress, pace)
        build = Build(program, pace, progress, sums={name: sum_of(name) for name in crates})
        for it in (signal.SIGINT, signal.SIGTERM, signal.SIGHUP):
            signal.signal(it, lambda number, _: setattr(build, "signal", number))
        with contextlib.closing(build):
            is_built = build.run()
    if is_built:
        program.keep_time(crates, began)
    what = "build interrupted; the next run resumes it" if build.signal else "the build failed"
    progress.tell(f"proved and built in {progress.clock()}" if is_built else what)
    return 0 if is_built else 128 + build.signal if build.signal else 2


def install_programs(prefix: pathlib.Path) -> int:
    """Builds all programs, and installs them below a folder."""
    for name in PROGRAMS:
        status = build_program(Program(name))
        if status:
            return status
    files = all_files(built_programs())
    prefix.mkdir(parents=True, exist_ok=True)
    install(files, prefix)
    print(f"installed {len(files)} files below {prefix}, of version {whole_version()}", file=sys.stderr)
    return 0


def uninstall_programs(prefix: pathlib.Path) -> int:
    count = uninstall(prefix)
    print(
        f"took away {count} files below {prefix}" if count else f"nothing is installed below {prefix}", file=sys.stderr
    )
    return 0 if count else 2


def parsed() -> argparse.Namespace:
    parser = argparse.ArgumentParser(description=__doc__.strip(), formatter_class=argparse.RawDescriptionHelpFormatter)
    parser.add_argument("name", nargs="?", metavar="NAME", help=f"the program, one of {', '.join(PROGRAMS)}")
    parser.add_argument("--about", action="store_true", help="say about how long the build takes, and build nothing")
    parser.add_argument(
        "--install", type=pathlib.Path, metavar="PREFIX", help="build all programs, and install them below this folder"
    )
    parser.add_argument(
        "--uninstall", type=pathlib.Path, metavar="PREFIX", help="take away what was installed below this folder"
    )
    options = parser.parse_args()
    if sum(it is not None for it in (options.name, options.install, options.uninstall)) != 1:
        parser.error(f"give the name of a program, one of {', '.join(PROGRAMS)}, or --install or --uninstall")
    if options.name is not None and options.name not in PROGRAMS:
        parser.error(f"there is no program {options.name}, only {', '.join(PROGRAMS)}")
    return options


def main() -> int:
    # Until a check runs, Ctrl-C just ends this program. Where the caller ignores the end of processes, how checks end
    # would be lost.
    signal.signal(signal.SIGINT, signal.SIG_DFL)
    signal.signal(signal.SIGCHLD, signal.SIG_DFL)
    options = parsed()
    prefix = options.install or options.uninstall
    try:
        if prefix:
            return install_programs(prefix) if options.install else uninstall_programs(prefix)
        program = Program(options.name)
        return tell_about(program) if options.about else build_program(program)
    except (Failed, OSError) as error:
        print(f"{options.name}: the build failed: {error}" if options.name else f"build.py: {error}", file=sys.stderr)
        return 3 if prefix and isinstance(error, OSError) else 2


if __name__ == "__main__":
    sys.exit(main())
