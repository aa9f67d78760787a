"""In which order crates are proved, how many side by side, and how long each is expected to take.

`seconds.json` has the processor seconds of each crate's check. `record_seconds.py` writes it, from the records that
builds leave in `out/took.json`.
"""
import functools
import json
import pathlib
import re
import time
from collections.abc import Iterable
from dataclasses import dataclass
from typing import Optional

from crates import ROOT, Crates, folder

GIGABYTE = 10**9
# The memory that a check takes with one job, and that each further job adds.
MEMORY = 4 * GIGABYTE
MEMORY_OF_JOB = 3 * GIGABYTE // 2
MOST_JOBS = 4
# A check of so many seconds is shorter with more jobs where cores are free, and a check of so many with a second job
# where none is.
WITH_JOBS = 30
LONG = 100
# A chain of at least this share of the longest one counts as long too.
SHARE = 0.6
# How much lower the priority of a crate is for each crate with a longer chain that runs beside it.
NICE = 5
# How often numbers are sorted without a pause, and how many times that is done, each after a pause of so many seconds.
SORTINGS, PAUSE = 6, 0.08
# By so much a proof may be faster or slower than the sorting says.
DOUBT = 0.25
TABLE = ROOT / "launcher" / "seconds.json"
GROUPS = pathlib.Path("/sys/fs/cgroup")
# For each controller that /proc/self/cgroup may name, the second version having no name: the files of the limit and of
# what is used, and the line of memory.stat with the pages of files.
GROUP_FILES = {
    "": ("memory.max", "memory.current", "inactive_file"),
    "memory": ("memory.limit_in_bytes", "memory.usage_in_bytes", "total_inactive_file"),
}


@functools.cache
def table() -> dict:
    return json.loads(TABLE.read_text())


def seconds_of(name: str) -> float:
    """The processor seconds that the check of a crate is expected to take. One that is not listed counts by its
    lines."""
    lines = sum(len(it.read_bytes().splitlines()) for it in folder(name).glob("src/**/*.rt"))
    return table()["crates"].get(name, 12 + lines // 8)


def sorting_seconds() -> list[float]:
    """The processor seconds in which this machine sorts some numbers, the least first: many times within half a second,
    since it may do other work too."""
    numbers, taken = [it * 7919 % 100003 / 7 for it in range(20000)], []
    for _ in range(SORTINGS):
        time.sleep(PAUSE)
        for _ in range(SORTINGS):
            began = time.process_time()
            sorted(numbers)
            taken.append(time.process_time() - began)
    return sorted(taken)


def record(name: str) -> pathlib.Path:
    return folder(name) / "out" / "took.json"


def recorded(name: str) -> dict[str, float]:
    """What the last check of a crate took on this machine: `seconds` of processors, `clock`, `jobs`, and `work`, which
    `Pace` counts."""
    try:
        return json.loads(record(name).read_text())
    except (OSError, ValueError):
        return {}


@dataclass(frozen=True)
class Factor:
    """How much longer than the table says checks take on this machine. If no check has ended here, they may take from
    `least` to `most` times that."""

    likely: float
    least: float = 1
    most: float = 1


def machine_factor(names: Iterable[str]) -> Factor:
    """By the processor seconds of earlier builds, else by how fast this machine sorts, at best and in the middle of
    many times."""
    took = [(recorded(it)["seconds"], seconds_of(it)) for it in names if recorded(it)]
    if took:
        return Factor(max(sum(seconds for seconds, _ in took) / sum(expected for _, expected in took), 1 / 100))
    sorting = sorting_seconds()
    likely = min(max(sorting[0] / table()["sorting"], 1 / 4), 4)
    return Factor(likely, 1 - DOUBT, (1 + DOUBT) * sorting[len(sorting) // 2] / sorting[0])


def free_in(group: pathlib.Path, limit: str, used: str, cache: str) -> Optional[int]:
    """The bytes that a control group leaves free, with the pages of files that it can give back, if it has a limit."""
    try:
        pages = re.search(rf"^{cache} (\d+)$", (group / "memory.stat").read_text(), re.MULTILINE)
        return int((group / limit).read_text()) - int((group / used).read_text()) + int(pages[1])
    except (OSError, TypeError, ValueError):
        return None


def free_in_groups() -> list[int]:
    """What the control groups that this process is in leave free, by the files of both versions of Linux's control
    groups."""
    found: list[Optional[int]] = []
    try:
        lines = pathlib.Path("/proc/self/cgroup").read_text().splitlines()
    except OSError:
        return []
    for _, controllers, own in (it.split(":", 2) for it in lines):
        if controllers in GROUP_FILES:
            top = GROUPS / controllers
            folders = [top / own.lstrip("/"), *(top / own.lstrip("/")).parents]
            found += [free_in(it, *GROUP_FILES[controllers]) for it in folders if it == top or top in it.parents]
    return [it for it in found if it is not None]


def free_memory() -> int:
    """The free memory in bytes, within the limits of control groups."""
    return min(
        [
            1024 * int(re.search(r"MemAvailable:\s+(\d+)", pathlib.Path("/proc/meminfo").read_text())[1]),
            *free_in_groups(),
        ]
    )


@dataclass(frozen=True)
class Share:
    """What a check that runs has of the machine: its jobs, and how many crates with a longer chain began before it."""

    jobs: int
    behind: int

    def memory(self) -> int:
        return MEMORY + (self.jobs - 1) * MEMORY_OF_JOB


# The checks that run.
Running = dict[str, Share]


class Plan:
    def __init__(self, crates: Crates, cores: int, memory: int):
        self.crates, self.cores, self.memory = crates, cores, memory
        self.seconds = {name: seconds_of(name) for name in crates}
        # For each crate the seconds of the longest chain of crates from it to the program.
        self.chain: dict[str, float] = {}
        for name in reversed(crates):
            above = [self.chain[it] for it, below in crates.items() if name in below]
            self.chain[name] = self.seconds[name] + max(above, default=0)

    def ready(self, done: set[str], running: Running) -> list[str]:
        """The crates that can be proved now, the one with the longest chain of crates above it first."""
        left = [
            name
            for name in self.crates
            if name not in done and name not in running and done.issuperset(self.crates[name])
        ]
        return sorted(left, key=lambda name: -self.chain[name])

    def jobs_for(self, name: str, ready: list[str], running: Running) -> int:
        """How many jobs a crate that is ready gets: the cores that no other crate can use, and two for a long check on
        a long chain."""
        seconds, others = self.seconds[name], running.keys() | set(ready) - {name}
        is_on_long_chain = self.chain[name] >= SHARE * max(self.chain[it] for it in [name, *others])
        free = self.cores - len(others) if seconds >= WITH_JOBS else 1
        least = 2 if self.cores > 1 and seconds >= LONG and is_on_long_chain else 1
        return max(min(free, MOST_JOBS), least)

    def next_ones(self, done: set[str], running: Running) -> Running:
        """The crates to start now: those that there is room for, beside those that run."""
        ready, all_running = self.ready(done, running), dict(running)
        for name in ready:
            room = self.memory - sum(it.memory() for it in all_running.values())
            if all_running and (room < MEMORY or len(all_running) == self.cores):
                break
            most = 1 + max(room - MEMORY, 0) // MEMORY_OF_JOB
            behind = sum(self.chain[it] > self.chain[name] for it in all_running)
            all_running[name] = Share(min(self.jobs_for(name, ready, all_running), most), behind)
        return {name: it for name, it in all_running.items() if name not in running}
