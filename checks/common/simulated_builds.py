"""Builds on machines that exist only as numbers: whether the time that the launcher expects comes true."""
import random
from collections.abc import Iterator
from dataclasses import dataclass

from common.launcher import Pace, Plan, cores_of, crates_below

GIGABYTE = 10**9
# The seconds between two looks at a simulated build.
STEP = 2.0


@dataclass(frozen=True)
class Machine:
    """Cores, gigabytes of memory, and how much longer than expected a check takes there."""

    cores: int
    memory: int
    factor: float

    def __str__(self) -> str:
        return f"{self.cores} cores, {self.memory} GB, {self.factor} times the seconds"


MACHINES = [
    Machine(*size, factor)
    for size in ((1, 8), (2, 8), (4, 4), (4, 8), (4, 24), (8, 16), (8, 64))
    for factor in (0.5, 1, 2)
]


@dataclass(frozen=True)
class Look:
    """What the launcher says at a time, and how many seconds the build has left in truth."""

    seconds_left: float
    truth: float

    def error(self) -> float:
        return abs(self.seconds_left - self.truth) / self.truth


def looks(program: str, machine: Machine, chance: random.Random) -> Iterator[tuple[float, Pace]]:
    """A build, with the time at each look. Each crate takes up to a sixth more or less than the factor says, more jobs
    help more or less than the launcher believes, and checks slow one another down."""
    plan = Plan(crates_below(program), machine.cores, machine.memory * GIGABYTE)
    pace, passed = Pace(plan, 1), 0.0
    left = {name: it * machine.factor * chance.uniform(0.85, 1.18) for name, it in plan.seconds.items()}
    helped, slowed = chance.uniform(0.8, 1.1), chance.uniform(0, 0.3)
    while True:
        for name, share in plan.next_ones(pace.done, pace.running).items():
            pace.begin(name, share)
        yield passed, pace
        if not pace.running:
            return
        cores = cores_of(pace.running, machine.cores)
        speed = 1 - slowed * (sum(cores.values()) - 1) / machine.cores
        pace.pass_time(STEP)
        passed += STEP
        for name, it in cores.items():
            left[name] -= STEP * it * speed * (helped if pace.running[name].jobs > 1 else 1)
            if left[name] <= 0:
                pace.end(name)


def look_after(share: float, program: str, machine: Machine) -> Look:
    """What the launcher says once this share of the work is done."""
    said, passed = None, 0.0
    for passed, pace in looks(program, machine, random.Random(f"{program} {machine}")):
        if said is None and pace.share_done() >= share:
            said = passed, pace.seconds_left()
    return Look(said[1], passed - said[0])
