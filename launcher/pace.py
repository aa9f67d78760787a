"""How much of a build is done, and how long the rest takes.

The plan is played through, corrected by what this machine has needed so far.

Work is counted in seconds of one core: those that a check has of the cores, as far as the plan knows, and those that it
was expected to take.
"""
from dataclasses import dataclass, field

from plan import NICE, Plan, Running, Share

# The part of a check that only one core does, however many jobs it has.
SERIAL = 0.2
# How much more of a core a process gets for each step of its priority.
STEP = 1.25
# The first factor counts as if so much of the whole work had needed it.
WEIGHT = 0.01
# A check that should be done has this part of its work left, as far as anybody knows.
LEAST_LEFT = 0.05


def busy_cores(jobs: int) -> float:
    """How many cores a check keeps busy on average."""
    return 1 / (SERIAL + (1 - SERIAL) / jobs)


def cores_of(running: Running, cores: int) -> dict[str, float]:
    """How many cores each check has: as many as it keeps busy, or a share by its priority and its jobs."""
    found: dict[str, float] = {}
    weights = {name: it.jobs / STEP ** (NICE * it.behind) for name, it in running.items()}
    free = float(cores)
    while weights:
        each = free / sum(weights.values())
        sated = {
            name: busy_cores(running[name].jobs)
            for name, it in weights.items()
            if each * it >= busy_cores(running[name].jobs)
        }
        if not sated:
            return {**found, **{name: each * it for name, it in weights.items()}}
        found.update(sated)
        free = max(free - sum(sated.values()), 0)
        weights = {name: it for name, it in weights.items() if name not in sated}
    return found


@dataclass
class Pace:
    plan: Plan
    # How much longer than expected checks take on this machine, before any has ended.
    factor: float
    done: set[str] = field(default_factory=set)
    running: Running = field(default_factory=dict)
    # The work that each check has done in this build, those that ended too.
    work: dict[str, float] = field(default_factory=dict)
    # While no check has ended, the rest takes from so many to so many times what is expected.
    doubt: tuple[float, float] = (1, 1)

    def begin(self, name: str, share: Share) -> None:
        self.running[name] = share
        self.work[name] = 0

    def end(self, name: str) -> None:
        del self.running[name]
        self.done.add(name)

    def pass_time(self, seconds: float) -> None:
        for name, cores in cores_of(self.running, self.plan.cores).items():
            self.work[name] += cores * seconds

    def needed(self) -> float:
        """The factor by the checks that ended, and by those that run for longer than it says."""
        expected = WEIGHT * sum(self.plan.seconds.values())
        needed = self.factor * expected
        for name in self.work.keys() & self.done:
            needed += self.work[name]
            expected += self.plan.seconds[name]
        for name in sorted(self.running, key=lambda it: -self.work[it] / self.plan.seconds[it]):
            if self.work[name] * expected > needed * self.plan.seconds[name]:
                needed += self.work[name]
                expected += self.plan.seconds[name]
        return needed / expected

    def part_left(self, name: str) -> float:
        """Which part of the work of a check that runs is left."""
        return max(1 - self.work[name] / (self.needed() * self.plan.seconds[name]), LEAST_LEFT)

    def share_done(self) -> float:
        """Which share of the work on all crates of the program is done."""
        left = {name: it for name, it in self.plan.seconds.items() if name not in self.done}
        left.update({name: self.plan.seconds[name] * self.part_left(name) for name in self.running})
        return 1 - sum(left.values()) / sum(self.plan.seconds.values())

    def range_left(self) -> tuple[float, float]:
        """From how many to how many seconds the rest takes: one number once a check has ended."""
        left, has_ended = self.seconds_left(), bool(self.work.keys() & self.done)
        least, most = (1, 1) if has_ended else self.doubt
        return least * left, most * left

    def seconds_left(self) -> float:
        """How many seconds the rest of the build takes, by the plan."""
        done, running, passed = set(self.done), dict(self.running), 0.0
        left = {name: it * (self.part_left(name) if name in running else 1) for name, it in self.plan.seconds.items()}
        while True:
            running.update(self.plan.next_ones(done, running))
            if not running:
                return passed * self.needed()
            cores = cores_of(running, self.plan.cores)
            step = min(left[name] / cores[name] for name in running)
            passed += step
            for name in list(running):
                left[name] -= step * cores[name]
                if left[name] <= 1e-9:
                    del running[name]
                    done.add(name)
