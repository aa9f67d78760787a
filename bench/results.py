"""What the runs of a row came to: ratios, means and medians."""
import math
import statistics
from collections.abc import Sequence
from dataclasses import dataclass

from rows import AIMS, Aims, Row
from timing import Found, Run

# Memory is compared if HashLife takes as many mebibytes or more.
COUNTED_MEBIBYTES = 30


@dataclass(frozen=True)
class Result:
    """The result of a row: a run, or why there is none, for each number of workers and for bgolly's HashLife and
    QuickLife."""

    set: str
    row: Row
    ours: dict[int, Found]
    hashlife: Found
    # None if QuickLife can't run the row.
    quicklife: Found | None = None

    @property
    def aims(self) -> Aims:
        return AIMS[self.set]

    def runs(self) -> list[Run]:
        return [it for it in (*self.ours.values(), self.hashlife, self.quicklife) if isinstance(it, Run)]

    def fastest(self) -> float | None:
        """The time of the faster of HashLife and QuickLife."""
        return min((it.seconds for it in (self.hashlife, self.quicklife) if isinstance(it, Run)), default=None)

    def ratio(self, workers: int) -> float | None:
        """The time of lifebatch beside that of the faster of the two, if there are both."""
        ours, fastest = self.ours.get(workers), self.fastest()
        return ours.seconds / fastest if isinstance(ours, Run) and fastest else None

    def to_hashlife(self, found: Found | None) -> float | None:
        """The time of a run beside that of HashLife, if there are both."""
        both = isinstance(found, Run) and isinstance(self.hashlife, Run)
        return found.seconds / self.hashlife.seconds if both else None

    def serial(self, workers: int) -> float | None:
        """The serial part of the time of more than one worker, if lifebatch ended well."""
        ours = self.ours.get(workers)
        return ours.serial(workers) if workers > 1 and isinstance(ours, Run) else None

    def memory(self) -> float | None:
        """The largest ratio of the memories, if they count."""
        if not self.is_compared() or self.hashlife.mebibytes < COUNTED_MEBIBYTES:
            return None
        return max(it.mebibytes for it in self.ours.values()) / self.hashlife.mebibytes

    def lasts(self) -> list[str]:
        return sorted({it.last for it in self.runs()})

    def is_compared(self) -> bool:
        return bool(self.ours) and all(isinstance(it, Run) for it in (*self.ours.values(), self.hashlife))

    def differs(self) -> bool:
        return len(self.lasts()) > 1 or any(isinstance(it, str) for it in self.ours.values())

    def population(self) -> str:
        if len(self.lasts()) > 1:
            return " and ".join(self.lasts())
        return "same" if self.is_compared() else "not compared"


@dataclass(frozen=True)
class Average:
    """The geometric mean and the median of the ratios of a number of workers, and the mean of those to HashLife
    alone."""

    mean: float
    median: float
    hashlife: float


def geometric_mean(ratios: Sequence[float]) -> float:
    return math.exp(sum(map(math.log, ratios)) / len(ratios))


def average(results: Sequence[Result], workers: int) -> Average | None:
    """The average of all rows in which lifebatch and HashLife ended well, if there are any."""
    compared = [it for it in results if it.to_hashlife(it.ours.get(workers))]
    if not compared:
        return None
    ratios = [it.ratio(workers) for it in compared]
    return Average(
        geometric_mean(ratios),
        statistics.median(ratios),
        geometric_mean([it.to_hashlife(it.ours[workers]) for it in compared]),
    )
