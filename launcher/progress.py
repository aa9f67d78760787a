"""What standard error shows of a build."""
import os
import sys
import time

from pace import Pace

# How many characters the bar has, and what clears the line of a terminal.
BAR = 20
CLEAR = "\r\x1b[K"


def duration(least: float, most: float) -> str:
    """A time that is not known exactly."""
    unit, name = (1, "s") if most < 100 else (60, "minutes")
    least, most = (max(round(it / unit), 1) for it in (least, most))
    return f"about {most} {name}" if least == most else f"{least} to {most} {name}"


class Progress:
    """Shows how far a build is and what is being proved: on one line of a terminal, else on a line for each change."""

    def __init__(self, program: str, crates: int):
        self.program, self.of, self.shown, self.share = program, crates, None, 0.0
        self.moves = sys.stderr.isatty()
        self.begin()

    def begin(self) -> None:
        self.began = time.monotonic()

    def clock(self) -> str:
        seconds = int(time.monotonic() - self.began)
        return f"{seconds // 60}:{seconds % 60:02}"

    def show(self, pace: Pace) -> None:
        done, running = len(pace.done), list(pace.running)
        state = (done, *running, self.clock() if self.moves else "")
        if state == self.shown:
            return
        self.shown = state
        # What is known of the machine changes, but a share that was shown does not shrink.
        self.share = max(self.share, pace.share_done())
        percent, left = f"{int(100 * self.share)} %", f"{duration(*pace.range_left())} left"
        proved = f"{done} of {self.of} crates proved, proving {', '.join(running)}"
        if self.moves:
            bar = "#" * round(BAR * self.share)
            line = f"{self.program}: [{bar:<{BAR}}] {percent}, {left}; {proved}"
            print(f"{CLEAR}{line[: (os.get_terminal_size(2).columns or 80) - 1]}", end="", file=sys.stderr, flush=True)
        else:
            self.tell(f"{percent} after {self.clock()}, {left}; {proved}")

    def tell(self, text: str) -> None:
        print(f"{CLEAR if self.moves else ''}{self.program}: {text}", file=sys.stderr, flush=True)
