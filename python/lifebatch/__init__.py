"""Golly's two-state patterns, run by the proved engine of lifebatch.

    import lifebatch
    with lifebatch.open("examples/r-pentomino.rle", workers=4) as pattern:
        pattern.advance(1103)
        print(pattern.generation, pattern.population, pattern.bounds)
        pattern.save("later.mc")

Each pattern has a process of its own, lifepipe, which answers its questions. The process ends where the pattern is
closed, where it is no longer used, where a call is interrupted or takes too long, and where the program ends.
"""
from .errors import Bad, Closed, Error, NoProgram, Refused, TimedOut
from .pattern import Bounds, Move, Pattern, Period, Run, open, parse
from .program import find_program

__all__ = [
    "Bad",
    "Bounds",
    "Closed",
    "Error",
    "Move",
    "NoProgram",
    "Pattern",
    "Period",
    "Refused",
    "Run",
    "TimedOut",
    "find_program",
    "open",
    "parse",
]
