"""Why a call fails."""
from typing import Optional


class Error(Exception):
    """A call of this package failed."""


class Refused(Error):
    """The engine refuses the call: the pattern file is none, the range is left, the tables are full, memory ran out.

    `number` and `name` say why, as docs/formats.md lists them. `place` is the offset of the byte of a pattern file that
    is to blame, if one is.
    """

    def __init__(self, number: int, name: str, place: Optional[int] = None):
        super().__init__(number, name, place)
        self.number, self.name, self.place = number, name, place

    def __str__(self) -> str:
        place = "" if self.place is None else f" at {self.place}"
        return f"refused {self.number}{place}: {self.name}"


class Bad(Error, ValueError):
    """A number or a text of the call is not one that the engine takes. `word` says why, as docs/lifepipe.md lists
    it."""

    def __init__(self, word: str, request: str = ""):
        super().__init__(word, request)
        self.word, self.request = word, request

    def __str__(self) -> str:
        return f"bad {self.word}: {self.request}" if self.request else f"bad {self.word}"


class Closed(Error):
    """The pattern is closed, or its process has ended."""


class TimedOut(Closed, TimeoutError):
    """The call took too long. The pattern is closed."""


class NoProgram(Error, FileNotFoundError):
    """The program lifepipe was not found."""
