"""A process of lifepipe: requests to it, and its replies."""
import os
import select
import subprocess
import threading
import time
import weakref
from collections.abc import Sequence
from dataclasses import dataclass, field
from typing import Optional

from .errors import Bad, Closed, Refused, TimedOut

# As the scripts that call the programs set them: large pages for the tables, and vectors of a megabyte or more outside
# of the heap. glibc 2.36 asks for large pages in each start only if all names are bound when the program starts. The
# caller's own settings win.
SETTINGS = {
    "GLIBC_TUNABLES": "glibc.malloc.hugetlb=1:glibc.malloc.mmap_threshold=1048576",
    "LD_BIND_NOW": "1",
}
# How many bytes are asked for at a time, and the most of a message of a process that has ended.
CHUNK = 65536


@dataclass(frozen=True)
class Reply:
    """The words behind `ok`, and the block, if the request has one."""

    words: list[str] = field(default_factory=list)
    block: bytes = b""


def end_process(process: subprocess.Popen, owner: int) -> None:
    """Ends a process that this one has started, and waits for it. One that was forked from this one leaves it alone."""
    if os.getpid() != owner:
        return
    process.kill()
    for stream in (process.stdin, process.stdout, process.stderr):
        # Nothing is buffered on this side, so nothing is lost.
        stream.close()
    process.wait()


class Process:
    """A process of lifepipe. It ends with `close`, where it is no longer used, and with this program."""

    def __init__(self, program: str, words: Sequence[str]):
        self._lock = threading.RLock()
        self._pending = bytearray()
        # In a session of its own, Ctrl-C at the prompt of a shell leaves it alone: what it interrupts is the call.
        self._process = subprocess.Popen(
            [program, *words],
            stdin=subprocess.PIPE,
            stdout=subprocess.PIPE,
            stderr=subprocess.PIPE,
            bufsize=0,
            start_new_session=True,
            env={**SETTINGS, **os.environ},
        )
        self._owner = os.getpid()
        self._end = weakref.finalize(self, end_process, self._process, self._owner)
        self._why = "the pattern is closed"

    @property
    def is_open(self) -> bool:
        return self._end.alive and os.getpid() == self._owner

    @property
    def identifier(self) -> int:
        """The number of the process."""
        return self._process.pid

    def close(self) -> None:
        """Ends the process, at once, whatever it does. A call of another thread that waits for it is `Closed`."""
        if self.is_open:
            self._process.kill()
        with self._lock:
            self._end()

    def ask(self, request: str, block: bytes = b"", has_block: bool = False, timeout: Optional[float] = None) -> Reply:
        """Sends a request with its block, and waits for the reply. `has_block` says whether the reply has a block where
        it is ok."""
        with self._lock:
            if not self.is_open:
                raise Closed(self._why)
            until = None if timeout is None else time.monotonic() + timeout
            try:
                return self._asked(request, block, has_block, until)
            except (Refused, Bad):
                raise
            except BaseException as error:
                # The reply was not read to its end, so the next one could not be told from it.
                self._why = (
                    str(error) if isinstance(error, Closed) else "the pattern is closed, since a call was interrupted"
                )
                self.close()
                raise

    def _asked(self, request: str, block: bytes, has_block: bool, until: Optional[float]) -> Reply:
        self._send(request.encode("ascii", "replace") + b"\n" + block, until)
        line = self._line(until).decode("ascii")
        kind, *words = line.split(" ")
        if kind == "refused":
            raise Refused(int(words[0]), words[1], int(words[2]) if len(words) > 2 else None)
        if kind == "bad":
            raise Bad(words[0], request)
        if kind != "ok":
            raise Closed(f"the program is not lifepipe: it replies {line[:80]!r}")
        return Reply(words, self._block(int(words[0]), until) if has_block else b"")

    def _send(self, data: bytes, until: Optional[float]) -> None:
        view, place = memoryview(data), self._process.stdin.fileno()
        # A pipe that can be written to takes so many bytes without a wait.
        most = len(data) if until is None else select.PIPE_BUF
        try:
            while view:
                self._wait(place, select.POLLOUT, until)
                view = view[os.write(place, view[:most]) :]
        except BrokenPipeError:
            raise self._ended() from None

    def _wait(self, place: int, event: int, until: Optional[float]) -> None:
        """Waits until a pipe can be read or written to."""
        if until is None:
            return
        poll = select.poll()
        poll.register(place, event)
        if not poll.poll(max(until - time.monotonic(), 0) * 1000):
            raise TimedOut("the call took too long, and the pattern is closed")

    def _line(self, until: Optional[float]) -> bytes:
        place = self._process.stdout.fileno()
        while b"\n" not in self._pending:
            self._wait(place, select.POLLIN, until)
            read = os.read(place, CHUNK)
            if not read:
                raise self._ended()
            self._pending += read
        end = self._pending.index(b"\n")
        line = bytes(self._pending[:end])
        del self._pending[: end + 1]
        return line

    def _block(self, length: int, until: Optional[float]) -> bytes:
        block = bytearray(length)
        ready = min(length, len(self._pending))
        block[:ready] = self._pending[:ready]
        del self._pending[:ready]
        view, place = memoryview(block)[ready:], self._process.stdout.fileno()
        while view:
            self._wait(place, select.POLLIN, until)
            count = os.readv(place, [view])
            if not count:
                raise self._ended()
            view = view[count:]
        return bytes(block)

    def _ended(self) -> Closed:
        """The error where the process has ended by itself."""
        message = os.read(self._process.stderr.fileno(), CHUNK).decode(errors="replace").strip()
        status = self._process.wait()
        how = f"by signal {-status}" if status < 0 else f"with status {status}"
        return Closed(f"lifepipe has ended {how}{': ' if message else ''}{message}")
