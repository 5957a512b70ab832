"""A byte stream with time limits: no wait for it is longer than was asked.

A stream with a descriptor (``fileno``: a serial port, a pseudo-terminal) is
waited for by the descriptor, which is set not to block. A stream without one
keeps its own time: its ``read`` gives ``None`` or nothing when nothing comes.
"""

from __future__ import annotations

import io
import math
import os
import select
import time
from typing import Protocol

from .errors import StreamEnded, TimedOut

PAUSE = 0.001
"""Seconds between two looks at a stream without a descriptor."""
ROOM = 256
"""The most bytes of one write, where a wait has said that there is room."""
LONGEST = 3600.0
"""Seconds of one wait of the system's; a longer one is several."""


class ByteStream(Protocol):
    """What a stick is reached through."""

    def read(self, size: int, /) -> bytes | None:
        """Up to ``size`` bytes; ``b""`` at the end, ``None`` for none yet."""

    def write(self, data: bytes, /) -> int | None:
        """Writes the bytes; a number is how many of them."""


class Limit:
    """How long something is awaited, from now on."""

    def __init__(self, awaited: str, seconds: float) -> None:
        self._awaited = awaited
        self._seconds = seconds
        self._end = time.monotonic() + seconds

    def left(self) -> float:
        """The seconds that are left; ``TimedOut`` if there are none."""
        left = self._end - time.monotonic()
        if left <= 0:
            raise TimedOut(self._awaited, self._seconds)
        return left


class Line:
    """A byte stream that is waited for."""

    def __init__(self, stream: ByteStream) -> None:
        self._stream = stream
        self._file = _descriptor(stream)
        if self._file is not None:
            os.set_blocking(self._file, False)

    @property
    def can_look(self) -> bool:
        """Whether it can be seen that nothing is there, without a wait."""
        return self._file is not None

    @property
    def waiting(self) -> bool:
        """Whether something is there to be read now, as far as it is seen."""
        return self._file is not None and bool(self._poll(select.POLLIN, 0))

    def look(self, seconds: float) -> bytes:
        """What comes within so many seconds, as soon as something does;
        nothing from a stream that cannot be looked at."""
        end = time.monotonic() + seconds
        while self._file is not None:
            if self._poll(select.POLLIN, max(0.0, end - time.monotonic())):
                data = self._some(1)
                if data:
                    return data
            if time.monotonic() >= end:
                break
        return b""

    def read(self, size: int, limit: Limit) -> bytes:
        """1 to ``size`` bytes, as soon as there are some."""
        while True:
            left = limit.left()
            if self._file is not None and not self._poll(select.POLLIN, left):
                continue
            data = self._some(size)
            if data:
                return data
            if self._file is None:
                time.sleep(PAUSE)

    def write(self, data: bytes, limit: Limit) -> bytes:
        """Writes all bytes. What comes meanwhile is read, so that neither
        end waits for the other to read, and given back."""
        came = b""
        rest = memoryview(data)
        piece = len(data) if self._file is None else ROOM
        while rest:
            left = limit.left()
            if self._file is not None:
                ready = self._poll(select.POLLIN | select.POLLOUT, left)
                if ready & select.POLLIN:
                    came += self._some(1) or b""
                if not ready & ~select.POLLIN:
                    continue
            try:
                written = self._stream.write(bytes(rest[:piece]))
            except BlockingIOError:
                continue
            if written is None:
                # A raw file says so that there is no room; others, that all is written.
                written = 0 if isinstance(self._stream, io.RawIOBase) else piece
            rest = rest[written:]
        flush = getattr(self._stream, "flush", None)
        if flush is not None:
            flush()
        return came

    def _some(self, size: int) -> bytes | None:
        """What the stream gives now; its end is raised."""
        try:
            data = self._stream.read(size)
        except BlockingIOError:
            return None
        if data is not None and not data:
            raise StreamEnded("the stream ended before the reply did")
        return data

    def _poll(self, events: int, seconds: float) -> int:
        """Which of the events there are, at the latest after so long."""
        assert self._file is not None
        poll = select.poll()
        poll.register(self._file, events)
        found = poll.poll(math.ceil(1000 * min(seconds, LONGEST)))
        return found[0][1] if found else 0


def _descriptor(stream: ByteStream) -> int | None:
    """The descriptor by which a stream is waited for, if it has one."""
    if os.name != "posix":
        return None
    try:
        number = stream.fileno()  # type: ignore[attr-defined]
    except (AttributeError, OSError):
        return None
    return number if isinstance(number, int) else None
