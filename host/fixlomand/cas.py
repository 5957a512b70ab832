"""The CAS format of cassette images.

A chunk is a type of four letters, a length of two bytes, two more bytes (the
auxiliary number) and its payload. ``FUJI`` has a text, which is skipped;
``baud`` has in its auxiliary number the speed of what follows; a ``data``
chunk's payload of 132 bytes is a record, its auxiliary number the gap before
it in milliseconds.
"""

from __future__ import annotations

from collections.abc import Iterator, Sequence
from dataclasses import dataclass

from .errors import StickError
from .tape import RECORD, RECORDS, Record

HEADER = 8
"""The bytes of a chunk before its payload."""
BAUD = 600
"""The speed of the 410 recorder: what is written, and what holds before the
first ``baud`` of a file."""
LEADER = 20_000
"""The gap before the first record that is written, in ms: "a 20-second leader
of mark tone"."""
GAP = 3_000
"""The gap before each further one: "stop/start PRWT = 3 seconds of mark
tone"."""
TYPES = (b"FUJI", b"baud", b"data", b"fsk ", b"pwm")
"""The types that are known, by their letters or, of four kinds, the first
three. Those of ``fsk `` and ``pwm`` hold no bytes, but how a tape sounds."""


class Refused(StickError):
    """A file that is no CAS file, or has what a tape cannot hold."""


@dataclass(frozen=True)
class Chunk:
    """A chunk, and where it stands."""

    number: int
    place: int
    kind: bytes
    auxiliary: int
    payload: bytes

    def refused(self, why: str) -> Refused:
        """That the chunk is refused, by its name and place."""
        return Refused(f"chunk {self.number} at byte {self.place}, {_name(self.kind)}: {why}")


@dataclass(frozen=True)
class Taken:
    """A record of a CAS file."""

    record: Record
    gap: int
    """The ms before it."""
    baud: int
    chunk: Chunk


def parse(data: bytes) -> list[Taken]:
    """The records of a CAS file, however many."""
    if not data:
        raise Refused("no CAS file: it is empty")
    taken = []
    baud = BAUD
    for chunk in _chunks(data):
        if chunk.kind == b"baud":
            baud = chunk.auxiliary
        elif chunk.kind == b"data":
            if len(chunk.payload) != RECORD:
                raise chunk.refused(f"{len(chunk.payload)} bytes, and a record has {RECORD}")
            taken.append(Taken(Record(chunk.payload), chunk.auxiliary, baud, chunk))
        elif chunk.kind != b"FUJI":
            raise chunk.refused("a signal, and no record")
    return taken


def check_room(taken: Sequence[Taken]) -> None:
    """They must fit a tape."""
    if len(taken) > RECORDS:
        words = f"record {RECORDS} of {len(taken)}, and a tape has {RECORDS}, 0 to {RECORDS - 1}"
        raise taken[RECORDS].chunk.refused(words)


def encode(records: Sequence[Record]) -> bytes:
    """A CAS file of these records."""
    chunks = [_chunk(b"FUJI", 0), _chunk(b"baud", BAUD)]
    chunks += [_chunk(b"data", GAP if place else LEADER, record.data) for place, record in enumerate(records)]
    return b"".join(chunks)


def _chunk(kind: bytes, auxiliary: int, payload: bytes = b"") -> bytes:
    return kind + len(payload).to_bytes(2, "little") + auxiliary.to_bytes(2, "little") + payload


def _chunks(data: bytes) -> Iterator[Chunk]:
    at, number = 0, 1
    while at < len(data):
        kind = data[at : at + 4]
        length, auxiliary = (int.from_bytes(data[at + place : at + place + 2], "little") for place in (4, 6))
        chunk = Chunk(number, at, kind, auxiliary, data[at + HEADER : at + HEADER + length])
        # The letters may be cut short too.
        if not any(kind[: len(each)] == each[: len(kind)] for each in TYPES):
            raise chunk.refused("an unknown type")
        if len(data) < at + HEADER:
            raise chunk.refused(f"cut short: {len(data) - at} of the {HEADER} bytes before its payload are there")
        if len(chunk.payload) < length:
            raise chunk.refused(f"cut short: {len(chunk.payload)} of {length} bytes are there")
        yield chunk
        at += HEADER + length
        number += 1


def _name(kind: bytes) -> str:
    """A type as it is written."""
    return repr(kind.decode("latin-1"))
