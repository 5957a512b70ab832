"""Records and CAS files for tests, byte by byte."""

from __future__ import annotations

FULL, PARTIAL, END = 0xFC, 0xFA, 0xFE


def record(control: int, data: bytes = b"", count: int | None = None, unused: int = 0) -> bytes:
    """A record with its checksum. Of a partial one the count may be wrong, and its unused bytes be something."""
    body = bytes([0x55, 0x55, control]) + data.ljust(128, bytes([unused]))
    if control == PARTIAL:
        body = body[:130] + bytes([len(data) if count is None else count])
    total = sum(body)
    # Modulo 255, but for a sum above 0 that is a multiple: carries added back never make 0 of it.
    return body + bytes([total % 255 or (255 if total else 0)])


AB = record(PARTIAL, b"AB\x9b")
LAST = record(END)


def bad(good: bytes) -> bytes:
    """The record with a wrong checksum."""
    return good[:-1] + bytes([good[-1] ^ 1])


def chunk(kind: bytes, auxiliary: int = 0, payload: bytes = b"") -> bytes:
    """A chunk of a CAS file."""
    return kind + len(payload).to_bytes(2, "little") + auxiliary.to_bytes(2, "little") + payload


def cas(*records: bytes, text: bytes = b"STOCK LIST, SIDE A", baud: int = 600, gap: int = 260) -> bytes:
    """A CAS file as recorders make it: a text, the speed, and records behind a leader."""
    gaps = [20_000] + [gap] * (len(records) - 1)
    return chunk(b"FUJI", 0, text) + chunk(b"baud", baud) + b"".join(map(chunk, [b"data"] * len(records), gaps, records))


def tape(*records: bytes) -> bytes:
    """A TAPE that begins with these records."""
    return b"".join(records).ljust(33_000, b"\0")
