"""Diskettes and ATR files for tests, byte by byte."""

from __future__ import annotations

from collections.abc import Mapping, Sequence

NAME = b"HELLO   TXT"
MAP = b"\x07" + b"\xff" * 44 + b"\x00\x7f" + b"\xff" * 43
"""The map of a diskette whose one file has sector 4 alone."""


def sector(file: int, link: int, data: bytes, count: int | None = None) -> bytes:
    """A sector of a file. Its count may be wrong."""
    last = [4 * file + link // 256, link % 256, len(data) if count is None else count]
    return data.ljust(125, b"\0") + bytes(last)


def entry(name: bytes, first: int, count: int = 1, flag: int = 0x42) -> bytes:
    """An entry of the directory."""
    return bytes([flag, count % 256, count // 256, first % 256, first // 256]) + name


def image(entries: Sequence[bytes] = (), sectors: Mapping[int, bytes] | None = None, free: int = 706) -> bytes:
    """A diskette with these entries and sectors."""
    held = {360: bytes([2, 0xC3, 2, free % 256, free // 256]) + bytes(5) + MAP}
    listed = b"".join(entries)
    for place in range(8):
        held[361 + place] = listed[128 * place : 128 * place + 128]
    held.update(sectors or {})
    return b"".join(held.get(number, b"").ljust(128, b"\0") for number in range(1, 721))


HELLO = image([entry(NAME, 4)], {4: sector(0, 0, b"HI\x9b")})
"""A diskette with one file of three characters."""


def atr(data: bytes, size: int = 128, paragraphs: int | None = None, rest: bytes = bytes(9)) -> bytes:
    """An ATR file: any bytes, and what its header says of them."""
    number = len(data) // 16 if paragraphs is None else paragraphs
    return b"\x96\x02" + (number % 65_536).to_bytes(2, "little") + size.to_bytes(2, "little") + bytes([number >> 16]) + rest + data
