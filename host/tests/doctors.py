"""A doctor for tests, from Ask 13 and its readings alone, and a ``play`` that has no other op than those it needs.

As a program it is that ``play``: it takes F, W and R. ``--broken`` makes it one that goes wrong: ``old`` lists another old byte,
``left`` leaves the free count as it is, ``refuse`` answers 1, ``cut`` ends inside the list.
"""

from __future__ import annotations

import shlex
import sys
from typing import BinaryIO

IMAGE = 92_160
RESERVED = (1, 2, 3, *range(360, 369))
PLAY = shlex.join([sys.executable, __file__])


def place(number: int) -> int:
    """Where a sector lies."""
    return 128 * (number - 1)


def doctor(image: bytearray) -> bytes:
    """Repairs an image; the list of changes, five bytes each."""
    old = bytes(image)
    listed = bytearray()

    def put(number: int, at: int, new: int) -> None:
        where = place(number) + at
        if old[where] != new:
            listed.extend((number % 256, number // 256, at, old[where], new))
            image[where] = new

    claimed: set[int] = set()
    for file in range(64):
        number, at = 361 + file // 8, 16 * (file % 8)
        entry = old[place(number) + at : place(number) + at + 16]
        if entry[0] == 0:
            break
        if entry[0] & 0xC0 != 0x40:
            continue
        kept: list[int] = []
        here = entry[3] + 256 * entry[4]
        while here:
            last = old[place(here) + 125 : place(here) + 128]
            if here in RESERVED or here > 719 or here in claimed or last[0] // 4 != file or last[2] > 125:
                break
            kept.append(here)
            claimed.add(here)
            here = last[0] % 4 * 256 + last[1]
        if here and not kept:
            put(number, at, 0x80)
            continue
        if here:
            put(kept[-1], 125, old[place(kept[-1]) + 125] & 0xFC)
            put(kept[-1], 126, 0)
        put(number, at + 1, len(kept) % 256)
        put(number, at + 2, len(kept) // 256)
    free = {number for number in range(1, 720) if number not in RESERVED and number not in claimed}
    put(360, 3, len(free) % 256)
    put(360, 4, len(free) // 256)
    for byte in range(90):
        bits = old[place(360) + 10] & 0x80 if byte == 0 else 0
        for bit in range(8):
            if 8 * byte + bit in free:
                bits |= 0x80 >> bit
        put(360, 10 + byte, bits)
    return bytes(listed)


def answer(images: bytearray, which: int) -> bytes:
    """What is written for R."""
    if which > 3:
        return bytes.fromhex("01 00 00")
    image = images[IMAGE * which : IMAGE * (which + 1)]
    listed = doctor(image)
    images[IMAGE * which : IMAGE * (which + 1)] = image
    return b"\0" + (len(listed) // 5).to_bytes(2, "little") + listed


def play(source: BinaryIO, target: BinaryIO, broken: str = "") -> None:
    """Plays F, W and R; anything else ends the run."""
    images = bytearray(4 * IMAGE)
    while True:
        op = source.read(1)
        if op == b"F":
            target.write(b"\0")
        elif op == b"W":
            head = source.read(6)
            at, data = int.from_bytes(head[1:4], "little"), source.read(int.from_bytes(head[4:6], "little"))
            if head[0] == 6:
                data = data[: max(0, len(images) - at)]
                images[at : at + len(data)] = data
        elif op == b"R":
            which = source.read(1)[0]
            written = answer(images, which)
            if broken == "old" and len(written) > 3:
                written = written[:6] + bytes([written[6] ^ 1]) + written[7:]
            if broken == "left" and which == 0:
                written = b"\0" + (int.from_bytes(written[1:3], "little") - 1).to_bytes(2, "little") + written[3:-5]
            if broken == "refuse":
                written = bytes.fromhex("01 00 00")
            target.write(written[:-1] if broken == "cut" else written)
            if broken == "cut":
                return
        else:
            return
        target.flush()


if __name__ == "__main__":
    play(sys.stdin.buffer, sys.stdout.buffer, sys.argv[2] if len(sys.argv) > 2 else "")
