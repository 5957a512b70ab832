"""The screen as a PNG: graphics modes in colours, text in letters."""

from __future__ import annotations

import struct
import zlib

from . import letters, screen
from .cio import WRITE, Stick
from .play import Player, PlayPort
from .script import State

WIDTH, HEIGHT = 320, 192
"""The screen in its finest mode; letters and larger cells fill it too."""
SCALE = 2
"""Pixels of the picture for one of the screen, across and down."""
BORDER = 8
"""Pixels of the screen around it, in colour 0."""

Colour = tuple[int, int, int]
TEXT: tuple[Colour, ...] = ((28, 62, 140), (190, 214, 255))
"""Paper and ink of mode 0 and of mode 8."""
GRAPHICS: tuple[Colour, ...] = ((0, 0, 0), (226, 142, 44), (112, 196, 92), (60, 104, 208))
"""Colours 0 to 3 of the other modes."""


def palette(mode: int) -> tuple[Colour, ...]:
    """The colours of a mode."""
    return TEXT if mode in (0, 8) else GRAPHICS


def pixels(state: State) -> list[bytes]:
    """The screen, 192 rows of 320 colours."""
    rows = screen.cell_rows(state)
    if state.mode != 0:
        return screen.scaled(rows, WIDTH, HEIGHT)
    lines = []
    for row in rows:
        drawn = [letters.letter(cell) for cell in row]
        for line in range(letters.HEIGHT):
            lines.append(bytes(glyph[line] >> bit & 1 for glyph in drawn for bit in range(7, -1, -1)))
    return lines


def png(state: State) -> bytes:
    """The screen with its border as a PNG."""
    side = bytes(BORDER)
    edge = [bytes(WIDTH + 2 * BORDER)] * BORDER
    framed = edge + [side + row + side for row in pixels(state)] + edge
    wide = [bytes(colour for colour in row for _ in range(SCALE)) for row in framed]
    return _png([row for row in wide for _ in range(SCALE)], palette(state.mode))


def _png(rows: list[bytes], colours: tuple[Colour, ...]) -> bytes:
    """A PNG of colour numbers: eight bits each, no filter."""
    header = struct.pack(">IIBBBBB", len(rows[0]), len(rows), 8, 3, 0, 0, 0)
    data = zlib.compress(b"".join(b"\0" + row for row in rows), 9)
    parts = (b"IHDR", header), (b"PLTE", b"".join(map(bytes, colours))), (b"IDAT", data), (b"IEND", b"")
    return b"\x89PNG\r\n\x1a\n" + b"".join(_chunk(kind, value) for kind, value in parts)


def _chunk(kind: bytes, value: bytes) -> bytes:
    return struct.pack(">I", len(value)) + kind + value + struct.pack(">I", zlib.crc32(kind + value))


# the drawing that is shown when there is no script


def draw(player: Player) -> None:
    """The stick between a laptop and a phone, drawn by a host in mode 7."""
    with Stick(PlayPort(player, 0)).open("S:", WRITE, 7) as screen_file:
        screen_file.put_characters(b"".join(drawing()))


def drawing() -> list[bytes]:
    """The cells of the drawing, 96 rows of 160."""
    cells = [bytearray(160) for _ in range(96)]

    def box(left: int, top: int, right: int, bottom: int, colour: int) -> None:
        for row in cells[top:bottom]:
            row[left:right] = bytes([colour]) * (right - left)

    box(8, 22, 58, 58, 3)  # the laptop: lid, glass, what it lists, keys
    box(11, 25, 55, 55, 0)
    for line in range(28, 53, 4):
        box(14, line, 14 + 12 + line * 7 % 23, line + 2, 2)
    box(3, 60, 63, 66, 3)
    box(7, 62, 59, 64, 0)
    box(122, 20, 150, 70, 3)  # the phone: glass, what it asks, button
    box(125, 25, 147, 60, 0)
    box(128, 29, 140, 31, 2)
    box(128, 34, 144, 36, 2)
    box(128, 39, 135, 41, 1)
    box(133, 63, 139, 67, 0)
    box(74, 56, 110, 70, 1)  # the stick: two plugs, two lights
    box(70, 60, 74, 66, 2)
    box(110, 60, 114, 66, 2)
    box(80, 61, 84, 65, 0)
    box(100, 61, 104, 65, 0)
    box(63, 62, 70, 64, 2)  # the cables
    box(114, 62, 122, 64, 2)
    box(0, 80, 160, 82, 1)  # the desk
    return [bytes(row) for row in cells]
