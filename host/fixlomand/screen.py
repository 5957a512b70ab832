"""The screen of a dump as people see it: characters, and cells of colours."""

from __future__ import annotations

from typing import NamedTuple

from .script import PAPER, State


class Mode(NamedTuple):
    """A screen mode."""

    columns: int
    rows: int
    colours: int


MODES = {
    0: Mode(40, 24, 256),
    3: Mode(40, 24, 4),
    4: Mode(80, 48, 2),
    5: Mode(80, 48, 4),
    6: Mode(160, 96, 2),
    7: Mode(160, 96, 4),
    8: Mode(320, 192, 2),
}

GRAPHICS = dict(
    zip(
        (*range(0x20), 0x60, *range(0x7B, 0x80)),
        "\u2665\u251c\u2595\u2518\u2524\u2510\u2571\u2572\u25e2\u2597\u25e3\u259d\u2598\u2594\u2582\u2596"
        "\u2663\u250c\u2500\u253c\u25cf\u2584\u258e\u252c\u2534\u258c\u2514\u241b\u2191\u2193\u2190\u2192"
        "\u2666\u2660|\u21b0\u25c0\u25b6",
    )
)
"""The characters that are not ASCII: those of Unicode that look alike."""
SHADES = " .+#"
"""Colours 0 to 3 as text."""


def character(cell: int) -> str:
    """The character of a cell; bit 7, inverse, is left out."""
    code = cell & 0x7F
    return GRAPHICS.get(code, chr(code))


def is_inverse(cell: int) -> bool:
    """Whether the cell is shown in inverse video."""
    return cell >= 0x80


def cell_rows(state: State) -> list[bytes]:
    """The rows of the mode's cells."""
    mode = MODES[state.mode]
    return [state.screen[row * mode.columns : (row + 1) * mode.columns] for row in range(mode.rows)]


def text_rows(state: State) -> list[str]:
    """The rows of mode 0 as text, inverse left out."""
    return ["".join(map(character, row)) for row in cell_rows(state)]


def paper_lines(state: State) -> list[str]:
    """The lines printed so far; an EOL ends each, but maybe not the last."""
    records = state.paper[: state.used].split(b"\x9b")
    lines = ["".join(map(character, record)) for record in records]
    return lines if lines[-1] else lines[:-1]


def scaled(rows: list[bytes], width: int, height: int) -> list[bytes]:
    """Cells in another size. Where several become one it is the largest
    colour, so that thin lines stay."""
    across = _spans(len(rows[0]), width)
    taller = []
    for top, bottom in _spans(len(rows), height):
        row = bytes(map(max, zip(*rows[top:bottom])))
        taller.append(bytes(max(row[left:right]) for left, right in across))
    return taller


def _spans(old: int, new: int) -> list[tuple[int, int]]:
    """Which old places each new place stands for: at least one."""
    return [(place * old // new, max(place * old // new + 1, (place + 1) * old // new)) for place in range(new)]


# a dump as text


def shown(state: State) -> list[str]:
    """The screen and the paper of a dump, each under its name."""
    return [*_screen_shown(state), *_paper_shown(state)]


def _screen_shown(state: State) -> list[str]:
    """Characters, or colours as shades, without the empty rows at the end. A
    mode of more than 80 columns or 24 rows is made smaller to that."""
    mode = MODES.get(state.mode)
    if mode is None:
        return [f"  screen: there is no mode {state.mode}"]
    name = f"screen, mode {state.mode}, {mode.columns} by {mode.rows}"
    width, height = min(mode.columns, 80), min(mode.rows, 24)
    if (width, height) != (mode.columns, mode.rows):
        name += f", shown as {width} by {height}"
    if state.mode == 0:
        rows = text_rows(state)
    else:
        cells = scaled(cell_rows(state), width, height)
        rows = ["".join(SHADES[cell % 4] for cell in row) for row in cells]
    while rows and not rows[-1].strip():
        rows.pop()
    return _lines(name, rows, width)


def _paper_shown(state: State) -> list[str]:
    return _lines(f"paper, {state.used} of {PAPER} bytes", paper_lines(state), 0)


def _lines(name: str, lines: list[str], width: int) -> list[str]:
    """Lines between bars; those of width 0 have none at the right."""
    right = "|" if width else ""
    return [f"  {name}" + ("" if lines else ": empty"), *(f"  |{line:<{width}}{right}" for line in lines)]
