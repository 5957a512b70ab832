"""The console, the paper, the tape, the diskettes and the ports, drawn with
curses."""

from __future__ import annotations

import curses
import locale
import textwrap
from collections.abc import Sequence

from . import ports, screen, tape, toolchain
from .keys import LOCKS
from .script import State, Tape
from .wire import DIRECTORY

FOOT = (
    ("F1 inverse", "F1 inv"),
    ("F2 unlock", "F2 unlock"),
    ("F3 shift lock", "F3 shift"),
    ("F4 control lock", "F4 ctrl"),
    ("F5 end of file", "F5 EOF"),
    ("F6 clear", "F6 clear"),
    ("F7 save paper", "F7 paper"),
    ("F8 save picture", "F8 picture"),
    ("Ctrl-C quits", "^C quits"),
)
"""The keys at the foot of the window, each in long and short."""
PANEL = 38
"""Columns for what stands beside the screen."""
MARGIN = 10
"""The fewest columns of that for which lines are broken."""
UPPER_HALF = "\u2580"


def foot(width: int) -> list[str]:
    """The lines at the foot of a window: all keys are on them, in long if one
    line is enough for that."""
    for gap in ("  ", " "):
        line = gap.join(long for long, _ in FOOT)
        if len(line) <= width:
            return [line]
    lines = [""]
    for _, short in FOOT:
        longer = f"{lines[-1]} {short}".strip()
        if len(longer) <= width:
            lines[-1] = longer
        else:
            lines.append(short)
    return lines


class View:
    """Draws a dump into a window, cut to its size."""

    def __init__(self, window: curses.window, paths: Sequence[str], diskettes: Sequence[str]) -> None:
        self._window = window
        self._paths = paths
        self._diskettes = diskettes
        self._unicode = "UTF" in locale.nl_langinfo(locale.CODESET).upper()
        self._colours = self._make_colours()
        try:
            curses.curs_set(0)
        except curses.error:
            pass  # this terminal always shows it

    def _make_colours(self) -> bool:
        """A pair for each two colours, the upper and the lower half of a
        character; false if the terminal has no colours or no halves."""
        if curses.has_colors():
            curses.use_default_colors()
        if not (curses.has_colors() and self._unicode and curses.COLOR_PAIRS > 16):
            return False
        colours = (curses.COLOR_BLACK, curses.COLOR_YELLOW, curses.COLOR_GREEN, curses.COLOR_BLUE)
        for upper in range(4):
            for lower in range(4):
                curses.init_pair(1 + 4 * upper + lower, colours[upper], colours[lower])
        return True

    def draw(self, state: State, reel: Tape, both: Sequence[ports.Port], waiting: int = 0, notice: str = "") -> None:
        """Draws all; so many keys wait to be pressed, and a notice is at the
        foot in place of the keys."""
        self._window.erase()
        height, width = self._window.getmaxyx()
        self._put(0, 0, f"{toolchain.title()}   laptop {self._paths[0]}   phone {self._paths[1]}", curses.A_BOLD)
        room = max(40, width - PANEL)
        last = foot(width - 1)
        rows = height - 1 - len(last)
        if state.mode == 0:
            room = 40
            self._text(state, rows)
        else:
            self._graphics(state, room, rows)
        self._panel(state, reel, both, waiting, room + 2, rows)
        for place, line in enumerate([notice] if notice else last):
            self._put(1 + rows + place, 0, line, curses.A_REVERSE)
        self._window.refresh()

    def _put(self, row: int, column: int, text: str, attribute: int = 0) -> None:
        """Text as far as it fits; the last place of the window stays empty.
        What the terminal cannot show is a question mark."""
        if not self._unicode:
            text = text.encode("ascii", "replace").decode()
        height, width = self._window.getmaxyx()
        if 0 <= row < height and column < width - 1:
            try:
                self._window.addnstr(row, column, text, width - 1 - column, attribute)
            except curses.error:
                pass  # the window has just become smaller

    def _text(self, state: State, height: int) -> None:
        """Mode 0; in a low window the rows around the cursor."""
        rows = screen.cell_rows(state)
        first = max(0, min(state.row - height + 1, len(rows) - height))
        for place, row in enumerate(rows[first : first + height]):
            for column, cell in enumerate(row):
                attribute = curses.A_REVERSE if screen.is_inverse(cell) else 0
                if (first + place, column) == (state.row, state.column):
                    attribute ^= curses.A_REVERSE
                self._put(1 + place, column, screen.character(cell), attribute)

    def _graphics(self, state: State, width: int, height: int) -> None:
        """Another mode, as large as fits in the shape of the real screen
        (five to three); a character holds two cells, one over the other."""
        width = max(2, min(width, 2 * height * 5 // 3))
        height = max(1, width * 3 // 5 // 2)
        rows = screen.scaled(screen.cell_rows(state), width, 2 * height)
        for place in range(height):
            upper, lower = rows[2 * place], rows[2 * place + 1]
            if not self._colours:
                self._put(1 + place, 0, "".join(screen.SHADES[max(pair) % 4] for pair in zip(upper, lower)))
                continue
            for column, (above, below) in enumerate(zip(upper, lower)):
                pair = curses.color_pair(1 + 4 * (above % 4) + below % 4)
                self._put(1 + place, column, UPPER_HALF, pair)

    def _panel(
        self, state: State, reel: Tape, both: Sequence[ports.Port], waiting: int, column: int, height: int
    ) -> None:
        """The ports, the keyboard, the tape, the diskettes and the end of the
        paper. What is too long for a narrow window goes on in the next line."""
        lines: list[tuple[str, int]] = []
        for port, name in zip(both, ("laptop", "phone")):
            lines.append((f"port {port.number}, {name}: {port.requests} requests", curses.A_BOLD))
            lines.append((f"  {ports.describe(port, state)}", 0))
            lines.append((f"  open: {_blocks(state, port.number)}", 0))
        key = "none" if state.key == 0xFF else f"${state.key:02X}"
        inverse = ", inverse" if state.inverse else ""
        lines.append((f"mode {state.mode}, cursor {state.row},{state.column}", 0))
        lines.append((f"key {key}, {LOCKS[state.lock]}{inverse}", 0))
        if waiting:
            lines.append((f"  {waiting} more {'keys wait' if waiting > 1 else 'key waits'}", 0))
        lines.append((f"tape, {tape.summary(tape.records_of(reel.data))}", curses.A_BOLD))
        lines.append((f"  {tape.head_words(reel)}", 0))
        if self._diskettes:
            lines.append(("diskettes", curses.A_BOLD))
            lines += [(f"  {each}", 0) for each in self._diskettes]
        lines.append((f"paper, {state.used} of 4096 bytes", curses.A_BOLD))
        width = max(MARGIN, self._window.getmaxyx()[1] - 1 - column)
        lines = [(part, attribute) for text, attribute in lines for part in _wrapped(text, width)]
        room = height - len(lines)
        lines += [(f"  {line}", 0) for line in screen.paper_lines(state)[-room:] if room > 0]
        for row, (text, attribute) in enumerate(lines[:height]):
            self._put(1 + row, column, text, attribute)


def _wrapped(text: str, width: int) -> list[str]:
    """A text in lines; the first has its indent, the others one more."""
    indent = " " * (len(text) - len(text.lstrip()))
    return textwrap.wrap(text.lstrip(), width, initial_indent=indent, subsequent_indent=indent + "  ")


def _blocks(state: State, port: int) -> str:
    """The open blocks of a port: number, device, R and W, or that it is a
    directory."""
    opened = []
    for place, block in enumerate(state.blocks[port]):
        if block.is_open:
            rights = ("R" if block.aux1 & 4 else "") + ("W" if block.aux1 & 8 else "")
            if block.device == "D" and block.aux1 == DIRECTORY:
                rights = "directory"
            opened.append(f"{place} {block.device}{block.number}:{rights}")
    return ", ".join(opened) or "nothing"
