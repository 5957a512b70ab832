"""A terminal for a program under test: what is shown in it, keys typed."""

from __future__ import annotations

import fcntl
import os
import re
import select
import struct
import subprocess
import termios
import threading
import time
from collections.abc import Callable, Sequence

PATIENCE = 60.0
"""Seconds until something that does not come counts as missing."""
SEQUENCE = re.compile(rb"\x1b\[([?>]?)([0-9;]*)([a-zA-Z])|\x1b[()][A-Z0-9]|\x1b[=>78DEHMc]|[\x00-\x08\x0e\x0f]")


class Screen:
    """As much of an xterm as curses needs: characters, which are inverse."""

    def __init__(self, rows: int, columns: int) -> None:
        self.rows, self.columns = rows, columns
        self.cells = [[" "] * columns for _ in range(rows)]
        self.inverse = [[False] * columns for _ in range(rows)]
        self._row = self._column = 0
        self._top, self._bottom = 0, rows - 1
        self._inverse = False
        self._last = " "
        self._rest = b""

    def lines(self) -> list[str]:
        """What is shown."""
        return ["".join(row) for row in self.cells]

    def feed(self, data: bytes) -> None:
        """Shows what a program wrote; a part of something waits for the rest."""
        data = self._rest + data
        at = 0
        while at < len(data):
            match = SEQUENCE.match(data, at)
            length = 1 if data[at] < 0x80 else 2 if data[at] < 0xE0 else 3 if data[at] < 0xF0 else 4
            if match:
                self._control(match)
                at = match.end()
            elif data[at] == 0x1B or at + length > len(data):
                break
            else:
                self._character(data[at : at + length].decode("utf-8", "replace"))
                at += length
        self._rest = data[at:]

    def _character(self, character: str) -> None:
        if character == "\r":
            self._column = 0
        elif character == "\t":
            self._column = min(self._column // 8 * 8 + 8, self.columns - 1)
        elif character == "\n":
            self._down()
        else:
            self._show(character)

    def _show(self, character: str) -> None:
        if self._column >= self.columns:
            self._row, self._column = min(self._row + 1, self.rows - 1), 0
        self._last = character
        self._set(self._column, character, self._inverse)
        self._column += 1

    def _set(self, column: int, character: str, inverse: bool = False) -> None:
        self.cells[self._row][column] = character
        self.inverse[self._row][column] = inverse

    def _control(self, match: re.Match[bytes]) -> None:
        if match[0] == b"\x08":
            self._column = max(0, self._column - 1)
        elif match[0] == b"\x1bD":
            self._down()
        elif match[0] == b"\x1bM":
            if self._row == self._top:
                self._scroll(-1)
            self._row = max(0, self._row - (self._row != self._top))
        if match[3] is None or match[1]:
            return
        numbers = [int(number or 0) for number in match[2].split(b";")]
        first, letter = numbers[0], match[3].decode()
        if letter == "H":
            self._row, self._column = max(first, 1) - 1, max((numbers + [1])[1], 1) - 1
        elif letter == "d":
            self._row = max(first, 1) - 1
        elif letter == "G":
            self._column = max(first, 1) - 1
        elif letter in "ABCD":
            step = max(first, 1)
            self._row += {"A": -step, "B": step}.get(letter, 0)
            self._column += {"C": step, "D": -step}.get(letter, 0)
        elif letter == "J":
            below = range(self._row + 1, self.rows) if first == 0 else range(self.rows)
            for row in below:
                self.cells[row], self.inverse[row] = [" "] * self.columns, [False] * self.columns
            self._blank(self._column if first == 0 else 0, self.columns)
        elif letter == "K":
            self._blank(0 if first else self._column, self._column + 1 if first == 1 else self.columns)
        elif letter == "X":
            self._blank(self._column, min(self.columns, self._column + max(first, 1)))
        elif letter in "P@":
            self._shift(max(first, 1) if letter == "@" else -max(first, 1))
        elif letter == "r":
            self._top, self._bottom = max(first, 1) - 1, (numbers[1:] or [self.rows])[0] - 1
            self._row = self._column = 0
        elif letter in "ST":
            self._scroll(max(first, 1) if letter == "S" else -max(first, 1))
        elif letter == "b":
            for _ in range(first):
                self._show(self._last)
        elif letter == "m":
            for number in numbers:
                self._inverse = number == 7 or self._inverse and number not in (0, 27)

    def _down(self) -> None:
        if self._row == self._bottom:
            self._scroll(1)
        else:
            self._row = min(self._row + 1, self.rows - 1)

    def _scroll(self, step: int) -> None:
        """Moves the rows of the region up, or down."""
        for _ in range(abs(step)):
            gone, new = (self._top, self._bottom) if step > 0 else (self._bottom, self._top)
            for lines, blank in ((self.cells, " "), (self.inverse, False)):
                del lines[gone]
                lines.insert(new, [blank] * self.columns)  # type: ignore[arg-type]

    def _shift(self, step: int) -> None:
        """Moves what is at and after the cursor right or left."""
        for line, blank in ((self.cells[self._row], " "), (self.inverse[self._row], False)):
            rest = [blank] * step + line[self._column :][max(0, -step) :] + [blank] * -step  # type: ignore[operator]
            line[self._column :] = rest[: self.columns - self._column]  # type: ignore[assignment]

    def _blank(self, begin: int, end: int) -> None:
        for column in range(begin, end):
            self._set(column, " ")


class Terminal:
    """A program that runs in a pseudo-terminal of its own."""

    def __init__(self, command: Sequence[str], rows: int = 30, columns: int = 100, kind: str = "xterm") -> None:
        self._master, self._slave = os.openpty()
        fcntl.ioctl(self._slave, termios.TIOCSWINSZ, struct.pack("HHHH", rows, columns, 0, 0))
        self.before = termios.tcgetattr(self._slave)
        self.screen = Screen(rows, columns)
        self.written = b""
        environment = {**os.environ, "TERM": kind, "LC_ALL": "C.UTF-8"}
        self.process = subprocess.Popen(
            command, stdin=self._slave, stdout=self._slave, stderr=self._slave, env=environment, start_new_session=True
        )
        # All the time, so that the program never waits for its terminal.
        self._closing = threading.Event()
        self._reader = threading.Thread(target=self._read, daemon=True)
        self._reader.start()

    def settings(self) -> list[object]:
        """How the terminal is set now."""
        return termios.tcgetattr(self._slave)

    def type(self, keys: bytes) -> None:
        """Types keys."""
        os.write(self._master, keys)

    def wait_for(self, found: Callable[[], object], what: str) -> None:
        """Waits until something is found."""
        end = time.monotonic() + PATIENCE
        while not found():
            if time.monotonic() > end:
                shown = "\n".join(line.rstrip() for line in self.screen.lines())
                raise AssertionError(f"{what} did not come; the terminal shows\n{shown}")
            time.sleep(0.02)

    def wait_for_text(self, text: str) -> None:
        """Until a text is shown."""
        self.wait_for(lambda: any(text in line for line in self.screen.lines()), repr(text))

    def wait_for_end(self) -> int:
        """Until the program ends and all it wrote is shown; its status."""
        self.wait_for(lambda: self.process.poll() is not None, "the end")
        self._stop_reading()
        return self.process.returncode

    def close(self) -> None:
        """Ends the program, however it is."""
        self.process.kill()
        self.process.wait()
        self._stop_reading()
        os.close(self._master)
        os.close(self._slave)

    def _read(self) -> None:
        while True:
            if select.select([self._master], [], [], 0.1)[0]:
                data = os.read(self._master, 65_536)
                self.written += data
                self.screen.feed(data)
            elif self._closing.is_set():
                return

    def _stop_reading(self) -> None:
        self._closing.set()
        self._reader.join()
