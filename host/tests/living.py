"""``./stick live`` in a terminal of its own, with a host at each plug, for the tests that run it."""

from __future__ import annotations

import os
import re
import select
import tempfile
import unittest
from pathlib import Path

from fixlomand.cio import Stick

from .running import STICK
from .terminal import PATIENCE, Terminal


class Line:
    """A host's end of a pseudo-terminal; a reply that is late is an end."""

    def __init__(self, path: str) -> None:
        self._file = os.open(path, os.O_RDWR | os.O_NOCTTY)

    def read(self, size: int) -> bytes:
        return os.read(self._file, size) if select.select([self._file], [], [], PATIENCE)[0] else b""

    def write(self, data: bytes) -> int:
        return os.write(self._file, data)

    def close(self) -> None:
        os.close(self._file)


class Living(unittest.TestCase):
    """Tests of ``live``, in a folder of its own."""

    def start(
        self, *words: str, rows: int = 30, columns: int = 120, kind: str = "xterm", language: str = "C.UTF-8"
    ) -> tuple[Terminal, Stick, Stick]:
        folder = tempfile.TemporaryDirectory()
        self.addCleanup(folder.cleanup)
        self.folder = Path(folder.name)
        inside = ["sh", "-c", 'cd "$0" && exec "$@"', folder.name, "env", f"LC_ALL={language}"]
        terminal = Terminal([*inside, STICK, "live", *words], rows, columns, kind)
        self.addCleanup(terminal.close)
        terminal.wait_for_text("phone: 0")
        found = [re.search(rf"{name}: (\S+)", terminal.written.decode()) for name in ("laptop", "phone")]
        lines = [Line(match[1]) for match in found if match]
        for line in lines:
            self.addCleanup(line.close)
        laptop, phone = map(Stick, lines)
        return terminal, laptop, phone

    def end(self, terminal: Terminal, key: bytes = b"\x03") -> bytes:
        """Quits; what is written after the window is gone."""
        terminal.type(key)
        self.assertEqual(terminal.wait_for_end(), 0)
        self.assertEqual(terminal.settings(), terminal.before)
        window, after = terminal.written.split(b"\x1b[?1049l")
        self.assertIn(b"\x1b[?1049h", window)
        return after
