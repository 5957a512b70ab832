"""host/examples/stock.py run against ``./stick live``, typed at by a person."""

from __future__ import annotations

import os
import re
import subprocess
import sys
import unittest
from pathlib import Path

from fixlomand import READ, WRITE, Stick

from .running import NO_PLAY, PATIENCE, PLAY, STICK
from .terminal import Terminal

HOST = Path(STICK).parent / "host"
EXAMPLE = str(HOST / "examples" / "stock.py")


def example(*words: str) -> subprocess.Popen[bytes]:
    """Starts the example program."""
    environment = {**os.environ, "PYTHONPATH": str(HOST), "PYTHONDONTWRITEBYTECODE": "1"}
    return subprocess.Popen(
        [sys.executable, EXAMPLE, *words], stdout=subprocess.PIPE, stderr=subprocess.PIPE, env=environment
    )


@unittest.skipUnless(PLAY, NO_PLAY)
class Stock(unittest.TestCase):
    def setUp(self) -> None:
        self.terminal = Terminal([STICK, "live"], rows=40, columns=100)
        self.addCleanup(self.terminal.close)
        self.terminal.wait_for_text("phone: 0 requests")
        found = [re.search(rf"{name}: (\S+)", self.terminal.written.decode()) for name in ("laptop", "phone")]
        self.lines = [match[1] for match in found if match]

    def start(self) -> subprocess.Popen[bytes]:
        process = example(*self.lines)
        self.addCleanup(process.wait)
        self.addCleanup(process.kill)
        for stream in (process.stdout, process.stderr):
            assert stream is not None
            self.addCleanup(stream.close)
        return process

    def answer(self, question: str, text: str) -> None:
        """Types an answer, each key when the one before it is shown."""
        for typed in range(len(text) + 1):
            shown = f"  {question}{text[:typed].upper()} "
            self.terminal.wait_for(lambda: self.last_row().startswith(shown), repr(shown))
            self.terminal.type(text[typed : typed + 1].encode() or b"\r")

    def last_row(self) -> str:
        """The last row of the stick's screen that has something on it."""
        rows = [line[:40] for line in self.terminal.screen.lines()[1:25]]
        return ([""] + [row for row in rows if row.strip()])[-1]

    def test_form_and_list(self) -> None:
        program = self.start()
        self.answer("ITEM? ", "tape")
        self.answer("TAPE: 77 ON HAND, NOW? ", "5")
        self.answer("ITEM? ", "list")
        self.terminal.wait_for_text(f"  {'SWABS':<14}{950:>14}")
        self.terminal.wait_for_text(f"  {'TAPE':<14}{5:>14}  LOW")
        self.answer("ITEM? ", "")
        self.terminal.wait_for_text("7 ITEMS PRINTED")
        said = program.communicate(timeout=PATIENCE)
        self.assertEqual((program.returncode, *said), (0, b"", b""))
        self.terminal.wait_for(
            lambda: sum("open: nothing" in line for line in self.terminal.screen.lines()) == 2, "both ports closed"
        )

    def test_what_an_earlier_host_left(self) -> None:
        """Open blocks and a full paper."""
        with open(self.lines[0], "r+b", buffering=0) as line:
            Stick(line).open("P:", WRITE).put_characters(b"." * 4096)
        with open(self.lines[1], "r+b", buffering=0) as line:
            Stick(line).open("K:", READ)
        self.terminal.wait_for_text("open: 0 K1:R")
        program = self.start()
        self.answer("ITEM? ", "list")
        self.answer("ITEM? ", "")
        self.terminal.wait_for_text("THE PAPER IS FULL")
        self.assertEqual(program.wait(PATIENCE), 0)


class Words(unittest.TestCase):
    def test_what_is_wrong(self) -> None:
        for words, status, said in (
            ((), 2, b"usage: stock.py LAPTOP PHONE"),
            (("/nowhere/a", "/nowhere/b"), 1, b"stock: [Errno 2] No such file or directory: '/nowhere/a'"),
            ((os.devnull, os.devnull), 1, b"stock: "),
        ):
            with self.subTest(words=words):
                process = example(*words)
                output, errors = process.communicate(timeout=PATIENCE)
                self.assertEqual((process.returncode, output, errors[: len(said)]), (status, b"", said))


if __name__ == "__main__":
    unittest.main()
