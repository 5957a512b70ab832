"""The example firmware, over two pseudo-terminals, with a host at each.

FIXLOMAND_BOARD names the command that builds and starts it.
"""

from __future__ import annotations

import os
import select
import shlex
import subprocess
import tempfile
import threading
import time
import unittest
from collections.abc import Callable

from fixlomand import errors, wire
from fixlomand.cio import EOL, FORCED, READ, WRITE, File, Stick

from .terminal import Terminal

BOARD = os.environ.get("FIXLOMAND_BOARD", "")
PATIENCE = 60.0
"""Seconds until something that does not come counts as missing."""
TYPING = 0.12
"""Seconds that the firmware's simulated typist takes for a key."""
RESTARTED = "fresh start, both links reset"
BANDAGES = (0x15, 0x3F, 0x23, 0x3A, 0x3F, 0x3D, 0x2A, 0x3E)


class Line:
    """A host's end of a link; a reply that is late is an end."""

    def __init__(self, path: str, patience: float = PATIENCE) -> None:
        self._file = os.open(path, os.O_RDWR | os.O_NOCTTY)
        self.patience = patience

    def read(self, size: int) -> bytes:
        return os.read(self._file, size) if self.has_bytes(self.patience) else b""

    def write(self, data: bytes) -> int:
        return os.write(self._file, data)

    def has_bytes(self, patience: float) -> bool:
        """Whether something to read is there, or comes so soon."""
        return bool(select.select([self._file], [], [], patience)[0])

    def close(self) -> None:
        if self._file >= 0:
            os.close(self._file)
            self._file = -1


def read_keys(keyboard: File, count: int) -> bytes:
    """So many characters from the keyboard, each as soon as it is there; fewer if they do not come."""
    got = bytearray()
    end = time.monotonic() + PATIENCE
    while len(got) < count and time.monotonic() < end:
        try:
            got.append(keyboard.get_character())
        except errors.EndOfFile:
            time.sleep(0.005)
    return bytes(got)


@unittest.skipUnless(BOARD, "FIXLOMAND_BOARD names no example firmware to start")
class Board(unittest.TestCase):
    def setUp(self) -> None:
        self.said = tempfile.TemporaryFile()
        self.addCleanup(self.said.close)
        self.process = subprocess.Popen(
            shlex.split(BOARD), stdin=subprocess.PIPE, stdout=subprocess.PIPE, stderr=self.said, text=True
        )
        assert self.process.stdin is not None and self.process.stdout is not None
        self.input, self.output = self.process.stdin, self.process.stdout
        self.addCleanup(self.end)
        self.paths = [self.line_after(f"{name}: ") for name in ("laptop", "phone")]
        self.lines = [Line(path) for path in self.paths]
        for line in self.lines:
            self.addCleanup(line.close)
        self.laptop, self.phone = map(Stick, self.lines)

    def line_after(self, begin: str) -> str:
        """The next line of the firmware, which begins so; what follows."""
        line = self.output.readline()
        self.assertTrue(line.startswith(begin), f"the firmware wrote {line!r}, not {begin!r}, and said:\n{self.says()}")
        return line[len(begin) :].rstrip("\n")

    def says(self) -> str:
        """What is on the firmware's standard error so far."""
        return os.pread(self.said.fileno(), 100_000, 0).decode()

    def tell(self, line: str) -> None:
        """A line for the firmware's standard input."""
        self.input.write(line + "\n")
        self.input.flush()

    def end(self) -> None:
        """The firmware ends with its input."""
        try:
            self.input.close()
            self.assertEqual(self.process.wait(PATIENCE), 0)
        finally:
            self.process.kill()
            self.process.wait()
            self.output.close()

    def shown(self) -> tuple[list[str], str]:
        """The rows of the text screen, and the paper."""
        self.tell("show")
        rows = [self.line_after("screen: ") for _ in range(24)]
        paper = self.line_after("paper: ")
        self.line_after("shown")
        return rows, paper

    def wait_for(self, found: Callable[[], object], what: str) -> None:
        """Waits until something is so."""
        end = time.monotonic() + PATIENCE
        while not found():
            self.assertLess(time.monotonic(), end, f"{what} did not come")

    def test_a_long_request_holds_nobody_up(self) -> None:
        """While the laptop reads a whole graphics screen, a request of 61,441 ticks, the phone's LOADs are answered as ever."""
        picture = self.laptop.open("S:", READ | WRITE, 8)
        ends: list[errors.StickError] = []

        def read_all() -> None:
            try:
                picture.get_record(1)
            except errors.StickError as end:
                ends.append(end)

        laptop = threading.Thread(target=read_all)
        laptop.start()
        loads = 0
        while laptop.is_alive():
            self.phone.load(0, b"x")
            loads += 1
        laptop.join()
        self.assertIsInstance(ends[0], errors.CursorPastLastRow)
        # A board with one lock answers the first LOAD when the request has ended; how many fit in depends on the machine.
        self.assertGreater(loads, 3)

    def test_both_ends(self) -> None:
        printer = self.laptop.open("P2:", WRITE)
        editor = self.phone.open("E:", READ | WRITE | FORCED)
        self.assertEqual(printer.put_record(b"ten boxes of lint"), 17)
        self.assertEqual(editor.put_record(b"AB"), 2)
        editor.put_character(0x1C)
        self.assertEqual(editor.get_record(), b"AB\x9b")
        rows, paper = self.shown()
        self.assertEqual(rows[0].rstrip(), "  AB")
        self.assertEqual(paper, "ten boxes of lint/")
        with self.assertRaises(errors.PaperFull) as caught:
            printer.put_record(b"y" * 5000)
        self.assertEqual(caught.exception.count, 4096 - 18)

    def test_areas_are_apart(self) -> None:
        loaded = bytes(range(256)) * 64
        self.laptop.load(0, loaded)
        self.assertEqual(self.phone.fetch(0, 16_384), bytes(16_384))
        self.assertEqual(self.laptop.fetch(0, 16_384), loaded)

    def test_keys(self) -> None:
        keyboard = self.phone.open("K:", READ)
        self.assertRaises(errors.EndOfFile, keyboard.get_character)
        # plain, with shift, with control; the fresh stick has shift lock
        typed = ((0x3F, 0x41), (0x7F, 0x41), (0xBF, 0x01), (0x33, ord("7")), (0x5F, ord("!")), (0x0C, EOL))
        for code, character in typed:
            with self.subTest(code=code):
                self.tell(f"{code:02X}")
                self.assertEqual(read_keys(keyboard, 1), bytes([character]))
        # each is pressed once, however its contacts bounce
        for _ in range(20):
            self.assertRaises(errors.EndOfFile, keyboard.get_character)
            time.sleep(0.01)

    def test_keys_wait_for_their_reader(self) -> None:
        """A word and RETURN, read when all of it has been typed; a request is at the screen at its beginning."""
        picture = self.laptop.open("S:", READ | WRITE, 8)
        keyboard = self.phone.open("K:", READ)
        codes = (0x3C, *BANDAGES, 0x21, 0x35, 0x0C)  # CAPS, which unlocks; the word; blank, 8, RETURN
        self.tell(" ".join(f"{code:02X}" for code in codes))
        typed = time.monotonic() + (len(codes) + 1) * TYPING
        self.assertRaises(errors.CursorPastLastRow, picture.get_record, 1)
        time.sleep(max(0.0, typed - time.monotonic()))
        self.assertEqual(read_keys(keyboard, 11), b"bandages 8\x9b")
        self.assertRaises(errors.EndOfFile, keyboard.get_character)

    def test_the_tape(self) -> None:
        """Both hosts have the one tape; it is bad before it is written, and outlasts a fresh start."""
        with self.assertRaises(errors.Checksum):
            self.phone.open("C:", READ).get_character()
        self.assertRaises(errors.AlreadyOpen, self.laptop.open, "C:", WRITE)
        self.phone.close_all()
        tape = self.laptop.open("C:", WRITE)
        for number in range(20):
            tape.put_record(b"item %d" % number)
        self.laptop.close_all()
        self.tell("damage")
        self.wait_for(lambda: RESTARTED in self.says(), "the fresh start")
        tape = self.phone.open("C:", READ)
        self.assertEqual(list(tape.records(40)), [b"item %d\x9b" % number for number in range(20)])
        self.assertTrue(tape.at_end)
        self.assertRaises(errors.EndOfFile, tape.get_record, 40)

    def test_what_is_no_key(self) -> None:
        keyboard = self.phone.open("K:", READ)
        for line in ("15 3G", "100", "", "15,3F", "shout"):
            self.tell(line)
            self.wait_for(lambda: f"not '{line}'\n" in self.says(), f"a word about {line!r}")
        self.tell("3F")
        self.assertEqual(read_keys(keyboard, 1), b"A")

    def test_two_hosts_at_once(self) -> None:
        """A long print and a long listing on the screen."""
        printer = self.laptop.open("P:", WRITE)
        editor = self.phone.open("E:", WRITE)
        printing = threading.Thread(target=printer.put_characters, args=(b"stock " * 500,), daemon=True)
        listing = threading.Thread(target=editor.put_characters, args=(b"list " * 1000,), daemon=True)
        printing.start()
        listing.start()
        for thread in (printing, listing):
            thread.join(PATIENCE)
            self.assertFalse(thread.is_alive())
        rows, paper = self.shown()
        self.assertEqual(paper, "stock " * 500)
        self.assertTrue(all("list" in row for row in rows[:23]))

    def test_one_waits(self) -> None:
        """Both at the screen: each record is whole, whichever comes first."""
        editors = [stick.open("E:", WRITE) for stick in (self.laptop, self.phone)]
        texts = (b"from the laptop", b"from the phone ")

        def put(editor: File, text: bytes) -> None:
            for _ in range(8):
                editor.put_record(text)

        threads = [threading.Thread(target=put, args=each, daemon=True) for each in zip(editors, texts)]
        for thread in threads:
            thread.start()
        for thread in threads:
            thread.join(PATIENCE)
            self.assertFalse(thread.is_alive())
        rows = sorted(row.strip() for row in self.shown()[0] if row.strip())
        self.assertEqual(rows, ["from the laptop"] * 8 + ["from the phone"] * 8)

    def test_a_host_that_drops_out(self) -> None:
        """What docs/HOSTS.md tells for getting back in step; the other host notices nothing."""
        editor = self.laptop.open("E:", WRITE)
        self.lines[1].write(bytes.fromhex("11 05 00 00 00 45"))
        self.lines[1].close()
        self.assertEqual(editor.put_record(b"still here"), 10)
        again = Line(self.paths[1], patience=3.0)
        self.addCleanup(again.close)
        self.lines[1] = again
        reply = b""
        while not reply:
            again.write(b"\0")
            reply = again.read(4)
        while len(reply) < 4:
            reply += again.read(4 - len(reply))
        again.patience = PATIENCE
        phone = Stick(again)
        phone.close_all()
        self.assertEqual(phone.fetch(0, 2), b"E\0")

    def test_rubbish(self) -> None:
        with self.assertRaises(errors.UnknownTag):
            self.phone.request(b"\x55\x05\x00rubbi")
        with self.assertRaises(errors.BadCommand):
            self.phone.request(b"\x12\x01\x00s")
        self.assertEqual(self.laptop.open("P:", WRITE).put_record(b"still here"), 10)

    def test_a_brown_out(self) -> None:
        """The core finds the damage, and the firmware starts again and says so."""
        printer = self.laptop.open("P:", WRITE)
        printer.put_record(b"before")
        self.assertNotIn(RESTARTED, self.says())
        self.tell("damage")
        self.wait_for(lambda: RESTARTED in self.says(), "the fresh start")
        self.assertEqual(self.shown()[1], "")
        self.assertRaises(errors.NotOpen, printer.put_character, 0x41)
        self.assertEqual(self.phone.open("P:", WRITE).put_record(b"after"), 5)
        self.assertEqual(self.shown()[1], "after/")
        self.assertEqual(self.says().count(RESTARTED), 1)

    def test_a_brown_out_drops_what_waits(self) -> None:
        """A reply that its host has not read; more replies than the link holds, and messages behind them; half a message."""
        for message in (wire.load(0, b"x"), wire.fetch(0, 256) * 400):
            self.lines[0].write(wire.load(0, b"abc")[:4])
            self.lines[1].write(message)
            self.assertTrue(self.lines[1].has_bytes(PATIENCE))
            time.sleep(0.3)  # until the link is full
            before = self.says().count(RESTARTED)
            self.tell("damage")
            self.wait_for(lambda: self.says().count(RESTARTED) > before, "the fresh start")
            self.assertFalse(self.lines[1].has_bytes(0.1), "a reply from before the fresh start")
            for stick in (self.laptop, self.phone):
                self.assertEqual(stick.fetch(0, 2), b"\0\0")


@unittest.skipUnless(BOARD, "FIXLOMAND_BOARD names no example firmware to start")
class BoardInATerminal(unittest.TestCase):
    def test_keys_and_a_restart(self) -> None:
        """As somebody who tries it out: codes typed into its terminal, a host at the link whose name it shows."""
        terminal = Terminal(shlex.split(BOARD))
        self.addCleanup(terminal.close)
        terminal.wait_for_text("it ends with its input")
        names = dict(line.split()[:2] for line in terminal.screen.lines() if line.startswith(("laptop: ", "phone: ")))
        line = Line(names["phone:"])
        self.addCleanup(line.close)
        phone = Stick(line)
        keyboard = phone.open("K:", READ)
        terminal.type(b"".join(b"%02x\n" % code for code in (0x3C, *BANDAGES)))
        time.sleep((len(BANDAGES) + 2) * TYPING)
        self.assertEqual(read_keys(keyboard, 8), b"bandages")
        terminal.type(b"damage\n")
        terminal.wait_for_text(RESTARTED)
        self.assertRaises(errors.NotOpen, keyboard.get_character)
        terminal.type(b"\x04")
        self.assertEqual(terminal.wait_for_end(), 0)


if __name__ == "__main__":
    unittest.main()
