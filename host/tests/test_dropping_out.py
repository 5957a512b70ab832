"""Hosts that drop out, at ``./stick live`` and at the example firmware: killed, interrupted or out of patience, wherever they
are in a message or its reply. The next one finds its place, and the host at the other port notices nothing.

One ``live`` and one board do for all; FIXLOMAND_PLAY and FIXLOMAND_BOARD name what they are made of.
"""

from __future__ import annotations

import os
import re
import shlex
import signal
import subprocess
import time
import unittest
from collections.abc import Iterator
from contextlib import closing, contextmanager
from typing import ClassVar

from fixlomand import errors, wire
from fixlomand.cio import READ, WRITE, File, Stick
from fixlomand.wire import Command

from .running import NO_PLAY, PLAY, STICK
from .terminal import Terminal
from .test_board import BOARD

PATIENCE = 20.0
"""Seconds until something that does not come counts as missing."""
MENDED = 10.0
"""Seconds in which a port is found in step, whatever was sent to it."""
PATTERN = bytes(range(1, 252))
LAPTOP = (b"P:\x9b" + PATTERN * 66)[:16_384]
"""The laptop's area."""
KEPT = 12_000
"""Where the phone's area has the pattern; no message here writes there."""
SHORT_LOAD = wire.load(16, b"E:\x9b")
LONG_LOAD = wire.load(1024, bytes(range(256)))
OPEN = wire.call(2, Command.OPEN, aux1=WRITE)


class Dying:
    """A host's end of a line; its process is killed when it has sent, or read, so many bytes."""

    def __init__(self, path: str, sends: int, reads: int) -> None:
        self._file = os.open(path, os.O_RDWR | os.O_NOCTTY)
        self._sends, self._reads = sends, reads

    def write(self, data: bytes) -> int:
        sent = os.write(self._file, data[: self._sends])
        self._sends -= sent
        if self._sends == self._reads == 0:
            os.kill(os.getpid(), signal.SIGKILL)
        return sent

    def read(self, size: int) -> bytes:
        data = os.read(self._file, min(size, self._reads))
        self._reads -= len(data)
        if self._reads == 0:
            os.kill(os.getpid(), signal.SIGKILL)
        return data


def kill(path: str, message: bytes, sends: int, reads: int = 0) -> None:
    """A host that is killed when so much of its request is done."""
    child = os.fork()
    if child == 0:
        try:
            signal.alarm(int(PATIENCE))
            Stick(Dying(path, sends, reads)).request(message)
        finally:
            os._exit(1)
    _, status = os.waitpid(child, 0)
    if not os.WIFSIGNALED(status) or os.WTERMSIG(status) != signal.SIGKILL:
        raise AssertionError(f"the host was not killed; its end was {status}")


class Interrupted:
    """A host's end of a line; somebody types Control-C when ``reads`` more bytes have been read."""

    def __init__(self, path: str) -> None:
        self._file = os.open(path, os.O_RDWR | os.O_NOCTTY)
        self.reads = -1

    def fileno(self) -> int:
        return self._file

    def read(self, size: int) -> bytes:
        if self.reads == 0:
            self.reads = -1
            signal.raise_signal(signal.SIGINT)
        if self.reads < 0:
            return os.read(self._file, size)
        data = os.read(self._file, min(size, self.reads))
        self.reads -= len(data)
        return data

    def write(self, data: bytes) -> int:
        return os.write(self._file, data)

    def close(self) -> None:
        os.close(self._file)


class Shared:
    """Not found by itself as a test."""

    class DroppingOut(unittest.TestCase):
        """Hosts drop out of the phone's port. The laptop's has a file open and an area of its own."""

        slow: ClassVar[int]
        """A mode of S whose cells take a while to read."""
        paths: ClassVar[list[str]]
        laptop: ClassVar[Stick]
        printer: ClassVar[File]

        @classmethod
        def begin(cls, paths: list[str]) -> None:
            """Once the stick runs."""
            cls.paths = paths
            line = open(paths[0], "r+b", buffering=0)  # until all tests are done
            cls.addClassCleanup(line.close)
            cls.laptop = Stick(line, PATIENCE)
            cls.laptop.load(0, LAPTOP)
            cls.printer = cls.laptop.open("P:", WRITE)
            with cls.phone() as phone:
                phone.load(KEPT, PATTERN)

        @classmethod
        @contextmanager
        def phone(cls, patience: float = PATIENCE) -> Iterator[Stick]:
            """The next host at the phone's port."""
            with open(cls.paths[1], "r+b", buffering=0) as line:
                yield Stick(line, patience)

        def check(self, opened: type[errors.StatusError] = errors.NotOpen) -> None:
            """The next host's first request is right, and the laptop has what it had. Block 2 may have been opened."""
            with self.phone() as phone:
                self.assertEqual(phone.fetch(KEPT + 7, 99), PATTERN[7:106])
                self.assertRaises(errors.PastArea, phone.load, 16_383, b"AB")
                phone.load(2048, b"next")
                self.assertEqual(phone.fetch(2047, 5), b"\0next")
                self.assertRaises(opened, phone.call, 2, Command.GET_CHARACTERS)
                if opened is not errors.NotOpen:
                    phone.close_all()
            self.assertRaises(errors.NotReadable, self.printer.get_character)
            self.assertEqual(self.laptop.fetch(0, 256), LAPTOP[:256])

        @classmethod
        def tearDownClass(cls) -> None:
            if cls.laptop.fetch(0, 16_384) != LAPTOP:
                raise AssertionError("the laptop's area has changed")

        def test_killed_in_a_short_load(self) -> None:
            for sends in range(1, len(SHORT_LOAD) + 1):
                with self.subTest(sends=sends):
                    kill(self.paths[1], SHORT_LOAD, sends)
                    self.check()

        def test_killed_in_a_call(self) -> None:
            with self.phone() as phone:
                phone.load(0, b"P:\x9b")
            for sends in range(1, len(OPEN) + 1):
                with self.subTest(sends=sends):
                    kill(self.paths[1], OPEN, sends)
                    # With its command the OPEN is done, by zeros or as it was meant.
                    self.check(errors.NotOpen if sends < 5 else errors.NotReadable)

        def test_killed_in_a_load_of_256(self) -> None:
            for sends in (1, 2, 3, 4, 5, 133, len(LONG_LOAD) - 1):
                with self.subTest(sends=sends):
                    kill(self.paths[1], LONG_LOAD, sends)
                    self.check()

        def test_killed_in_a_long_put(self) -> None:
            put = wire.call(0, Command.PUT_CHARACTERS, 0, 4000)
            with self.phone() as phone, phone.open("E:", WRITE):
                for reads in (0, 1):
                    with self.subTest(reads=reads):
                        kill(self.paths[1], put, len(put), reads)
                        self.check()

        def test_killed_in_its_reply(self) -> None:
            fetch = wire.fetch(KEPT, 200)
            for reads in (0, 1, 3, 100, 203):
                with self.subTest(reads=reads):
                    kill(self.paths[1], fetch, len(fetch), reads)
                    self.check()

        def test_the_longest_field(self) -> None:
            kill(self.paths[1], b"\x11\xff\xff" + bytes(65_535), 3)
            begin = time.monotonic()
            self.check()
            self.assertLess(time.monotonic() - begin, MENDED)

        def test_out_of_patience(self) -> None:
            """The reply that comes late is not taken for that of the next message."""
            with self.phone() as phone, phone.open("S:", READ | WRITE, self.slow) as screen:
                phone.patience = 0.005
                with self.assertRaises(errors.TimedOut) as caught:
                    screen.get_record(1)
                self.assertEqual((caught.exception.awaited, caught.exception.seconds), ("the reply to GET RECORD", 0.005))
                self.assertEqual(str(caught.exception), "the reply to GET RECORD did not come in 0.005 s")
                phone.patience = PATIENCE
                self.assertEqual(phone.fetch(KEPT, 5), PATTERN[:5])
            self.check()

        def test_interrupted(self) -> None:
            """Control-C before the reply, and in it: the file is closed all the same, and each message has its own reply."""
            for reads in (0, 3):
                with self.subTest(reads=reads), closing(Interrupted(self.paths[1])) as line:
                    phone = Stick(line, PATIENCE)
                    with self.assertRaises(KeyboardInterrupt), phone.open("S:", READ | WRITE, 3) as screen:
                        line.reads = reads
                        screen.get_record(1)
                    self.assertRaises(errors.NotOpen, phone.call, screen.iocb, Command.GET_CHARACTERS)
                    self.assertEqual(phone.fetch(KEPT, 5), PATTERN[:5])
            self.check()

        def test_interrupted_in_an_open(self) -> None:
            """Nobody knows whether the block is open: the next OPEN takes it all the same."""
            with closing(Interrupted(self.paths[1])) as line:
                phone = Stick(line, PATIENCE)
                phone.load(0, b"P:\x9b")
                line.reads = 4
                self.assertRaises(KeyboardInterrupt, phone.open, "P:", WRITE)
                with phone.open("P:", WRITE) as printer:
                    self.assertEqual((printer.iocb, printer.status()), (0, 1))
            self.check()


@unittest.skipUnless(PLAY, NO_PLAY)
class AtLive(Shared.DroppingOut):
    slow = 5

    @classmethod
    def setUpClass(cls) -> None:
        terminal = Terminal([STICK, "live"], 30, 120)
        cls.addClassCleanup(terminal.close)
        names = re.compile(rb"laptop: (\S+)\s+phone: (\S+)\s")
        terminal.wait_for(lambda: names.search(terminal.written), "the names of the plugs")
        cls.begin([path.decode() for path in names.findall(terminal.written)[0]])


@unittest.skipUnless(BOARD, "FIXLOMAND_BOARD names no example firmware to start")
class AtTheBoard(Shared.DroppingOut):
    slow = 8

    @classmethod
    def setUpClass(cls) -> None:
        process = subprocess.Popen(
            shlex.split(BOARD), stdin=subprocess.PIPE, stdout=subprocess.PIPE, stderr=subprocess.DEVNULL, text=True
        )
        assert process.stdin is not None and process.stdout is not None
        for clean in (process.stdout.close, process.wait, process.kill, process.stdin.close):
            cls.addClassCleanup(clean)
        cls.begin([process.stdout.readline().split()[1] for _ in range(2)])


if __name__ == "__main__":
    unittest.main()
