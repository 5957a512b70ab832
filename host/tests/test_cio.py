"""Files over a stand-in for the stick, and over broken streams."""

from __future__ import annotations

import io
import os
import signal
import threading
import time
import tty
import unittest
from types import FrameType

from fixlomand import cio, errors, wire
from fixlomand.cio import EOL, FORCED, READ, WRITE, Directory, DirectoryEntry, Stick
from fixlomand.line import Limit, Line

from .standin import StandIn

EDIT = READ | WRITE | FORCED


class Files(unittest.TestCase):
    def setUp(self) -> None:
        self.stand_in = StandIn()
        self.stick = Stick(self.stand_in)

    def test_records(self) -> None:
        with self.stick.open("E:", EDIT) as editor:
            self.assertEqual(editor.put_record(b"one"), 3)
            self.assertEqual(editor.put_record(b"two\x9bthree"), 4)
            self.assertEqual(editor.put_record(b""), 0)
            self.assertEqual(self.stand_in.text, b"one\x9btwo\x9b\x9b")
            self.assertEqual(editor.get_record(), b"one\x9b")
            self.assertEqual(editor.get_record(4), b"two\x9b")
            self.assertEqual(editor.get_record(), b"\x9b")
        self.assertEqual(self.stand_in.blocks, {})

    def test_a_cut_record(self) -> None:
        editor = self.stick.open("E1:", EDIT)
        editor.put_record(b"stock")
        with self.assertRaises(errors.RecordCut) as caught:
            editor.get_record(2)
        self.assertEqual((caught.exception.count, caught.exception.data), (2, b"st"))
        self.assertEqual(self.stand_in.text, b"")

    def test_characters(self) -> None:
        editor = self.stick.open("E:", EDIT)
        self.assertEqual(editor.put_characters(b"abc"), 3)
        self.assertEqual(editor.put_characters(b""), 0)
        self.assertEqual(editor.get_characters(2), b"ab")
        self.assertEqual(editor.get_characters(0), b"")
        editor.put_character(ord("d"))
        self.assertEqual((editor.get_character(), editor.get_character()), (ord("c"), ord("d")))
        self.assertEqual(editor.status(), 1)

    def test_more_than_the_area(self) -> None:
        data = bytes(range(1, 100)) * 400
        editor = self.stick.open("E:", EDIT)
        self.assertEqual(editor.put_characters(data), len(data))
        self.assertEqual(editor.get_characters(len(data)), data)
        record = data.replace(bytes([EOL]), b"")
        self.assertEqual(editor.put_record(record), len(record))
        self.assertEqual(self.stand_in.text, record + bytes([EOL]))

    def test_what_was_read_before_a_refusal(self) -> None:
        keyboard = self.stick.open("K:", READ)
        with self.assertRaises(errors.EndOfFile) as caught:
            keyboard.get_characters(5)
        self.assertEqual((caught.exception.count, caught.exception.data), (1, b"A"))

    def test_what_was_written_before_a_refusal(self) -> None:
        printer = self.stick.open("P:", WRITE)
        with self.assertRaises(errors.PaperFull) as caught:
            printer.put_characters(bytes(300))
        self.assertEqual(caught.exception.count, 276)
        self.assertRaises(errors.NotReadable, printer.get_record)

    def test_blocks(self) -> None:
        files = [self.stick.open("P:", WRITE) for _ in range(8)]
        self.assertEqual([file.iocb for file in files], list(range(8)))
        self.assertRaises(errors.StickError, self.stick.open, "P:", WRITE)
        files[3].close()
        files[3].close()
        again = self.stick.open("P:", WRITE)
        self.assertEqual(again.iocb, 3)
        files[3].close()
        self.assertIn(3, self.stand_in.blocks)
        self.stick.close_all()
        self.assertEqual(self.stand_in.blocks, {})

    def test_a_block_left_open(self) -> None:
        self.stand_in.blocks[0] = ("P", WRITE)
        self.assertRaises(errors.AlreadyOpen, self.stick.open, "E:", EDIT)
        self.stick.close_all()
        self.assertEqual(self.stick.open("E:", EDIT).iocb, 0)

    def test_a_failed_open_takes_no_block(self) -> None:
        for bad in ("Q:", "E", "E12:"):
            self.assertRaises(errors.UnknownDevice, self.stick.open, bad, EDIT)
        self.assertEqual(self.stick.open("E:", EDIT).iocb, 0)
        self.assertRaises(ValueError, self.stick.open, "", EDIT)
        self.assertRaises(ValueError, self.stick.open, "E" * 16, EDIT)

    def test_status_without_a_file(self) -> None:
        self.assertEqual(self.stick.status("P:"), 1)
        self.assertRaises(errors.UnknownDevice, self.stick.status, "R:")

    def test_pieces(self) -> None:
        self.stick.load(16_000, bytes(384))
        self.assertEqual([len(request) for request in self.stand_in.requests], [261, 133])
        self.assertRaises(errors.PastArea, self.stick.load, 16_000, bytes(385))
        self.assertEqual(len(self.stick.fetch(0, 700)), 700)
        self.assertEqual(self.stick.fetch(0, 0), b"")

    def test_limits(self) -> None:
        editor = self.stick.open("E:", EDIT)
        self.assertRaises(ValueError, editor.get_record, 0)
        self.assertRaises(ValueError, editor.get_record, cio.BUFFER_LENGTH + 1)


class Ends(unittest.TestCase):
    """Reading to the end, and how often the stick is asked for it."""

    def setUp(self) -> None:
        self.stand_in = StandIn()
        self.stick = Stick(self.stand_in)

    def open(self, data: bytes) -> cio.File:
        """The tape with this on it."""
        self.stand_in.tape[:] = data
        self.stick.close_all()
        file = self.stick.open("C:", READ)
        self.stand_in.requests.clear()
        return file

    @property
    def gets(self) -> int:
        """How many GETs were sent since then."""
        gets = (wire.Command.GET_RECORD, wire.Command.GET_CHARACTERS)
        return sum(request[0] == wire.Tag.CALL and request[4] in gets for request in self.stand_in.requests)

    def test_the_last_character_is_told(self) -> None:
        """$03 raises nothing, and is told until another read."""
        for read, got in (
            (cio.File.get_character, 0x43),
            (lambda file: file.get_characters(1), b"C"),
            (lambda file: file.get_characters(0) + file.get_characters(1), b"C"),
        ):
            file = self.open(b"ABC")
            self.assertEqual((file.at_end, file.get_characters(2), file.at_end), (False, b"AB", False))
            self.assertEqual((read(file), file.at_end), (got, True))
            self.assertEqual((file.get_characters(0), file.status(), file.at_end), (b"", 1, True))
            self.assertRaises(errors.EndOfFile, file.get_character)
            self.assertFalse(file.at_end)
        file = self.open(b"A\x9bB\x9b")
        self.assertEqual((file.get_record(), file.at_end), (b"A\x9b", False))
        self.assertEqual((file.get_record(2), file.at_end), (b"B\x9b", True))

    def test_a_status_by_its_name(self) -> None:
        file = self.open(b"AB")
        for status, byte in ((wire.SUCCESS, 0x41), (wire.LAST_CHARACTER, 0x42)):
            self.assertEqual(self.stick.call(file.iocb, wire.Command.GET_CHARACTERS), wire.CallReply(status, 0, byte))

    def test_refusals_do_not_tell_it(self) -> None:
        file = self.open(b"ABC\x9b")
        with self.assertRaises(errors.RecordCut) as cut:
            file.get_record(2)
        self.assertEqual((cut.exception.data, file.at_end, file.get_rest()), (b"AB", False, b""))
        file = self.open(b"AB")
        with self.assertRaises(errors.EndOfFile) as end:
            file.get_characters(3)
        self.assertEqual((end.exception.data, file.at_end), (b"AB", False))

    def test_a_fault_does_not_leave_it(self) -> None:
        """A reply that is lost says nothing."""
        stand_in = Faulty(KeyboardInterrupt())
        stand_in.tape += b"A"
        file = Stick(stand_in).open("C:", READ)
        self.assertEqual((file.get_character(), file.at_end), (0x41, True))
        stand_in.faulty = True
        self.assertRaises(KeyboardInterrupt, file.get_character)
        self.assertFalse(file.at_end)

    def test_characters(self) -> None:
        """As many GETs as there are, and none for the end."""
        file = self.open(b"AB\x9b")
        self.assertEqual((list(file), self.gets, file.at_end), ([0x41, 0x42, 0x9B], 3, True))
        self.assertEqual((list(file), self.gets), ([], 3))
        self.assertEqual((list(self.open(b"")), self.gets), ([], 1))

    def test_characters_that_are_not_asked_for(self) -> None:
        """A loop that is left has read no further."""
        file = self.open(b"ABC")
        for byte in file:
            if byte == 0x42:
                break
        self.assertEqual((self.gets, bytes(file)), (2, b"C"))

    def test_where_nothing_warns(self) -> None:
        """$88 ends it all the same, and a key pressed then is read."""
        keyboard = self.stick.open("K:", READ)
        self.assertEqual((bytes(keyboard), keyboard.at_end, self.gets), (b"A", False, 2))
        self.stand_in.keys += b"BC"
        self.assertEqual((keyboard.get_rest(), keyboard.at_end), (b"BC", False))

    def test_the_rest(self) -> None:
        """In pieces; none is asked for behind one that ends with the last character."""
        piece = cio.BUFFER_LENGTH
        for length, gets in ((0, 1), (1, 1), (piece - 1, 1), (piece, 1), (piece + 1, 2), (2 * piece, 2)):
            data = (bytes(range(251)) * 140)[:length]
            file = self.open(data)
            self.assertEqual(file.get_rest(), data)
            self.assertEqual((length, self.gets), (length, gets))
            self.assertEqual(file.at_end, length in (piece, 2 * piece))
        self.assertEqual(self.open(b"ABC").get_characters(3), b"ABC")

    def test_records(self) -> None:
        for data, records, gets in (
            (b"A\x9bBC\x9b", [b"A\x9b", b"BC\x9b"], 2),
            (b"A\x9bBC", [b"A\x9b", b"BC"], 2),
            (b"\x9b", [b"\x9b"], 1),
            (b"", [], 1),
        ):
            self.assertEqual((list(self.open(data).records()), self.gets), (records, gets))
        file = self.open(b"A\x9bB\x9b")
        self.assertEqual((next(file.records(2)), bytes(self.stand_in.tape)), (b"A\x9b", b"B\x9b"))
        self.assertEqual(list(file.records(2)), [b"B\x9b"])

    def test_records_that_are_cut(self) -> None:
        """Also a last one that fills the limit and lacks its EOL: more of it may have been dropped."""
        for data, error in (
            (b"A\x9bBCD\x9b", errors.RecordCut),
            (b"A\x9bBCD", errors.EndOfFile),
            (b"A\x9bBC", errors.EndOfFile),
        ):
            records = self.open(data).records(2)
            self.assertEqual(next(records), b"A\x9b")
            with self.assertRaises(error) as caught:
                next(records)
            self.assertEqual(caught.exception.data, b"BC")
        self.assertRaises(ValueError, next, self.open(b"A").records(0))


class Diskettes(unittest.TestCase):
    """Files of a diskette, and its directory."""

    LISTING = b"  STOCK   DAT 012\x9b* README      001\x9b  A\x9bB     C   000\x9b694 FREE SECTORS\x9b"

    def setUp(self) -> None:
        self.stand_in = StandIn()
        self.stick = Stick(self.stand_in)

    def test_the_directory(self) -> None:
        """With a name that has an EOL in it; one GET is enough for all."""
        self.stand_in.listing = self.LISTING
        listed = self.stick.directory("D1:*.*")
        self.assertEqual(
            listed.entries,
            (
                DirectoryEntry(False, "STOCK", "DAT", 12),
                DirectoryEntry(True, "README", "", 1),
                DirectoryEntry(False, "A\x9bB", "C", 0),
            ),
        )
        self.assertEqual((listed.free, len(listed), list(listed)), (694, 3, list(listed.entries)))
        self.assertEqual([entry.filename for entry in listed], ["STOCK.DAT", "README", "A\x9bB.C"])
        gets = [request for request in self.stand_in.requests if request[0] == wire.Tag.CALL and request[4] == 0x07]
        self.assertEqual((len(gets), self.stand_in.blocks), (1, {}))
        self.assertIn(wire.load(0, b"D1:*.*\x9b"), self.stand_in.requests)
        self.assertEqual(self.stick.directory(), listed)
        self.assertIn(wire.load(0, b"D:*.*\x9b"), self.stand_in.requests)

    def test_a_directory_without_a_match(self) -> None:
        self.stand_in.listing = b"707 FREE SECTORS\x9b"
        self.assertEqual(self.stick.directory("D:NONE"), Directory((), 707))

    def test_what_is_no_directory(self) -> None:
        """Bytes that a line has spoiled: the place is found before the next message."""
        last = b"694 FREE SECTORS\x9b"
        for listing in (
            b"",
            last[:-1],
            b"6g4 FREE SECTORS\x9b",
            b"694 FREE SECTORZ\x9b",
            b"  STOCK   DAT 012\x9b",
            b"  STOCK   DAT 01x\x9b" + last,
            b"x STOCK   DAT 012\x9b" + last,
            b" xSTOCK   DAT 012\x9b" + last,
            b"  STOCK   DATx012\x9b" + last,
            b"  STOCK   DAT 012x" + last,
            b"  STOCK   DAT 12\x9b" + last,
        ):
            with self.subTest(listing=listing):
                self.stand_in.listing = listing
                self.assertRaises(errors.BadReply, self.stick.directory)
                self.assertEqual(self.stand_in.blocks, {})
                self.stand_in.requests.clear()
                self.stick.load(16, b"right")
                self.assertIn(wire.BOUNDARY[8:11], b"".join(self.stand_in.requests))

    def test_a_file(self) -> None:
        self.stand_in.files["STOCK.DAT"] = (b"ONE\x9bTWO\x9b", 0x88)
        for specification in ("D:STOCK.DAT", b"D1:STOCK.DAT"):
            with self.stick.open(specification, READ) as file:
                self.assertEqual((file.get_record(), file.at_end), (b"ONE\x9b", False))
                self.assertEqual((list(file.records()), file.at_end), ([b"TWO\x9b"], True))
        self.stand_in.requests.clear()
        with self.stick.open("D:STOCK.DAT", READ) as file:
            self.assertEqual((bytes(file), file.at_end), (b"ONE\x9bTWO\x9b", True))
        gets = [request for request in self.stand_in.requests if request[0] == wire.Tag.CALL and request[4] == 0x07]
        self.assertEqual(len(gets), 8)

    def test_two_at_once(self) -> None:
        self.stand_in.files.update({"A": (b"1234", 0x88), "B": (b"5678", 0x88)})
        with self.stick.open("D:A", READ) as one, self.stick.open("D2:B", READ) as two:
            self.assertEqual([*zip(one, two)], [*zip(b"1234", b"5678")])

    def test_a_bad_chain(self) -> None:
        """What was read before it comes with the error, however it was read; no $03 warns of it."""
        self.stand_in.files["BAD"] = (b"AB\x9bC", 0xA4)
        for read, data in (
            (lambda file: file.get_rest(), b"AB\x9bC"),
            (lambda file: file.get_characters(5), b"AB\x9bC"),
            (lambda file: list(file.records()), b"C"),
            (lambda file: list(file), b""),
        ):
            with self.stick.open("D:BAD", READ) as file, self.assertRaises(errors.BadChain) as caught:
                read(file)
            self.assertEqual((caught.exception.status, caught.exception.data), (0xA4, data))
            self.assertFalse(file.at_end)

    def test_refusals(self) -> None:
        self.stand_in.files.update({"A": (b"1", 0x88), "LOCKED": (b"2", 0x88)})
        self.stand_in.locked.add("LOCKED")
        self.assertRaises(errors.FileNotFound, self.stick.open, "D:NONE", READ)
        self.assertRaises(errors.BadFileName, self.stick.open, "D:a", READ)
        self.assertRaises(errors.BadFileName, self.stick.directory, "D:a")
        self.assertRaises(errors.BadCommand, self.stick.open, "D:A", WRITE)
        self.assertEqual((self.stick.status("D:A", READ), self.stand_in.blocks), (1, {}))
        self.assertRaises(errors.FileLocked, self.stick.status, "D:LOCKED", READ)
        self.assertRaises(errors.FileNotFound, self.stick.status, "D:NONE")
        with self.stick.open("D:LOCKED", READ) as file:
            self.assertEqual(file.get_rest(), b"2")
        self.assertEqual(str(errors.FileNotFound(0xAA)), "$AA: no file of this name on the diskette")

    def test_the_longest_name(self) -> None:
        """It fits before the buffer, with its EOL."""
        self.stand_in.files["ABCDEFGH.XYZ"] = (b"1", 0x88)
        with self.stick.open("D4:ABCDEFGH.XYZ", READ) as file:
            self.assertEqual(file.get_rest(), b"1")
        self.assertRaises(ValueError, self.stick.open, "D4:ABCDEFGHI.XYZ", READ)


class Faulty(StandIn):
    """Once, when it is ``faulty`` and so many replies later, it raises an error in the place of a reply, or gives other bytes."""

    def __init__(self, fault: BaseException | bytes, late: int = 0) -> None:
        super().__init__()
        self.faulty = False
        self._fault, self._late = fault, late

    def read(self, size: int) -> bytes:
        if self.faulty and size == 3:
            self._late -= 1
            if self._late < 0:
                self.faulty = False
                if isinstance(self._fault, BaseException):
                    raise self._fault
                self._replies[:0] = self._fault
        return super().read(size)


class Lines(unittest.TestCase):
    """Over a pseudo-terminal, most with nobody at the other end."""

    def setUp(self) -> None:
        self.master, slave = os.openpty()
        self.addCleanup(os.close, self.master)
        tty.setraw(slave)
        self.line = io.FileIO(slave, "r+")
        self.addCleanup(self.line.close)

    def test_nobody_answers(self) -> None:
        begin = time.monotonic()
        with self.assertRaises(errors.TimedOut) as caught:
            Stick(self.line, 0.2)
        self.assertLess(time.monotonic() - begin, 2)
        self.assertEqual(str(caught.exception), "the reply to a marked CALL did not come in 0.2 s")

    def test_nobody_reads(self) -> None:
        """A message that finds no room is given up, and does not hold up its host."""

        def hangs(number: int, frame: FrameType | None) -> None:
            raise AssertionError("the write does not end")

        before = signal.signal(signal.SIGALRM, hangs)
        self.addCleanup(signal.signal, signal.SIGALRM, before)
        signal.alarm(5)
        self.addCleanup(signal.alarm, 0)
        with self.assertRaises(errors.TimedOut) as caught:
            Line(self.line).write(bytes(1_000_000), Limit("room", 0.2))
        self.assertEqual(str(caught.exception), "room did not come in 0.2 s")
        self.assertFalse(os.get_blocking(self.line.fileno()), "a driver may have less room than for the whole write")

    def test_few_bytes(self) -> None:
        """A message that does something is ended by few zeros, and the boundary is found at once."""
        stand_in = StandIn()
        taken = bytearray()

        def serve() -> None:
            while data := os.read(self.master, 1000):
                if data == b"end":
                    return
                taken.extend(data)
                stand_in.write(data)
                os.write(self.master, stand_in.read(10_000))

        stick = threading.Thread(target=serve, daemon=True)
        stick.start()
        message = wire.load(16, b"E:\x9b")
        for sent in (0, 1, 5, 6):
            taken.clear()
            self.line.write(message[:sent])
            Stick(self.line, 5).load(16, b"right")
            self.assertEqual(stand_in.area[16:21], b"right")
            self.assertLess(len(taken), 400)
        self.line.write(b"end")
        stick.join(5)

    def test_bytes_that_nobody_asked_for(self) -> None:
        """An old reply of the right form is not taken for the new one."""
        stick = Stick(self.line, 0.2, in_step=True)
        os.write(self.master, bytes.fromhex("92 02 00 01 41"))
        self.assertRaises(errors.TimedOut, stick.fetch, 0, 1)

    def test_a_line_that_is_gone(self) -> None:
        stick = Stick(self.line, 5, in_step=True)
        null = os.open(os.devnull, os.O_RDWR)
        os.dup2(null, self.master)  # which closes the other end
        os.close(null)
        begin = time.monotonic()
        self.assertRaises((errors.StreamEnded, OSError), stick.fetch, 0, 1)
        self.assertLess(time.monotonic() - begin, 2)


class Streams(unittest.TestCase):
    def test_one_byte_at_a_time(self) -> None:
        editor = Stick(StandIn(pace=1)).open("E:", EDIT)
        editor.put_record(b"slow")
        self.assertEqual(editor.get_record(), b"slow\x9b")

    def test_a_stream_that_ends(self) -> None:
        class Ends(StandIn):
            def read(self, size: int) -> bytes:
                return b""

        self.assertRaises(errors.StreamEnded, Stick(Ends()).close_all)

    def test_none_yet(self) -> None:
        class Late(StandIn):
            late = True

            def read(self, size: int) -> bytes | None:  # type: ignore[override]
                self.late = not self.late
                return super().read(size) if self.late else None

        Stick(Late()).close_all()

    def test_none_for_too_long(self) -> None:
        class Silent(StandIn):
            def read(self, size: int) -> bytes | None:  # type: ignore[override]
                return None

        with self.assertRaises(errors.TimedOut) as caught:
            Stick(Silent(), 0.02).close_all()
        self.assertEqual(str(caught.exception), "the reply to CLOSE did not come in 0.02 s")

    def test_another_reply(self) -> None:
        for wrong in ("91 01 00 01", "FF 01 00 92", "92 02 00 01 41", "10 00 00"):
            stand_in = Faulty(bytes.fromhex(wrong))
            stick = Stick(stand_in)
            stick.load(16, b"right")
            stand_in.faulty = True
            self.assertRaises(errors.BadReply, stick.fetch, 16, 5)
            self.assertEqual(stick.fetch(16, 5), b"right")

    def test_a_fault_while_a_reply_is_due(self) -> None:
        """Its bytes come with the next message's, which has its own all the same."""
        for fault in (KeyboardInterrupt(), RuntimeError("a bug"), TimeoutError()):
            stand_in = Faulty(fault)
            stick = Stick(stand_in)
            stick.load(16, b"right")
            stand_in.faulty = True
            self.assertRaises(type(fault), stick.fetch, 20, 2)
            self.assertEqual(stick.fetch(16, 5), b"right")

    def test_closed_after_a_fault(self) -> None:
        for fault, left in ((b"\xff\x01\x00\x92", 0), (KeyboardInterrupt(), 0), (OSError(), 1)):
            stand_in = Faulty(fault)
            with self.assertRaises((errors.BadReply, KeyboardInterrupt, OSError)), Stick(stand_in).open("E:", EDIT) as editor:
                stand_in.faulty = True
                editor.put_record(b"AB")
            self.assertEqual(len(stand_in.blocks), left)

    def test_an_error_is_not_hidden_by_that_of_close(self) -> None:
        class Lost(StandIn):
            lost = False

            def write(self, data: bytes) -> int:
                if self.lost:
                    raise OSError("unplugged")
                return super().write(data)

        lost = Lost()
        with self.assertRaises(KeyError), Stick(lost).open("E:", EDIT):
            lost.lost = True
            raise KeyError("a bug")

    def test_several_files_at_a_silent_stick(self) -> None:
        """The place is looked for once, not for each file."""

        class Silenced(StandIn):
            silent = False
            ends = 0

            def write(self, data: bytes) -> int:
                self.ends += data == wire.LONG_END
                return super().write(data)

            def read(self, size: int) -> bytes | None:  # type: ignore[override]
                return None if self.silent else super().read(size)

        stand_in = Silenced(pace=100_000)
        stick = Stick(stand_in, 0.02)
        with self.assertRaises(errors.TimedOut) as caught, stick.open("E:", EDIT) as editor, stick.open("P:", WRITE):
            stand_in.silent = True
            editor.put_record(b"AB")
        self.assertEqual((caught.exception.awaited, stand_in.ends), ("the reply to LOAD", 1))

    def test_a_block_that_nobody_knows_of(self) -> None:
        stand_in = Faulty(KeyboardInterrupt(), late=1)
        stick = Stick(stand_in)
        stand_in.faulty = True
        self.assertRaises(KeyboardInterrupt, stick.open, "E:", EDIT)
        self.assertEqual(stand_in.blocks, {0: ("E", EDIT)})
        self.assertEqual(stick.open("P:", WRITE).iocb, 0)

    def test_made_in_step_or_not(self) -> None:
        stand_in = StandIn()
        stand_in.write(bytes.fromhex("11 FF FF 00"))
        Stick(stand_in, in_step=False).load(16, b"right")
        self.assertEqual(stand_in.area[16:21], b"right")
        stand_in.requests.clear()
        Stick(stand_in).load(16, b"right")
        self.assertEqual(len(stand_in.requests), 1)

    def test_marks_differ(self) -> None:
        """So that an older marked reply, left by a host that dropped out, is not taken for the new one."""
        stand_in = StandIn()
        for _ in range(5):
            Stick(stand_in, in_step=False)
        self.assertGreater(len({request for request in stand_in.requests if request[:4] == b"\x10\x09\0\xff"}), 2)

    def test_made_with_all_closed(self) -> None:
        stand_in = StandIn()
        stand_in.blocks = {0: ("P", WRITE), 7: ("E", EDIT)}
        Stick(stand_in, close_all=True)
        self.assertEqual(stand_in.blocks, {})

    def test_half_a_message(self) -> None:
        self.assertRaises(ValueError, Stick(StandIn()).request, b"\x11\x05\x00")

    def test_no_close_over_a_lost_stream(self) -> None:
        stand_in = StandIn()
        with self.assertRaises(errors.StreamEnded), Stick(stand_in).open("E:", EDIT):
            asked = len(stand_in.requests)
            raise errors.StreamEnded("unplugged")
        self.assertEqual(len(stand_in.requests), asked)

    def test_closed_after_a_refusal(self) -> None:
        stand_in = StandIn()
        with self.assertRaises(errors.NotReadable), Stick(stand_in).open("P:", WRITE) as printer:
            printer.get_record()
        self.assertEqual(stand_in.blocks, {})


if __name__ == "__main__":
    unittest.main()
