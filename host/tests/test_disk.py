"""Diskettes: their sectors, ``./stick disk`` as people run it, hosts at D, and ``live --disk``."""

from __future__ import annotations

import os
import re
import shlex
import signal
import subprocess
import sys
import threading
import unittest
from itertools import islice
from pathlib import Path

from fixlomand import atr, disk, drives, errors, script
from fixlomand.cio import BUFFER_LENGTH, DIRECTORY, READ, WRITE, DirectoryEntry, Stick
from fixlomand.disk import Fault
from fixlomand.helps import HELPS
from fixlomand.play import Player, PlayPort

from .copied import Folder
from .disks import HELLO, MAP, NAME, entry, image, sector
from .disks import atr as atr_file
from .living import Living
from .running import NO_PLAY, PATIENCE, PLAY, STICK, last_line, run
from .terminal import Terminal
from .test_tape import Noting

HOST = Path(STICK).parent / "host"
NO_CORE = {"FIXLOMAND_PLAY": "/nowhere"}
"""What looks at files alone needs no play."""
BAD_NAME = "no name for a diskette: that is 1 to 8 of A to Z and 0 to 9, and maybe a dot and 1 to 3 more"


def spread(length: int) -> bytes:
    """So many characters."""
    return bytes(place * 7 % 251 for place in range(length))


class Sectors(unittest.TestCase):
    def test_where_they_are(self) -> None:
        numbered = b"".join(bytes([number % 256]) * 128 for number in range(1, 721))
        for number in (1, 4, 360, 361, 368, 719, 720):
            self.assertEqual(disk.sector(numbered, number), bytes([number % 256]) * 128)

    def test_files(self) -> None:
        flags = (0x42, 0x80, 0x62, 0xC2, 0x20, 0x01, 0x7F, 0x40, 0x00, 0x42)
        data = image([entry(b"FILE%d   DAT" % place, 4, flag=flag) for place, flag in enumerate(flags)], free=3)
        self.assertEqual([(each.number, each.filename) for each in disk.files_of(data)],
            [(0, "FILE0.DAT"), (2, "FILE2.DAT"), (6, "FILE6.DAT"), (7, "FILE7.DAT")])  # fmt: skip
        self.assertEqual(disk.summary(data), "4 files, 3 free sectors")
        self.assertEqual(disk.summary(HELLO), "1 file, 706 free sectors")
        self.assertEqual(disk.summary(bytes(92_160)), "blank")
        self.assertEqual(len(disk.files_of(image([entry(NAME, 4)] * 64))), 64)

    def test_the_first_match(self) -> None:
        names = (b"A          ", b"AB      DAT", b"ABCDEFGHXYZ", b"        WHY")
        data = image([entry(name, 4) for name in names])
        for name, number in (
            ("A", 0),
            ("A.", 0),
            ("A?", 0),
            ("*", 0),
            ("*.*", 0),
            ("*.D*", 1),
            ("AB.DATA", 1),
            ("A*.X", None),
            ("ABCDEFGHIJ.XYZQ", 2),
            ("ABCDEFGHIJ*.X*", 2),
            (".WHY", 3),
            ("?.WHY", 3),
            ("B", None),
            ("", None),
        ):
            found = disk.first_match(data, name)
            self.assertEqual((name, found and found.number), (name, number))

    def test_chains(self) -> None:
        """To the end; where a file does not hang together, to there."""
        for first, sectors, chain in (
            (0, {}, ()),
            (4, {4: sector(0, 0, b"HI\x9b")}, (4,)),
            (4, {4: sector(0, 700, b""), 700: sector(0, 300, b""), 300: sector(0, 0, b"")}, (4, 700, 300)),
            (719, {719: sector(0, 720, b"")}, (719,)),
            (4, {4: sector(0, 5, b""), 5: sector(0, 4, b"")}, (4, 5)),
            (720, {}, ()),
            (65_535, {}, ()),
        ):
            data = image([entry(NAME, first)], sectors)
            self.assertEqual(disk.chain_of(data, disk.files_of(data)[0]), chain)
        data = image([], {4: sector(63, 1_023, b""), 5: sector(0, 255, b""), 6: sector(1, 256, b"")})
        self.assertEqual([disk.file_of(data, number) for number in (4, 5, 6)], [63, 0, 1])
        self.assertEqual([disk.link_of(data, number) for number in (4, 5, 6)], [1_023, 255, 256])

    def test_faults(self) -> None:
        for first, sectors, fault in (
            (4, {4: sector(0, 0, b"HI\x9b")}, None),
            (0, {}, None),
            (4, {4: sector(0, 5, b"AB"), 5: sector(0, 0, b"")}, None),
            (720, {}, Fault(720, "above 719", 0)),
            (65_535, {}, Fault(65_535, "above 719", 0)),
            (4, {4: sector(0, 1_023, b"ABC")}, Fault(1_023, "above 719", 3)),
            (4, {4: sector(0, 5, b"AB"), 5: sector(63, 0, b"C")}, Fault(5, "file number 63, not 0", 2)),
            (4, {4: sector(0, 0, b"AB", 126)}, Fault(4, "data count 126, above 125", 0)),
            (4, {4: sector(0, 4, b"AB")}, Fault(4, "the 720th of the file, and there are 719: a ring", 1_438)),
        ):
            data = image([entry(NAME, first)], sectors)
            self.assertEqual(disk.fault_of(data, disk.files_of(data)[0]), fault)


class Made(unittest.TestCase):
    def test_one_file(self) -> None:
        """The whole diskette, byte for byte."""
        self.assertEqual(disk.make([(NAME, b"HI\x9b")]), HELLO)
        expected = bytes.fromhex("02 C3 02 C2 02 00 00 00 00 00") + MAP
        self.assertEqual(disk.sector(HELLO, 360)[:100], expected)

    def test_an_empty_one(self) -> None:
        made = disk.make([])
        self.assertEqual(disk.sector(made, 360)[:10], bytes.fromhex("02 C3 02 C3 02 00 00 00 00 00"))
        self.assertEqual(disk.sector(made, 360)[10:], b"\x0f" + b"\xff" * 44 + b"\x00\x7f" + b"\xff" * 43 + bytes(28))
        self.assertEqual(made.replace(disk.sector(made, 360), b""), bytes(92_032))

    def test_sectors(self) -> None:
        for length, sectors in ((0, 1), (1, 1), (125, 1), (126, 2), (250, 2), (251, 3)):
            self.assertEqual(disk.sectors_for(length), sectors)
            made = disk.make([(NAME, spread(length)), (b"OTHER      ", b"x")])
            listed = disk.sector(made, 361)
            self.assertEqual(listed[:32], entry(NAME, 4, sectors) + entry(b"OTHER      ", 4 + sectors))
            self.assertEqual(disk.sector(made, 4 + sectors), sector(1, 0, b"x"))
            for place in range(sectors):
                piece = spread(length)[125 * place : 125 * place + 125]
                link = 5 + place if place + 1 < sectors else 0
                self.assertEqual(disk.sector(made, 4 + place), sector(0, link, piece))
            self.assertEqual(disk.free_of(made), 706 - sectors)

    def test_past_the_directory(self) -> None:
        """Sector 359 is linked to 369."""
        made = disk.make([(NAME, spread(125 * 357))])
        self.assertEqual(disk.sector(made, 359), sector(0, 369, spread(125 * 357)[125 * 355 : 125 * 356]))
        self.assertEqual(disk.sector(made, 369), sector(0, 0, spread(125 * 357)[125 * 356 :]))
        self.assertEqual(disk.sector(made, 360)[10:100], bytes(46) + b"\x3f" + b"\xff" * 43)

    def test_full(self) -> None:
        made = disk.make([(NAME, spread(707 * 125))])
        self.assertEqual((disk.free_of(made), disk.sector(made, 360)[10:100]), (0, bytes(90)))
        self.assertEqual((disk.sector(made, 720), disk.fault_of(made, disk.files_of(made)[0])), (bytes(128), None))
        for files, said in (
            ([(NAME, bytes(707 * 125 + 1))], "708 sectors for 88376 characters, and 707 are free"),
            ([(NAME, bytes(707 * 125)), (b"A          ", b"")], "1 sector for 0 characters, and 0 are free"),
            ([(b"FILE%-7d" % place, b"") for place in range(65)], "65 files, and a diskette has room for 64"),
        ):
            with self.assertRaises(disk.Refused) as caught:
                disk.make(files)
            self.assertEqual(str(caught.exception), said)
        many = disk.make([(b"FILE%-7d" % place, bytes([place])) for place in range(64)])
        self.assertEqual([each.number for each in disk.files_of(many)], list(range(64)))
        self.assertEqual(disk.sector(many, 67), sector(63, 0, b"\x3f"))

    def test_the_map_is_what_is_free(self) -> None:
        made = disk.make([(b"FILE%-7d" % place, spread(place * 60)) for place in range(30)])
        bits = "".join(f"{byte:08b}" for byte in disk.sector(made, 360)[10:100])
        used = {number for number in range(1, 720) if any(disk.sector(made, number))}
        reserved = {0, 1, 2, 3, *range(360, 369)}
        self.assertEqual(bits.count("1"), disk.free_of(made))
        # Sector 4 is an empty file's, and all zeros.
        self.assertEqual({number for number in range(720) if bits[number] == "0"}, used | reserved | {4})

    def test_names(self) -> None:
        for file, name in (
            ("hello.txt", b"HELLO   TXT"),
            ("A", b"A          "),
            ("12345678.123", b"12345678123"),
            ("Stock.d", b"STOCK   D  "),
        ):
            self.assertEqual(disk.name_of(file), name)
        for file in ("", ".txt", "a.", "123456789", "a.text", "a.b.c", "a-b", "a b", "a*", "?", "\u00e4", "\u017f", "a\n"):
            with self.assertRaises(disk.Refused) as caught:
                disk.name_of(file)
            self.assertEqual(str(caught.exception), BAD_NAME)


class Disks(Folder):
    """Tests with files of bytes."""

    def path(self, name: str, data: bytes | None = None) -> str:
        if data is not None:
            (self.folder / name).write_bytes(data)
        return str(self.folder / name)

    def held(self, name: str) -> bytes:
        return (self.folder / name).read_bytes()

    def disk(self, *words: str, give: bytes = b"", **variables: str) -> subprocess.CompletedProcess[bytes]:
        """Runs ``./stick disk`` on files alone."""
        return run("disk", *words, give=give, **{**NO_CORE, **variables})

    def names(self) -> list[str]:
        return sorted(os.listdir(self.folder))

    def well(self, done: subprocess.CompletedProcess[bytes], *said: str) -> str:
        """The run ended well, and said these lines beside its output."""
        self.assertEqual((done.stderr.decode().splitlines(), done.returncode), ([f"stick: {line}" for line in said], 0))
        return done.stdout.decode()

    def refused(self, done: subprocess.CompletedProcess[bytes], said: str, status: int = 1) -> None:
        """The run ended with one line, and wrote nothing."""
        self.assertEqual((done.stderr.decode(), done.stdout, done.returncode), (f"stick: {said}\n", b"", status))


class Import(Disks):
    def test_an_atr_file(self) -> None:
        source, target = self.path("a.atr", atr_file(HELLO)), self.path("an image", b"older")
        self.assertEqual(self.well(self.disk("import", source, target), f"{target}: 1 file, 706 free sectors"), "")
        self.assertEqual((self.held("an image"), self.names()), (HELLO, ["a.atr", "an image"]))

    def test_by_its_bytes(self) -> None:
        """An ATR file of another name, the sectors alone, standard input and output."""
        for name, data in (("A.ATR", atr_file(HELLO)), ("a.bin", atr_file(HELLO)), ("a.xfd", HELLO), ("a", HELLO)):
            target = self.path("image")
            self.well(self.disk("import", self.path(name, data), target), f"{target}: 1 file, 706 free sectors")
            self.assertEqual(self.held("image"), HELLO)
        done = self.disk("import", "-", "-", give=atr_file(HELLO))
        self.assertEqual((done.stdout, done.returncode), (HELLO, 0))
        self.assertEqual(last_line(done), "stick: standard output: 1 file, 706 free sectors")

    def test_blank(self) -> None:
        target = self.path("image")
        self.well(self.disk("import", self.path("a.atr", atr_file(bytes(92_160))), target), f"{target}: blank")

    def test_bad_chains_are_named(self) -> None:
        """And taken as they lie."""
        entries = [entry(NAME, 4), entry(b"STOCK   DAT", 5), entry(b"RING       ", 6), entry(b"GONE       ", 720, flag=0x80)]
        data = image(entries, {4: sector(0, 720, b"AB"), 5: sector(0, 0, b"C"), 6: sector(2, 6, b"")})
        source, target = self.path("a.atr", atr_file(data)), self.path("image")
        self.well(
            self.disk("import", source, target),
            f"{source}: HELLO.TXT reads as $A4 at sector 720 (above 719)",
            f"{source}: STOCK.DAT reads as $A4 at sector 5 (file number 0, not 1)",
            f"{source}: RING reads as $A4 at sector 6 (the 720th of the file, and there are 719: a ring)",
            f"{target}: 3 files, 706 free sectors",
        )
        self.assertEqual(self.held("image"), data)

    def test_what_is_refused(self) -> None:
        """By its name; the older image stays."""
        target = self.path("image", b"older")
        wanted = "and a diskette here has 720 of 128"
        for name, data, said in (
            ("a.atr", atr_file(bytes(1_040 * 128)), f"1040 sectors (enhanced density), {wanted}"),
            ("a.atr", atr_file(bytes(183_936), 256), f"sectors of 256 bytes (double density), {wanted}"),
            ("a.atr", atr_file(bytes(92_160), 512), f"sectors of 512 bytes, {wanted}"),
            ("a.atr", atr_file(bytes(40 * 128)), f"40 sectors, {wanted}"),
            ("a.atr", atr_file(HELLO)[:-1], "cut short: 92159 of 92160 bytes are there behind the header"),
            ("a.atr", atr_file(HELLO)[:9], "cut short: 9 of the header's 16 bytes are there"),
            ("a.atr", atr_file(HELLO) + b"x", "1 byte too many: behind the header are 92161, not 92160"),
            ("a.atr", HELLO, "no ATR file: it begins with 00 00, and an ATR file with 96 02"),
            ("a.atr", b"", "no ATR file: it is empty"),
            ("a.xfd", bytes(133_120), f"1040 sectors of 128 bytes (enhanced density), {wanted}"),
            ("a.xfd", bytes(184_320), f"720 sectors of 256 bytes (double density), {wanted}"),
            ("a.xfd", bytes(7), "an IMAGE has 92160 bytes, and this file 7"),
            ("a.xfd", b"", "an IMAGE has 92160 bytes, and this file 0"),
            ("a", atr_file(bytes(1_040 * 128)), f"1040 sectors (enhanced density), {wanted}"),
        ):
            source = self.path(name, data)
            self.refused(self.disk("import", source, target), f"{source}: {said}")
            os.unlink(source)
        self.assertEqual((self.held("image"), self.names()), (b"older", ["image"]))
        # The other words read diskettes in the same way.
        for name, data, said in (
            ("a.atr", atr_file(bytes(1_040 * 128)), f"1040 sectors (enhanced density), {wanted}"),
            ("a.xfd", bytes(7), "an IMAGE has 92160 bytes, and this file 7"),
        ):
            source = self.path(name, data)
            for words in (("export", source, "b.atr"), ("list", source), ("read", source, "A", "out")):
                self.refused(self.disk(*words), f"{source}: {said}")

    def test_words(self) -> None:
        source = self.path("a.atr", atr_file(HELLO))
        for words, said in (
            (("import", source), "disk import takes a FILE.atr and an IMAGE and no more words"),
            (("import", source, "image", "more"), "disk import takes a FILE.atr and an IMAGE and no more words"),
            (("import", source, "image", "--fast"), "disk import has no option '--fast'"),
        ):
            self.refused(self.disk(*words), f"{said} (try ./stick disk import --help)", 2)
        for words, said in (
            (("import", "/nowhere/a.atr", "image"), "/nowhere/a.atr: No such file or directory"),
            (("import", source, "/nowhere/image"), "/nowhere/image: no file can be written there"),
            (("import", source, str(self.folder)), f"{self.folder}: no file can be written there"),
            (("import", str(self.folder), self.path("image")), f"{self.folder}: Is a directory"),
            (
                ("import", "image", source),
                f"{source}: import writes an IMAGE, whose name does not end in .atr (export writes those)",
            ),
        ):
            self.refused(self.disk(*words), said, 2)


class Export(Disks):
    def test_there_and_back(self) -> None:
        for data, summary in ((HELLO, "1 file, 706 free sectors"), (bytes(92_160), "blank")):
            source, target, again = self.path("image", data), self.path("a.ATR"), self.path("again")
            self.well(self.disk("export", source, target), f"{target}: {summary}")
            self.assertEqual(self.held("a.ATR"), atr_file(data))
            self.well(self.disk("import", target, again), f"{again}: {summary}")
            self.assertEqual(self.held("again"), data)
            self.assertEqual(self.disk("export", source, "-").stdout, atr_file(data))

    def test_an_atr_file_again(self) -> None:
        """Its header is made anew."""
        source = self.path("a.atr", atr_file(HELLO, rest=b"\xff" * 9))
        self.assertEqual(self.disk("export", source, self.path("b.atr")).returncode, 0)
        self.assertEqual(self.held("b.atr"), atr_file(HELLO))

    def test_what_is_refused(self) -> None:
        source = self.path("image", HELLO)
        self.refused(self.disk("export", source, "a"), "a: export writes an ATR file, whose name ends in .atr", 2)
        said = "disk export takes an IMAGE and a FILE.atr and no more words (try ./stick disk export --help)"
        self.refused(self.disk("export", source), said, 2)

    @unittest.skipUnless(os.path.exists("/dev/full"), "there is no full device here")
    def test_a_full_disk(self) -> None:
        os.symlink("/dev/full", self.folder / "full.atr")
        target = self.path("full.atr")
        self.refused(self.disk("export", self.path("image", HELLO), target), f"{target}: No space left on device")


class Make(Disks):
    def test_files(self) -> None:
        sources = [self.path("hello.txt", b"HI\x9b"), self.path("Stock", spread(300)), self.path("EMPTY.X", b"")]
        target = self.path("image", b"older")
        self.assertEqual(self.well(self.disk("make", target, *sources), f"{target}: 3 files, 702 free sectors"), "")
        expected = disk.make([(NAME, b"HI\x9b"), (b"STOCK      ", spread(300)), (b"EMPTY   X  ", b"")])
        self.assertEqual(self.held("image"), expected)
        atr_name = self.path("a.atr")
        self.well(self.disk("make", atr_name, *sources), f"{atr_name}: 3 files, 702 free sectors")
        self.assertEqual(self.held("a.atr"), atr_file(expected))

    def test_text(self) -> None:
        """Newlines become EOLs, and nothing else changes."""
        source, target = self.path("hello.txt", b"HI\nA\r\xc1\n"), self.path("image")
        for words in (("--text", target, source), (target, source, "--text")):
            self.assertEqual(self.disk("make", *words).returncode, 0)
            self.assertEqual(disk.sector(self.held("image"), 4)[:8], b"HI\x9bA\r\xc1\x9b\0")
        self.assertEqual(self.disk("make", target, source).returncode, 0)
        self.assertEqual(disk.sector(self.held("image"), 4)[:8], b"HI\nA\r\xc1\n\0")

    def test_no_file(self) -> None:
        target = self.path("image")
        self.well(self.disk("make", target), f"{target}: 0 files, 707 free sectors")

    def test_as_much_as_fits(self) -> None:
        target = self.path("image")
        many = [self.path(f"file{place}", bytes([place])) for place in range(65)]
        self.well(self.disk("make", target, *many[:64]), f"{target}: 64 files, 643 free sectors")
        whole = self.path("whole", spread(707 * 125))
        self.well(self.disk("make", target, whole), f"{target}: 1 file, 0 free sectors")
        before = self.held("image")
        for sources, said in (
            (many, "65 files, and a diskette has room for 64"),
            ([self.path("more", bytes(707 * 125 + 1))], "708 sectors for 88376 characters, and 707 are free"),
            ([many[0], whole], "707 sectors for 88375 characters, and 706 are free"),
        ):
            self.refused(self.disk("make", target, *sources), f"{target} is not written: {said}")
        self.assertEqual(self.held("image"), before)

    def test_names(self) -> None:
        target = self.path("image", b"older")
        for name in ("a-b", "longname1", "a.text", "two.dots.x", ".x", "\u00e4", "b c"):
            source = self.path(name, b"")
            self.refused(self.disk("make", target, source), f"{source}: {BAD_NAME}")
        os.mkdir(self.folder / "folder")
        same = self.path("folder/hello.TXT", b"")
        source = self.path("hello.txt", b"")
        self.refused(self.disk("make", target, source, same), f"{same}: there is a file of this name already")
        self.assertEqual(self.held("image"), b"older")

    def test_words(self) -> None:
        target, source = self.path("image"), self.path("a", b"")
        for words, said in (
            ((), "disk make takes an IMAGE and the FILEs that go on it (try ./stick disk make --help)"),
            ((target, source, "--fast"), "disk make has no option '--fast' (try ./stick disk make --help)"),
            ((target, "-"), "disk make takes names: - has none"),
            (("-", source), "disk make takes names: - has none"),
            ((target, self.path("none")), f"{self.path('none')}: No such file or directory"),
            ((target, str(self.folder / "..")), f"{self.folder / '..'}: {BAD_NAME}"),
            (("/nowhere/image", source), "/nowhere/image: no file can be written there"),
        ):
            done = self.disk("make", *words)
            self.refused(done, said, 1 if BAD_NAME in said else 2)
        self.assertEqual(self.names(), ["a"])


class Whole(Disks):
    """A file is written whole or not at all."""

    def test_killed_before_the_renaming(self) -> None:
        target = self.path("image", b"older")
        program = (
            "import os, signal, sys\n"
            "os.replace = lambda part, path: os.kill(os.getpid(), signal.SIGKILL)\n"
            "from fixlomand.command import main\n"
            "main(['disk', 'import', *sys.argv[1:]])\n"
        )
        source = self.path("a.atr", atr_file(HELLO))
        done = subprocess.run([sys.executable, "-c", program, source, target], cwd=HOST, timeout=PATIENCE, check=False)
        self.assertEqual((done.returncode, self.held("image")), (-signal.SIGKILL, b"older"))
        # What is left of it is in nobody's way.
        self.well(self.disk("import", source, target), f"{target}: 1 file, 706 free sectors")
        self.assertEqual((self.held("image"), self.names()), (HELLO, ["a.atr", "image"]))

    def test_killed_while_it_reads(self) -> None:
        """Standard input, or a file that does not come whole."""
        os.mkfifo(self.folder / "slow.txt")
        for words in (("import", "-", self.path("image")), ("make", self.path("image"), self.path("slow.txt"))):
            for number in (signal.SIGKILL, signal.SIGTERM, signal.SIGINT):
                self.path("image", b"older")
                process = subprocess.Popen(
                    [STICK, "disk", *words],
                    stdin=subprocess.PIPE,
                    stderr=subprocess.DEVNULL,
                    env={**os.environ, **NO_CORE},
                )
                assert process.stdin is not None
                process.stdin.write(atr_file(HELLO)[:50_000])
                process.stdin.flush()
                with self.assertRaises(subprocess.TimeoutExpired):
                    process.wait(0.3)
                process.send_signal(number)
                self.assertNotEqual(process.wait(PATIENCE), 0)
                process.stdin.close()
                self.assertEqual((self.held("image"), self.names()), (b"older", ["image", "slow.txt"]))

    def test_killed_while_it_waits_for_the_stick(self) -> None:
        source = self.path("image", HELLO)
        for number in (signal.SIGKILL, signal.SIGTERM, signal.SIGINT):
            target = self.path("out", b"older")
            # A play that takes all calls and answers none, and ends with its input.
            process = subprocess.Popen(
                [STICK, "disk", "read", source, "HELLO.TXT", target],
                stderr=subprocess.DEVNULL,
                env={**os.environ, "FIXLOMAND_PLAY": "sed d"},
            )
            with self.assertRaises(subprocess.TimeoutExpired):
                process.wait(0.3)
            process.send_signal(number)
            self.assertNotEqual(process.wait(PATIENCE), 0)
            self.assertEqual((self.held("out"), self.names()), (b"older", ["image", "out"]))

    def test_a_link_and_its_mode_stay(self) -> None:
        self.path("kept", b"older")
        os.chmod(self.folder / "kept", 0o640)
        os.symlink("kept", self.folder / "image")
        self.assertEqual(self.disk("make", self.path("image"), self.path("hello.txt", b"HI\x9b")).returncode, 0)
        self.assertTrue((self.folder / "image").is_symlink())
        self.assertEqual(self.held("kept"), HELLO)
        self.assertEqual(os.stat(self.folder / "kept").st_mode & 0o777, 0o640)


class Help(unittest.TestCase):
    def test_of_every_word(self) -> None:
        words = ["import", "export", "list", "read", "make"]
        whole = run("disk", "--help", **NO_CORE)
        self.assertEqual((whole.returncode, whole.stderr), (0, b""))
        for word in words:
            self.assertIn(f"stick disk {word} ".encode(), whole.stdout)
            for asked in (("disk", word, "--help"), ("disk", word, "-h"), ("disk", word, "one", "two", "--help")):
                done = run(*asked, **NO_CORE)
                self.assertEqual((done.returncode, done.stderr), (0, b""))
                self.assertTrue(done.stdout.startswith(f"stick disk {word} ".encode()))
        for text in HELPS.values():
            self.assertLessEqual(max(map(len, text.splitlines())), 80)
        self.assertIn(b"stick disk .. ", run("--help").stdout)
        # The document for those who write hosts has a row for each.
        rows = (HOST.parent / "docs" / "HOSTS.md").read_text(encoding="utf-8").split("| `./stick disk` | |")[1]
        self.assertEqual(re.findall(r"^\| `(\w+) [A-Z]", rows.split("\n\n")[0], re.MULTILINE), words)

    def test_bad_words(self) -> None:
        those = "import, export, list, read, make (try ./stick disk --help)"
        for words, said in ((("disk",), "disk needs a word after it"), (("disk", "play"), "unknown word 'disk play'")):
            done = run(*words, **NO_CORE)
            self.assertEqual((done.returncode, done.stdout, last_line(done)), (2, b"", f"stick: {said}: {those}"))


@unittest.skipUnless(PLAY, NO_PLAY)
class Through(Disks):
    """``list`` and ``read``, through the core."""

    def disk(self, *words: str, give: bytes = b"", **variables: str) -> subprocess.CompletedProcess[bytes]:
        return run("disk", *words, give=give, **variables)

    def said(self, done: subprocess.CompletedProcess[bytes], *lines: str, status: int = 0) -> None:
        """What was said after the line on play."""
        self.assertEqual(done.stderr.decode().splitlines()[1:], [f"stick: {line}" for line in lines])
        self.assertEqual(done.returncode, status)

    def test_made_and_read(self) -> None:
        for length in (0, 1, 124, 125, 126, 250, 16_368, 16_369, 40_000, 707 * 125):
            data = spread(length)
            target, out = self.path("image"), self.path("out", b"older")
            self.assertEqual(self.disk("make", target, self.path("data.bin", data)).returncode, 0)
            characters = f"{length} character{'' if length == 1 else 's'}"
            self.said(self.disk("read", target, "DATA.BIN", out), f"{out}: {characters}")
            self.assertEqual(self.held("out"), data)

    def test_several_files(self) -> None:
        held = {f"file{place}.dat": spread(place * 311) for place in range(12)}
        sources = [self.path(name, data) for name, data in held.items()]
        target = self.path("a.atr")
        self.assertEqual(self.disk("make", target, *sources).returncode, 0)
        done = self.disk("list", target)
        lines = [f"  FILE{place:<4}DAT {max(1, -(-place * 311 // 125)):03}" for place in range(12)]
        free = 707 - sum(int(line[-3:]) for line in lines)
        self.assertEqual(done.stdout.decode().splitlines(), [*lines, f"{free} FREE SECTORS"])
        self.assertEqual((done.returncode, len(done.stderr.splitlines())), (0, 1))
        for name, data in held.items():
            done = self.disk("read", target, name.upper(), "-")
            self.assertEqual((done.stdout, done.returncode), (data, 0))
            characters = f"{len(data)} character{'' if len(data) == 1 else 's'}"
            self.assertEqual(last_line(done), f"stick: standard output: {characters}")

    def test_patterns(self) -> None:
        names = ("stock.dat", "stock.old", "readme", "sales.dat")
        target = self.path("image")
        self.assertEqual(self.disk("make", target, *(self.path(name, name.encode()) for name in names)).returncode, 0)
        for pattern, listed in (
            (("*.*",), names),
            ((), names),
            (("*.DAT",), ("stock.dat", "sales.dat")),
            (("S?O*.*",), ("stock.dat", "stock.old")),
            (("README",), ("readme",)),
            (("*",), ("readme",)),
            (("NONE.*",), ()),
        ):
            done = self.disk("list", target, *pattern)
            found = ["".join(line[2:].split()[:-1]).lower() for line in done.stdout.decode().splitlines()[:-1]]
            self.assertEqual((done.returncode, found), (0, [name.replace(".", "") for name in listed]))
            self.assertEqual(done.stdout.decode().splitlines()[-1], "703 FREE SECTORS")
        self.assertEqual(self.disk("read", target, "S*.O*", "-").stdout, b"stock.old")

    def test_locked_and_strange_names(self) -> None:
        entries = [entry(NAME, 4, 12, 0x62), entry(b"\x9b\x00\xc1\x7fx  .?* ", 4, 1_234)]
        source = self.path("image", image(entries, {4: sector(0, 0, b"HI\x9b")}, free=65_535))
        done = self.disk("list", source)
        self.assertEqual(
            done.stdout.decode().splitlines(),
            ["* HELLO   TXT 012", "  \u241b\u2665A\u25b6x  .?*  234", "535 FREE SECTORS"],
        )
        self.assertEqual(self.disk("read", source, "HELLO.TXT", "-").stdout, b"HI\x9b")

    def test_a_blank_diskette(self) -> None:
        source = self.path("image", bytes(92_160))
        self.assertEqual(self.disk("list", source).stdout, b"000 FREE SECTORS\n")
        out = self.path("out", b"older")
        said = f"{source}: $AA: no file of this name on the diskette: *.*"
        self.said(self.disk("read", source, "*.*", out), said, status=1)
        self.assertEqual(self.held("out"), b"older")

    def test_names_that_are_refused(self) -> None:
        source, out = self.path("image", HELLO), self.path("out", b"older")
        only = "a byte that a file name has not: only A to Z, 0 to 9, *, ? and one dot"
        for name in ("hello.txt", "A-B", "A.B.C", "D1:A"):
            for words in (("read", source, name, out), ("list", source, name)):
                self.said(self.disk(*words), f"{name}: $A5: {only}", status=1)
        for name in ("NAMETOOLONG.X", "HELLO TXT", "\u00c4"):
            for words in (("read", source, name, out), ("list", source, name)):
                said = f"'{name}' is no file name: up to 8 characters, a dot and up to 3, and no blank"
                self.refused(self.disk(*words, **NO_CORE), said, 2)
        self.assertEqual(self.held("out"), b"older")

    def test_a_bad_chain(self) -> None:
        """What was read before it, the place, and a failure."""
        out = self.path("out")
        full = b"A" * 125
        for first, sectors, where, read in (
            (4, {4: sector(0, 720, b"HI\x9b")}, "sector 720 (above 719)", b"HI\x9b"),
            (4, {4: sector(0, 5, full), 5: sector(1, 0, b"B")}, "sector 5 (file number 1, not 0)", full),
            (4, {4: sector(0, 0, b"B", 126)}, "sector 4 (data count 126, above 125)", b""),
            (65_535, {}, "sector 65535 (above 719)", b""),
            (4, {4: sector(0, 4, full)}, "sector 4 (the 720th of the file, and there are 719: a ring)", full * 719),
            (4, {4: sector(0, 4, b"")}, "sector 4 (the 720th of the file, and there are 719: a ring)", b""),
        ):
            source = self.path("image", image([entry(NAME, first)], sectors))
            done = self.disk("read", source, "H*.*", out)
            before = f"{len(read)} character{'' if len(read) == 1 else 's'}"
            self.said(done, f"{source}: $A4 in HELLO.TXT at {where}; {out} has the {before} before it", status=1)
            self.assertEqual(self.held("out"), read)
            done = self.disk("read", source, "HELLO.TXT", "-", "--text")
            self.assertEqual((done.stdout, done.returncode), (read.replace(b"\x9b", b"\n"), 1))

    def test_text(self) -> None:
        data = b"PLAIN\x9b\xc9NVERSE\x9b\x00\x7f\x9b"
        source, out = self.path("image", image([entry(NAME, 4)], {4: sector(0, 0, data)})), self.path("out")
        self.said(
            self.disk("read", source, "HELLO.TXT", out, "--text"),
            "1 byte above $7F is written without the high bit, which is inverse video (EOL is a newline)",
            f"{out}: {len(data)} characters",
        )
        self.assertEqual(self.held("out"), b"PLAIN\nINVERSE\n\x00\x7f\n")
        # There and back.
        self.assertEqual(self.disk("make", source, self.path("a.txt", b"one\ntwo\n"), "--text").returncode, 0)
        self.assertEqual(self.disk("read", source, "A.TXT", "-").stdout, b"one\x9btwo\x9b")
        self.assertEqual(self.disk("read", source, "A.TXT", "-", "--text").stdout, b"one\ntwo\n")

    def test_no_more_than_it_needs(self) -> None:
        """How many GETs it sends: none behind the last character, which comes with $03."""
        out, calls = self.path("out"), self.path("calls")
        play = f"sh -c {shlex.quote(f'tee {shlex.quote(calls)} | {PLAY}')}"
        for length, gets in ((BUFFER_LENGTH, 1), (BUFFER_LENGTH + 1, 2)):
            source = self.path("image", disk.make([(NAME, spread(length))]))
            done = self.disk("read", source, "HELLO.TXT", out, FIXLOMAND_PLAY=play)
            self.assertEqual((done.returncode, self.held("out")), (0, spread(length)))
            ops = script.from_bytes(self.held("calls"))
            taken = b"".join(op.encode()[2:] for op in ops if isinstance(op, script.Take))
            self.assertEqual((length, taken.count(bytes.fromhex("10 09 00 00 07"))), (length, gets))

    def test_a_play_that_ends(self) -> None:
        source, out = self.path("image", HELLO), self.path("out", b"older")
        for words in (("read", source, "HELLO.TXT", out), ("list", source)):
            done = self.disk(*words, FIXLOMAND_PLAY="true")
            self.assertEqual((done.returncode, last_line(done)), (1, "stick: play has ended"))
        self.assertEqual((self.held("image"), self.held("out")), (HELLO, b"older"))

    def test_words(self) -> None:
        source = self.path("image", HELLO)
        for words, said in (
            (("list",), "disk list takes an IMAGE, or an IMAGE and a PATTERN, and no more words"),
            (("list", source, "*.*", "more"), "disk list takes an IMAGE, or an IMAGE and a PATTERN, and no more words"),
            (("read", source, "A"), "disk read takes an IMAGE, a NAME and an OUT and no more words"),
            (("read", source, "A", "out", "more"), "disk read takes an IMAGE, a NAME and an OUT and no more words"),
        ):
            self.refused(self.disk(*words, **NO_CORE), f"{said} (try ./stick disk {words[0]} --help)", 2)
        said = "/nowhere/out: no file can be written there"
        self.refused(self.disk("read", source, "A", "/nowhere/out", **NO_CORE), said, 2)

    def test_in_a_terminal(self) -> None:
        terminal = Terminal([STICK, "disk", "list", self.path("image", HELLO)])
        self.addCleanup(terminal.close)
        self.assertEqual(terminal.wait_for_end(), 0)
        self.assertTrue(terminal.written.endswith(b"  HELLO   TXT 001\r\n706 FREE SECTORS\r\n"))
        terminal = Terminal([STICK, "disk", "read", self.path("image"), "HELLO.TXT", "-", "--text"])
        self.addCleanup(terminal.close)
        self.assertEqual(terminal.wait_for_end(), 0)
        self.assertIn(b"\nHI\r\n", terminal.written)

    def test_played(self) -> None:
        """A call script that puts a diskette in; another length of the images is answered 2."""
        put = "".join(
            f"write images {128 * (number - 1)} {disk.sector(HELLO, number).hex(' ')}\n" for number in (4, 360, 361)
        )
        asked = "take 0 11 10 00 00 00 44 3A 48 45 4C 4C 4F 2E 54 58 54 9B 20 20\ntick 0\ngive 0 x 4\n"
        asked += "take 0 10 09 00 00 03 00 00 00 00 04 00 00\ntick 0\ngive 0 x 7\n"
        asked += "take 0 10 09 00 00 05 20 00 0A 00 00 00 00\ntick 0 x 9\ngive 0 x 7\ndump\n"
        lent = "lend images 368639\ntick 0\nlend images 368641\ntick 0\nlend 6 368640\ntick 0\n"
        done = run("play", "-", give=(put + asked + lent).encode())
        lines = done.stdout.decode().splitlines()
        self.assertIn("tick 0 x 9: ticks 4, last 0 done", lines)
        self.assertIn("give 0 x 7: 0 done, bytes 90 04 00 03 03 00 00", lines)
        dump = next(line for line in lines if line.startswith("dump: "))
        self.assertIn("port 0 block 0 D1: AUX1 04", dump)
        self.assertEqual(
            lines[-6:],
            [
                "lend images 368639",
                "tick 0: 2 a lent buffer has another length",
                "lend images 368641",
                "tick 0: 7 tick, nothing ready or running",
                "lend images 368640",
                "tick 0: 7 tick, nothing ready or running",
            ],
        )


@unittest.skipUnless(PLAY, NO_PLAY)
class Hosts(unittest.TestCase):
    """D in the Python library."""

    def setUp(self) -> None:
        self.player = Player(shlex.split(PLAY))
        self.addCleanup(self.player.close)
        self.laptop, self.phone = (Noting(PlayPort(self.player, port)) for port in (0, 1))

    def lend(self, *files: tuple[bytes, bytes], drive: int = 1) -> None:
        """Puts a new diskette in, over whatever there was."""
        data = disk.make(files)
        for at in (0, 46_080):
            op = script.Write(script.Buffer.IMAGES, 92_160 * (drive - 1) + at, data[at : at + 46_080])
            self.player.do(op)

    def test_the_directory(self) -> None:
        self.lend((NAME, b"HI\x9b"), (b"STOCK   DAT", spread(1_000)), (b"README     ", b""))
        self.assertEqual(
            (self.laptop.directory("D1:*.*").entries, self.laptop.directory().free),
            (
                (
                    DirectoryEntry(False, "HELLO", "TXT", 1),
                    DirectoryEntry(False, "STOCK", "DAT", 8),
                    DirectoryEntry(False, "README", "", 1),
                ),
                697,
            ),
        )
        self.assertEqual([each.filename for each in self.phone.directory("D:S*.*")], ["STOCK.DAT"])
        self.assertEqual((len(self.phone.directory("D2:*.*")), self.phone.directory("D2:*.*").free), (0, 0))
        self.assertEqual(self.player.state().blocks[0][0].is_open, False)

    def test_every_file_of_the_directory(self) -> None:
        held = {b"FILE%-4dDAT" % place: spread(37 * place) for place in range(64)}
        self.lend(*held.items())
        for each, data in zip(self.laptop.directory("D:*.*"), held.values()):
            with self.laptop.open(f"D:{each.filename}", READ) as file:
                self.assertEqual(file.get_rest(), data)

    def test_a_directory_by_records(self) -> None:
        self.lend((NAME, b"HI\x9b"))
        with self.laptop.open("D:*.*", DIRECTORY) as file:
            self.assertEqual([*file.records()], [b"  HELLO   TXT 001\x9b", b"706 FREE SECTORS\x9b"])
            self.assertTrue(file.at_end)
        self.assertEqual(self.laptop.statuses, [0x01, 0x03])

    def test_character_by_character(self) -> None:
        """To the end without the request that would give $88."""
        for data, last in ((b"HI\x9b", 0x03), (spread(300), 0x03), (b"", 0x88)):
            self.lend((NAME, data))
            self.laptop.statuses.clear()
            with self.laptop.open("D:HELLO.TXT", READ) as file:
                self.assertEqual((bytes(file), file.at_end), (data, last == 0x03))
            self.assertEqual(self.laptop.statuses, [0x01] * (len(data) - 1) + [last])

    def test_records_to_the_end(self) -> None:
        for text, statuses in (
            (b"ONE\x9bTWO\x9b" + b"3" * 200 + b"\x9b", [0x01, 0x01, 0x03]),
            (b"ONE\x9bTWO", [0x01, 0x88]),
        ):
            self.phone.statuses.clear()
            self.lend((NAME, text))
            with self.phone.open("D:HELLO.TXT", READ) as file:
                self.assertEqual(b"".join(file.records()), text)
            self.assertEqual(self.phone.statuses, statuses)

    def test_a_bad_chain(self) -> None:
        """It is not warned of, and raised again and again."""
        drives.lend(self.player, image([entry(NAME, 4)], {4: sector(0, 720, b"AB")}))
        got = bytearray()
        with self.laptop.open("D:HELLO.TXT", READ) as file:
            with self.assertRaises(errors.BadChain):
                for byte in file:
                    got.append(byte)
            self.assertEqual((got, self.laptop.statuses, file.at_end), (b"AB", [0x01, 0x01, 0xA4], False))
            self.assertRaises(errors.BadChain, file.get_record)
        with self.laptop.open("D:HELLO.TXT", READ) as file, self.assertRaises(errors.BadChain) as caught:
            file.get_rest()
        self.assertEqual((caught.exception.data, caught.exception.count), (b"AB", 2))

    def test_refusals(self) -> None:
        drives.lend(self.player, image([entry(NAME, 4, flag=0x62), entry(b"A          ", 4)], {4: sector(0, 0, b"HI\x9b")}))
        for error, specification, aux1 in (
            (errors.FileNotFound, "D:NONE", READ),
            (errors.FileNotFound, "D3:*.*", READ),
            (errors.BadFileName, "D:hello.txt", READ),
            (errors.BadCommand, "D:HELLO.TXT", WRITE),
            (errors.BadCommand, "D:hello.txt", READ | WRITE),
            (errors.UnknownDevice, "D5:HELLO.TXT", READ),
        ):
            self.assertRaises(error, self.laptop.open, specification, aux1)
            self.assertRaises(error, self.laptop.status, specification, aux1)
        self.assertRaises(errors.FileLocked, self.laptop.status, "D:HELLO.TXT", READ)
        self.assertEqual((self.laptop.status("D:A", READ), self.laptop.status("D:HELLO.TXT", DIRECTORY)), (1, 1))
        with self.laptop.open("D:HELLO.TXT", READ) as file:
            self.assertRaises(errors.FileLocked, file.status)
            self.assertRaises(errors.NotWritable, file.put_character, 0x41)
            self.assertEqual(file.get_rest(), b"HI\x9b")

    def test_both_at_one_file(self) -> None:
        """Each has its own place; a drive is no host's alone."""
        self.lend((NAME, spread(600)))
        self.lend((NAME, b"other"), drive=4)
        with self.laptop.open("D:HELLO.TXT", READ) as one, self.phone.open("D:HELLO.TXT", READ) as two:
            with self.laptop.open("D4:HELLO.TXT", READ) as three:
                self.assertEqual(bytes(islice(one, 200)), spread(200))
                self.assertEqual(two.get_characters(100), spread(100))
                self.assertEqual((three.get_rest(), three.at_end), (b"other", False))
                self.assertEqual((one.get_rest(), two.get_rest()), (spread(600)[200:], spread(600)[100:]))

    def test_a_host_that_dropped_out(self) -> None:
        """The next one begins anew."""
        self.lend((NAME, b"HI\x9b"))
        self.laptop.open("D:HELLO.TXT", READ).get_characters(2)
        self.laptop = Noting(PlayPort(self.player, 0), close_all=True)
        with self.laptop.open("D:HELLO.TXT", READ) as file:
            self.assertEqual((file.at_end, bytes(file)), (False, b"HI\x9b"))

    def test_the_longest_request(self) -> None:
        """719 full sectors as one record."""
        sectors = {number: sector(0, number + 1 if number < 719 else 0, b"A" * 125) for number in range(1, 720)}
        sectors[361] = sector(0, 362, entry(NAME, 1), 125)
        drives.lend(self.player, image([], sectors))
        with self.laptop.open("D:HELLO.TXT", READ) as file, self.assertRaises(errors.EndOfFile) as caught:
            file.get_record(1)
        self.assertEqual(caught.exception.data, b"A")
        with self.laptop.open("D:HELLO.TXT", READ) as file:
            self.assertEqual(len(file.get_rest()), 719 * 125)


def _get(stick: Stick, specification: str, got: list[bytes]) -> None:
    with stick.open(specification, READ) as file:
        got.append(file.get_rest())


@unittest.skipUnless(PLAY, NO_PLAY)
class Live(Living, Folder):
    """``live --disk``."""

    def begin(self, *words: str, **files: bytes) -> tuple[Terminal, Stick, Stick]:
        """Starts with files in a folder that stays; ``d1`` is the diskette of drive 1."""
        Folder.setUp(self)
        self.kept = self.folder
        for name, data in files.items():
            suffix = ".atr" if len(data) != 92_160 else ".xfd"
            (self.folder / f"{name}{suffix}").write_bytes(data)
            words += ("--disk", f"{name[1:]}={self.folder / name}{suffix}")
        return self.start(*words)

    def test_read_by_both_hosts(self) -> None:
        lines = [b"item %d\x9b" % number for number in range(40)]
        terminal, laptop, phone = self.begin(
            d1=disk.make([(b"STOCK   DAT", b"".join(lines)), (b"README     ", b"A")]), d3=atr.encode(HELLO)
        )
        terminal.wait_for_text("D1 d1.xfd, 2 files, 703 free")
        terminal.wait_for_text("D3 d3.atr, 1 file, 706 free")
        self.assertEqual([each.filename for each in laptop.directory("D:*.*")], ["STOCK.DAT", "README"])
        with phone.open("D3:H*.*", READ) as file:
            self.assertEqual(file.get_record(), b"HI\x9b")
            terminal.wait_for_text("open: 0 D3:R")
        with laptop.open("D:STOCK.DAT", READ) as file, laptop.open("D:*.*", DIRECTORY) as listing:
            self.assertEqual((bytes(islice(file, 5)), file.get_record()), (b"item ", b"0\x9b"))
            self.assertEqual(list(file.records()), lines[1:])
            self.assertEqual(listing.get_record(), b"  STOCK   DAT 003\x9b")
            terminal.wait_for_text("open: 0 D1:R, 1 D1:directory")
        self.assertEqual((len(laptop.directory("D2:*.*")), laptop.directory("D2:*.*").free), (0, 0))
        before = {file: (self.kept / file).read_bytes() for file in os.listdir(self.kept)}
        self.end(terminal)
        self.assertEqual({file: (self.kept / file).read_bytes() for file in os.listdir(self.kept)}, before)
        self.assertEqual(sorted(before), ["d1.xfd", "d3.atr"])

    def test_four_drives(self) -> None:
        disks = {f"d{drive}": disk.make([(b"DRIVE%d     " % drive, b"%d" % drive)]) for drive in (4, 2, 1, 3)}
        terminal, laptop, _ = self.begin(**disks)
        for drive in range(1, 5):
            with laptop.open(f"D{drive}:*.*", READ) as file:
                self.assertEqual(file.get_rest(), b"%d" % drive)
        shown = [line for line in terminal.screen.lines() if "free sector" in line]
        self.assertEqual([re.search(r"D\d d\d\.xfd", line)[0] for line in shown], [f"D{n} d{n}.xfd" for n in range(1, 5)])
        self.end(terminal)

    def test_without_a_diskette(self) -> None:
        terminal, laptop, _ = self.start()
        self.assertRaises(errors.FileNotFound, laptop.open, "D:*.*", READ)
        self.assertEqual(laptop.directory().entries, ())
        self.assertFalse(any("diskette" in line for line in terminal.screen.lines()))
        self.end(terminal)

    def test_a_small_window(self) -> None:
        """All drives full, and the ports are still shown."""
        Folder.setUp(self)
        words: list[str] = []
        for drive in range(1, 5):
            path = self.folder / f"a rather long name of a diskette {drive}.xfd"
            path.write_bytes(HELLO)
            words += ["--disk", f"{drive}={path}"]
        terminal, laptop, _ = self.start(*words, rows=24, columns=80)
        with laptop.open("D4:*.*", READ):
            terminal.wait_for_text("open: 0 D4:R")
        self.assertIn("port 0, laptop: ", terminal.screen.lines()[1])
        self.end(terminal)

    def test_two_groups_at_once(self) -> None:
        data = spread(3_000)
        terminal, laptop, phone = self.begin("--speed", "1000", d1=disk.make([(NAME, data)]), d2=HELLO)
        got: list[bytes] = []
        reading = threading.Thread(target=_get, args=(laptop, "D:HELLO.TXT", got), daemon=True)
        editor = phone.open("E:", WRITE)
        reading.start()
        terminal.wait_for_text("GET CHARACTERS: holds the disk")
        editor.put_record(b"the phone goes on")
        self.assertTrue(reading.is_alive())
        terminal.wait_for_text("  the phone goes on")
        # Another drive is of the same group.
        other: list[bytes] = []
        waiting = threading.Thread(target=_get, args=(phone, "D2:HELLO.TXT", other), daemon=True)
        waiting.start()
        terminal.wait_for_text("OPEN: waits (answer 8)")
        for each in (reading, waiting):
            each.join(PATIENCE)
            self.assertFalse(each.is_alive())
        self.assertEqual((got, other), ([data], [b"HI\x9b"]))
        self.end(terminal)

    def test_a_log(self) -> None:
        """It has the diskette that was put in, so that it plays again."""
        terminal, laptop, _ = self.begin("--log", "log", d2=HELLO)
        log = Path(self.folder) / "log"
        self.assertEqual(laptop.directory("D2:*.*").entries, (DirectoryEntry(False, "HELLO", "TXT", 1),))
        with laptop.open("D2:HELLO.TXT", READ) as file:
            self.assertEqual(file.get_record(), b"HI\x9b")
        self.assertRaises(errors.FileNotFound, laptop.open, "D2:NONE", READ)
        self.end(terminal)
        text = log.read_text()
        self.assertRegex(text, r"\n# \d+\.\d\d\d D2 d2\.xfd, 1 file, 706 free sectors\nwrite images 92544 48 49 9B ")
        for words in (
            "OPEN block 0, specification at 0, AUX1 $06 (R, of D the directory), AUX2 0",
            "GET RECORD replied $03 last character, count 3",
            "OPEN replied $AA FileNotFound, no file of this name on the diskette",
        ):
            self.assertIn(f" port 0: {words}\n", text)
        again = run("play", str(log)).stdout.decode()
        self.assertIn("bytes 92 04 00 01 48 49 9B", again)
        self.assertEqual(set(re.findall(r": (?:ticks \d+, last )?([1-9] [a-z ]+)", again)), set())

    def test_what_is_refused(self) -> None:
        Folder.setUp(self)
        for name, data, said, status in (
            ("a", bytes(7), "an IMAGE has 92160 bytes, and this file 7", 1),
            ("a.atr", atr_file(bytes(1_040 * 128)), "1040 sectors (enhanced density), and a diskette here has 720 of 128", 1),
            ("none", None, "No such file or directory", 2),
        ):
            path = self.folder / name
            if data is not None:
                path.write_bytes(data)
            terminal = Terminal([STICK, "live", "--disk", f"1={path}"], columns=200)
            self.addCleanup(terminal.close)
            self.assertEqual(terminal.wait_for_end(), status)
            self.assertIn(f"stick: {path}: {said}".encode(), terminal.written)
            self.assertNotIn(b"Traceback", terminal.written)
        for words, said in (
            (("--disk",), "--disk needs a word after it"),
            (("--disk", "a.atr"), "--disk takes N=FILE, N from 1 to 4, not 'a.atr'"),
            (("--disk", "0=a.atr"), "--disk takes N=FILE, N from 1 to 4, not '0=a.atr'"),
            (("--disk", "5=a.atr"), "--disk takes N=FILE, N from 1 to 4, not '5=a.atr'"),
            (("--disk", "1="), "--disk takes N=FILE, N from 1 to 4, not '1='"),
            (("--disk", "1=-"), "--disk takes N=FILE, N from 1 to 4, not '1=-'"),
            (("--disk", "1=a", "--disk", "2=b", "--disk", "1=c"), "--disk 1=.. is given twice: a drive has one diskette"),
        ):
            terminal = Terminal([STICK, "live", *words])
            self.addCleanup(terminal.close)
            self.assertEqual(terminal.wait_for_end(), 2)
            self.assertIn(f"stick: {said}".encode(), terminal.written)


if __name__ == "__main__":
    unittest.main()
