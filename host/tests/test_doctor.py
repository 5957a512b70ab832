"""The diskette doctor: its list in words and as a map, ``./stick doctor`` as people run it, what it writes and takes back, and
that it is never half done."""

from __future__ import annotations

import errno
import io
import os
import random
import re
import shlex
import signal
import subprocess
import sys
import unittest
from contextlib import redirect_stderr, redirect_stdout
from pathlib import Path
from unittest import mock

from fixlomand import changes, command, disk, files, findings, script, sectormap, toolchain
from fixlomand.changes import ATR, PLAIN, Listed
from fixlomand.findings import Diagnosis
from fixlomand.helps import HELPS
from fixlomand.play import Player
from fixlomand.script import Change

from . import doctors
from .disks import HELLO, NAME, entry, image, sector
from .disks import atr as atr_file
from .running import NO_PLAY, PATIENCE, PLAY, STICK, last_line, run
from .terminal import Terminal
from .test_disk import NO_CORE, Disks, spread

HOST = Path(STICK).parent / "host"
CORE = PLAY or doctors.PLAY
"""The play that these tests run: without one, a stand-in."""
WITH_CORE = {"FIXLOMAND_PLAY": CORE}
OTHER = b"OTHER      "
DIRECTORY = 46_080
MAP = 45_952


def changed(data: bytes, *places: tuple[int, int | bytes]) -> bytes:
    """An image with other bytes at some places."""
    made = bytearray(data)
    for at, new in places:
        piece = bytes([new]) if isinstance(new, int) else new
        made[at : at + len(piece)] = piece
    return bytes(made)


def listed(data: bytes) -> list[Change]:
    """The changes that an image needs, by the doctor of the tests."""
    output = doctors.doctor(bytearray(data))
    return script.read_changes(b"\0" + (len(output) // 5).to_bytes(2, "little") + output)


def diagnosis(data: bytes) -> Diagnosis:
    return Diagnosis(data, listed(data))


WORKED = changed(HELLO, (384 + 125, b"\x01\x69"), (DIRECTORY + 1, 2))
"""The paper's example: a link to 361, and count 2."""
WORKED_LIST = [Change(4, 125, 1, 0), Change(4, 126, 0x69, 0), Change(361, 1, 2, 1)]
WORKED_LINES = [
    "       4   125  01  00  HELLO.TXT: link",
    "       4   126  69  00  HELLO.TXT: link",
    "     361     1  02  01  HELLO.TXT: sector count",
]
THREE = disk.make([(NAME, spread(300)), (OTHER, spread(200)), (b"THIRD   DAT", b"x")])
"""Files in sectors 4 to 6, 7 and 8, and 9."""
ONE_CUT = changed(THREE, (128 * 3 + 126, 9))
"""Of its three files the first is cut behind its first sector: 4 is linked to 9."""
REPAIRED = changes.replayed(ONE_CUT, listed(ONE_CUT))


def broken_disk(chance: random.Random) -> bytes:
    """A diskette of some files, in which a few bytes that a doctor looks at are others."""
    held = [(b"FILE%-7d" % place, spread(chance.randrange(900))) for place in range(chance.randrange(1, 40))]
    made = bytearray(disk.make(held))
    used = [number for number in range(1, 720) if any(disk.sector(bytes(made), number))]
    for _ in range(chance.randrange(1, 30)):
        at = chance.choice(
            (
                128 * (chance.choice(used) - 1) + chance.choice((125, 126, 127)),
                DIRECTORY + 16 * chance.randrange(40) + chance.randrange(5),
                MAP + chance.randrange(128),
            )
        )
        made[at] = chance.choice((0, 1, 2, 4, 0x42, 0x80, 0xFF, chance.randrange(256), made[at] ^ 1 << chance.randrange(8)))
    return bytes(made)


class Lists(unittest.TestCase):
    def test_made_and_taken_back(self) -> None:
        self.assertEqual(changes.replayed(WORKED, WORKED_LIST), HELLO)
        self.assertEqual(changes.taken_back(HELLO, WORKED_LIST), WORKED)
        self.assertEqual(changes.taken_back(HELLO, reversed(WORKED_LIST)), WORKED)
        ends = [Change(1, 0, 0, 7), Change(720, 127, 0, 9)]
        self.assertEqual(changes.replayed(bytes(92_160), ends), b"\x07" + bytes(92_158) + b"\x09")

    def test_the_first_byte_that_differs(self) -> None:
        for data, said in (
            (WORKED, "sector 4 place 125 is $01, and the list says $00"),
            (changed(HELLO, (384 + 126, 5)), "sector 4 place 126 is $05, and the list says $00"),
            (changed(HELLO, (DIRECTORY + 1, 9)), "sector 361 place 1 is $09, and the list says $01"),
        ):
            with self.assertRaises(changes.Differs) as caught:
                changes.taken_back(data, WORKED_LIST)
            self.assertEqual(str(caught.exception), said)
        self.assertRaises(changes.Differs, changes.replayed, HELLO, WORKED_LIST)
        for place in (Change(721, 0, 0, 1), Change(0, 127, 0, 1), Change(720, 128, 0, 1)):
            self.assertRaises(changes.Differs, changes.replayed, bytes(92_160), [place])

    def test_as_text(self) -> None:
        text = changes.to_text(Listed("a.atr", ATR, "a.atr.old", tuple(WORKED_LIST)), diagnosis(WORKED).change_words)
        self.assertEqual(
            text.splitlines(),
            [
                '# stick doctor: 3 changes in "a.atr", an ATR file; before them it was "a.atr.old"',
                "# sector place old new",
                "       4   125  01  00  # HELLO.TXT: link",
                "       4   126  69  00  # HELLO.TXT: link",
                "     361     1  02  01  # HELLO.TXT: sector count",
            ],
        )

    def test_read_again(self) -> None:
        """Also with names that are no plain text."""
        for name in ("a", 'a "b"\\', "two\nlines", "\u00e4 \u2665", os.fsdecode(b"\xff\xfe"), "#; before them it was "):
            for form in (ATR, PLAIN):
                for those in (tuple(WORKED_LIST), tuple(WORKED_LIST[:1]), tuple(listed(bytes(92_160)))):
                    whole = Listed(name, form, f"{name}.old", those)
                    text = changes.to_text(whole, lambda change: "words # of any kind")
                    self.assertEqual(changes.parse(text), whole)
                    self.assertEqual(changes.parse(text.rstrip("\n")), whole)
                    text.encode("ascii" if name.isascii() else "utf-8")

    def test_what_is_no_list(self) -> None:
        text = changes.to_text(Listed("a", PLAIN, "a.old", tuple(WORKED_LIST)), lambda change: "x")
        lines = text.splitlines()
        for wrong, said in (
            ("", "no list of the doctor's: its first line says otherwise"),
            ("\n".join(lines[1:]), "no list of the doctor's: its first line says otherwise"),
            (text.replace("3 changes", "-1 changes"), "no list of the doctor's: its first line says otherwise"),
            ("\n".join(lines[:-1]), "its first line says 3 changes, and it has 2"),
            ("\n".join([*lines, "5 0 00 01"]), "its first line says 3 changes, and it has 4"),
            (text.replace("361     1  02", "  4   125  02"), "a byte is in it twice"),
            (text.replace("69  00", "69"), "line 4 is no change: sector, place, old and new"),
            (text.replace("69  00", "69 100"), "line 4 is no change: sector, place, old and new"),
            (text.replace("361 ", "721 "), "line 5 is no change: sectors are 1 to 720, places 0 to 127, old is not new"),
            (text.replace("361 ", "  0 "), "line 5 is no change: sectors are 1 to 720, places 0 to 127, old is not new"),
            (text.replace(" 126 ", " 128 "), "line 4 is no change: sectors are 1 to 720, places 0 to 127, old is not new"),
            (text.replace("02  01", "01  01"), "line 5 is no change: sectors are 1 to 720, places 0 to 127, old is not new"),
            (text.replace('"a"', '"../a"'), 'no list of the doctor\'s: "../a" is no name of a file beside it'),
            (text.replace('"a.old"', '".."'), 'no list of the doctor\'s: ".." is no name of a file beside it'),
            (text.replace('"a"', '"\\q"'), 'no list of the doctor\'s: "\\q" is no name of a file beside it'),
            (text.replace('"a"', '""'), 'no list of the doctor\'s: "" is no name of a file beside it'),
        ):
            with self.subTest(said=said), self.assertRaises(changes.Refused) as caught:
                changes.parse(wrong)
            self.assertEqual(str(caught.exception), said)


class Words(unittest.TestCase):
    """What a list says, file by file."""

    def test_a_sound_one(self) -> None:
        found = diagnosis(THREE)
        self.assertEqual((found.words(), found.hurt, found.broken, found.doubts()), ([], [], frozenset(), []))
        self.assertEqual([file.sectors for file in found.files], [(4, 5, 6), (7, 8), (9,)])
        self.assertEqual((found.before, found.after, len(found.free)), (THREE, THREE, 701))

    def test_why_a_file_is_cut(self) -> None:
        """OTHER, file 1, has sector 5 and is linked to each of these; HELLO.TXT has sector 4."""
        for link, sectors, why, lost in (
            (1, {}, "which is reserved (to start from)", 0),
            (3, {}, "which is reserved (to start from)", 0),
            (360, {}, "which is reserved (the map)", 0),
            (361, {}, "which is reserved (the directory)", 0),
            (368, {}, "which is reserved (the directory)", 0),
            (720, {}, "above 719", 0),
            (1_023, {}, "above 719", 0),
            (5, {}, "which it has already: a ring", 0),
            (4, {}, "which is HELLO.TXT's (file 0)", 0),
            (9, {9: sector(63, 0, b"")}, "which says that it is file 63's", 0),
            (9, {9: sector(1, 0, b"", 126)}, "whose data count is 126, above 125", 1),
            (9, {9: sector(1, 11, b"", 255), 11: sector(1, 5, b"")}, "whose data count is 255, above 125", 2),
            (9, {9: sector(1, 9, b"", 255)}, "whose data count is 255, above 125", 1),
        ):
            with self.subTest(link=link, why=why):
                data = image([entry(NAME, 4), entry(OTHER, 5)], {4: sector(0, 0, b"A"), 5: sector(1, link, b"B"), **sectors})
                found = diagnosis(changed(data, (MAP + 3, 0xC1), (MAP + 10, 3)))
                free = {0: "", 1: "; 1 sector from there on becomes free", 2: "; 2 sectors from there on become free"}[lost]
                self.assertEqual(
                    found.words(),
                    [f"OTHER (file 1): cut behind its sector 5, whose link leads to sector {link}, {why}; 1 sector kept{free}"],
                )
                self.assertEqual(([file.name for file in found.hurt], len(found.hurt[0].lost)), (["OTHER"], lost))

    def test_a_later_file_has_it(self) -> None:
        """The sector says so by its number, though it was not claimed yet."""
        self.assertEqual(
            diagnosis(ONE_CUT).words(),
            [
                "HELLO.TXT (file 0): cut behind its sector 4, whose link leads to sector 9, which is THIRD.DAT's (file 2); "
                "1 sector kept; the directory says 3 sectors, 1 is right",
                "free sectors: 703, the diskette says 701",
                "map: 1 byte, 2 free sectors called used",
            ],
        )

    def test_why_a_file_is_deleted(self) -> None:
        for first, sectors, why, lost in (
            (2, {}, "which is reserved (to start from)", 0),
            (65_535, {}, "above 719", 0),
            (4, {}, "which is HELLO.TXT's (file 0)", 0),
            (9, {}, "which says that it is file 0's", 0),
            (9, {9: sector(1, 10, b"", 126), 10: sector(1, 0, b"")}, "whose data count is 126, above 125", 2),
        ):
            with self.subTest(first=first):
                data = image([entry(NAME, 4), entry(OTHER, first, 7)], {4: sector(0, 0, b"A"), **sectors})
                found = diagnosis(data)
                free = "; 2 sectors from there on become free" if lost else ""
                words = f"OTHER (file 1): deleted, for it begins at sector {first}, {why}; nothing of it can be kept{free}"
                self.assertEqual(found.words(), [words])
                self.assertEqual([(file.is_deleted, file.sectors, file.said) for file in found.hurt], [(True, (), 7)])

    def test_counts_and_the_map(self) -> None:
        for data, words in (
            (changed(HELLO, (DIRECTORY + 1, b"\x02\x01")), "HELLO.TXT (file 0): the directory says 258 sectors, 1 is right"),
            (changed(HELLO, (DIRECTORY + 1, 0)), "HELLO.TXT (file 0): the directory says 0 sectors, 1 is right"),
            (changed(THREE, (DIRECTORY + 17, 1)), "OTHER (file 1): the directory says 1 sector, 2 are right"),
            (changed(HELLO, (MAP + 3, b"\xc3\x02")), "free sectors: 706, the diskette says 707"),
            (changed(HELLO, (MAP + 4, 0)), "free sectors: 706, the diskette says 194"),
            (changed(HELLO, (MAP + 10, 0x0F)), "map: 1 byte, 1 used sector called free"),
            (changed(HELLO, (MAP + 11, 0)), "map: 1 byte, 8 free sectors called used"),
            (
                changed(HELLO, (MAP + 10, b"\x7c"), (MAP + 99, 0)),
                "map: 2 bytes, 10 free sectors called used and 4 used sectors called free",
            ),
        ):
            self.assertEqual(diagnosis(data).words(), [words])
        emptied = changed(HELLO, (DIRECTORY + 3, 0))
        self.assertEqual(
            diagnosis(emptied).words(),
            [
                "HELLO.TXT (file 0): the directory says 1 sector, 0 are right",
                "free sectors: 707, the diskette says 706",
                "map: 1 byte, 1 free sector called used",
            ],
        )

    def test_of_each_change(self) -> None:
        data = changed(ONE_CUT, (DIRECTORY + 32 + 3, b"\xff\xff"), (DIRECTORY + 18, 9), (MAP + 99, 0), (MAP + 4, 0))
        found = diagnosis(data)
        self.assertEqual(
            [(each.sector, each.place, found.change_words(each)) for each in found.changes],
            [
                (4, 126, "HELLO.TXT: link"),
                (361, 1, "HELLO.TXT: sector count"),
                (361, 18, "OTHER: sector count"),
                (361, 32, "THIRD.DAT: flag"),
                (360, 3, "free count"),
                (360, 4, "free count"),
                (360, 10, "map of 1 to 7"),
                (360, 11, "map of 8 to 15"),
                (360, 99, "map of 712 to 719"),
            ],
        )
        last = image([entry(OTHER, 4 + place) for place in range(64)], {4 + n: sector(n, 0, b"") for n in range(64)})
        found = diagnosis(changed(last, (DIRECTORY + 16 * 63 + 1, 5), (DIRECTORY + 16 * 63 + 5, b"LAST    ")))
        self.assertEqual([found.change_words(each) for each in found.changes][:1], ["LAST: sector count"])

    def test_when_it_may_be_another_systems(self) -> None:
        dos = "byte 0 of sector 360 is ${:02X}, and DOS 2.0S writes $02"
        two = changed(ONE_CUT, (DIRECTORY + 16 + 3, 1))
        half = disk.make([(NAME, b"A"), (OTHER, b"B")])
        for data, doubts in (
            (ONE_CUT, []),
            (two, ["of 3 files 2 would be cut or deleted"]),
            (changed(half, (DIRECTORY + 3, 1)), []),
            (changed(half, (DIRECTORY + 3, 1), (DIRECTORY + 16 + 3, 1)), ["of 2 files 2 would be cut or deleted"]),
            (WORKED, ["of 1 file 1 would be cut or deleted"]),
            (changed(ONE_CUT, (MAP, 3)), [dos.format(3)]),
            (changed(two, (MAP, 0)), [dos.format(0), "of 3 files 2 would be cut or deleted"]),
            (bytes(92_160), [dos.format(0)]),
        ):
            self.assertEqual(diagnosis(data).doubts(), doubts)

    def test_names(self) -> None:
        """No byte of a name does anything to a terminal."""
        for name, shown in (
            (NAME, "HELLO.TXT"),
            (b"A          ", "A"),
            (b"        WHY", ".WHY"),
            (b"           ", "(no name)"),
            (b"\x1b[2J\x9b\x00\xc1 \x7f  ", "\u241b[2J\u241b\u2665A.\u25b6"),
        ):
            self.assertEqual(findings.name_of(disk.Entry(0, entry(name, 4))), shown)

    def test_of_every_list(self) -> None:
        """Whatever is broken: a line for each file that changes, and the three numbers are 719."""
        for seed in range(60):
            data = broken_disk(random.Random(seed))
            found = diagnosis(data)
            self.assertEqual(listed(found.after), [])
            named = {words.split(" (file ")[1].split(")")[0] for words in found.words() if " (file " in words}
            entries = {
                str((each.sector - 361) * 8 + each.place // 16) for each in found.changes if 361 <= each.sector <= 368
            }
            links = {str(disk.file_of(data, each.sector)) for each in found.changes if not 360 <= each.sector <= 368}
            self.assertEqual(named, entries | links)
            self.assertEqual(12 + len(found.free) + len(found.owners), 719)
            self.assertEqual(sum(len(file.sectors) for file in found.files), len(found.owners))
            self.assertFalse({*found.free} & {*found.owners})
            marks = sectormap.marks(found)
            free = {number for number, mark in enumerate(marks, 1) if mark == "."}
            self.assertEqual(free, {*found.free} - found.broken)


class Map(unittest.TestCase):
    def test_rows(self) -> None:
        free = " ".join(["." * 10] * 6)
        rows = sectormap.lines(diagnosis(THREE), 79, False)
        self.assertEqual(rows[0], f"  1 ###AAABBC. {free[11:]}")
        self.assertEqual(rows[1:5], [f"{first:>3} {free}" for first in (61, 121, 181, 241)])
        self.assertEqual(rows[5], f"301 {free[:-1]}#")
        self.assertEqual(rows[6], f"361 ########.. {free[11:]}")
        self.assertEqual(rows[7:11], [f"{first} {free}" for first in (421, 481, 541, 601)])
        self.assertEqual(rows[11], f"661 {free[:-1]}-")
        self.assertEqual(
            rows[12:],
            [
                "# 12 reserved, . 701 free, 6 in files: 719; - 720 is never used",
                "3 files: the sectors that each has / that the directory said",
                "A HELLO.TXT    3/3        B OTHER        2/2        C THIRD.DAT    1/1",
            ],
        )

    def test_broken_ones(self) -> None:
        """As they are after the changes, but for those that a file was cut before."""
        marks = "".join(sectormap.marks(diagnosis(ONE_CUT)))
        self.assertEqual((marks[:10], marks[10:359]), ("###A..BB!.", "." * 349))
        data = image([entry(NAME, 4)], {4: sector(0, 7, b""), 7: sector(0, 8, b"", 126), 8: sector(0, 3, b"")})
        marks = sectormap.marks(diagnosis(data))
        self.assertEqual("".join(marks[:10]), "###A..!!..")
        self.assertIn("! broken: 7 to 8", sectormap.lines(diagnosis(data), 79, False))
        for link, place in ((361, 361), (2, 2), (720, 720)):
            marks = sectormap.marks(diagnosis(changed(HELLO, (384 + 125, link >> 8), (384 + 126, link & 0xFF))))
            self.assertEqual([number for number, mark in enumerate(marks, 1) if mark == "!"], [place])
        marks = sectormap.marks(diagnosis(changed(HELLO, (384 + 125, b"\x03\xff"))))
        self.assertNotIn("!", marks)
        many = image([entry(OTHER, 1 + 2 * place) for place in range(1, 12)])
        self.assertIn("! broken: 3, 5, 7, 9, 11, 13, 15, 17 and 3 more", sectormap.lines(diagnosis(many), 79, False))

    def test_64_files(self) -> None:
        data = disk.make([(b"FILE%-7d" % place, b"") for place in range(64)])
        marks = sectormap.marks(diagnosis(data))[3:67]
        self.assertEqual(len(set(marks)), 64)
        self.assertFalse(set(marks) & set("#.!-"))
        lines = sectormap.lines(diagnosis(data), 79, False)
        for place, mark in enumerate(marks):
            self.assertTrue(any(f"{mark} FILE{place:<8} 1/1" in line for line in lines[13:]), place)

    def test_widths(self) -> None:
        data = changed(disk.make([(b"12345678%03d" % place, b"") for place in range(9)]), (DIRECTORY + 1, b"\xff\xff"))
        rows_of = {60: 12, 40: 18, 20: 36}
        for width, across in ((200, 60), (79, 60), (70, 60), (69, 40), (48, 40), (47, 20), (9, 20)):
            lines = sectormap.lines(diagnosis(data), width, False)
            shown = [line for line in lines if re.fullmatch(r"[ 0-9]{3} [#.!A-Z -]+", line)]
            self.assertEqual((len(shown), len(shown[0].replace(" ", "")) - 1), (rows_of[across], across))
            self.assertEqual("".join(line[4:].replace(" ", "") for line in shown), "".join(sectormap.marks(diagnosis(data))))
            if width >= 79:
                self.assertLessEqual(max(map(len, lines)), width)
        self.assertIn("A 12345678.000 1/65535", lines)

    def test_colours(self) -> None:
        """They change nothing else."""
        for data in (THREE, ONE_CUT, WORKED, bytes(92_160)):
            plain, painted = (sectormap.lines(diagnosis(data), 79, coloured) for coloured in (False, True))
            self.assertNotEqual(plain, painted)
            self.assertEqual([re.sub(r"\x1b\[[0-9;]*m", "", line) for line in painted], plain)
            self.assertTrue(all(line.count("\x1b[0m") * 2 == line.count("\x1b[") for line in painted))
        rows = sectormap.lines(diagnosis(ONE_CUT), 79, True)
        first = "  1 \x1b[2m###\x1b[0m\x1b[32mA\x1b[0m\x1b[2m..\x1b[0m\x1b[33mBB\x1b[0m\x1b[1;37;41m!\x1b[0m"
        self.assertTrue(rows[0].startswith(first))


class Doctored(Disks):
    """Tests of ``./stick doctor`` on files."""

    def doctor(self, *words: str, give: bytes = b"", **variables: str) -> subprocess.CompletedProcess[bytes]:
        return run("doctor", *words, give=give, **{**WITH_CORE, **variables})

    def said(self, done: subprocess.CompletedProcess[bytes], *lines: str, status: int = 0) -> list[str]:
        """What was said after the line on play; what was written."""
        self.assertEqual(done.stderr.decode().splitlines()[1:], [f"stick: {line}" for line in lines])
        self.assertEqual(done.returncode, status)
        return done.stdout.decode().splitlines()

    def trouble(self, done: subprocess.CompletedProcess[bytes], said: str) -> None:
        """The run ended with an error, and wrote nothing."""
        self.assertEqual((last_line(done), done.stdout, done.returncode), (f"stick: {said}", b"", 2))

    def patched(self, lines: str, *words: str) -> subprocess.CompletedProcess[bytes]:
        """Runs the command in a Python that goes wrong somewhere."""
        program = (
            "import errno, os, pathlib, signal, sys\n"
            f"{lines}\n"
            "from fixlomand.command import main\n"
            "sys.exit(main(['doctor', *sys.argv[1:]]))\n"
        )
        return subprocess.run(
            [sys.executable, "-c", program, *words],
            cwd=HOST,
            env={**os.environ, **WITH_CORE},
            capture_output=True,
            timeout=PATIENCE,
            check=False,
        )

    def repaired(self, name: str, *words: str) -> str:
        """An image whose first file is cut, repaired; its path."""
        path = self.path(name, atr_file(ONE_CUT, rest=bytes(range(9))) if name.endswith(".atr") else ONE_CUT)
        self.assertEqual(self.doctor(path, "--write", *words).returncode, 0)
        return path


class Examined(Doctored):
    def test_a_sound_diskette(self) -> None:
        for name, data, summary in (
            ("a.xfd", HELLO, "1 file, 706 free sectors"),
            ("a.atr", atr_file(HELLO), "1 file, 706 free sectors"),
            ("b", disk.make([]), "0 files, 707 free sectors"),
        ):
            path = self.path(name, data)
            lines = self.said(self.doctor(path))
            self.assertEqual(lines, [f"{path}: sound, {summary}", *sectormap.lines(diagnosis(data[-92_160:]), 79, False)])
            self.assertEqual(self.said(self.doctor(path, "--write"), f"{path} is sound: nothing is written"), lines)
            self.assertEqual(self.held(name), data)
        self.assertEqual(self.names(), ["a.atr", "a.xfd", "b"])

    def test_the_worked_bytes(self) -> None:
        path = self.path("a", WORKED)
        lines = self.said(self.doctor(path), "nothing is written: --write --force makes these changes", status=1)
        self.assertEqual(
            lines,
            [
                f"{path}: 3 changes make it sound; of 1 file 1 cut and 0 deleted",
                "WARNING: of 1 file 1 would be cut or deleted",
                "WARNING: if another system wrote this diskette, the changes mutilate it",
                "",
                "HELLO.TXT (file 0): cut behind its sector 4, whose link leads to sector 361, which is reserved (the "
                "directory); 1 sector kept; the directory says 2 sectors, 1 is right",
                "",
                "  sector place old new",
                *WORKED_LINES,
                "",
                "the sectors, with these changes made",
                *sectormap.lines(diagnosis(WORKED), 79, False),
            ],
        )
        self.assertEqual((self.held("a"), self.names()), (WORKED, ["a"]))
        second = self.path("b", changed(HELLO, (DIRECTORY + 3, 2)))
        shown = self.said(self.doctor(second), "nothing is written: --write --force makes these changes", status=1)
        at = shown.index("  sector place old new")
        self.assertEqual(
            shown[at + 1 : at + 5],
            [
                "     361     0  42  80  HELLO.TXT: flag",
                "     360     3  C2  C3  free count",
                "     360    10  07  0F  map of 1 to 7",
                "",
            ],
        )

    def test_without_a_warning(self) -> None:
        path = self.path("a", ONE_CUT)
        lines = self.said(self.doctor(path), "nothing is written: --write makes these changes", status=1)
        self.assertEqual(lines[0], f"{path}: 4 changes make it sound; of 3 files 1 cut and 0 deleted")
        self.assertNotIn("WARNING", "\n".join(lines))

    def test_a_single_change(self) -> None:
        path = self.path("a", changed(HELLO, (DIRECTORY + 1, 3)))
        lines = self.said(self.doctor(path), "nothing is written: --write makes these changes", status=1)
        self.assertEqual(lines[0], f"{path}: 1 change makes it sound; of 1 file 0 cut and 0 deleted")

    def test_all_zeros(self) -> None:
        path = self.path("a", bytes(92_160))
        lines = self.said(self.doctor(path), "nothing is written: --write --force makes these changes", status=1)
        self.assertEqual(
            lines[:5],
            [
                f"{path}: 91 changes make it sound; of 0 files 0 cut and 0 deleted",
                "WARNING: byte 0 of sector 360 is $00, and DOS 2.0S writes $02",
                "WARNING: if another system wrote this diskette, the changes mutilate it",
                "",
                "free sectors: 707, the diskette says 0",
            ],
        )
        self.assertEqual(sum(line.startswith("     360 ") for line in lines), 91)

    def test_a_long_list(self) -> None:
        """348 changes, each shown."""
        sectors = {4 + place: sector(place, 1_023, b"A") for place in range(64)}
        data = bytearray(image([entry(b"FILE%-7d" % place, 4 + place, 0xFFFF) for place in range(64)], sectors))
        right = changes.replayed(bytes(data), listed(bytes(data)))
        data[MAP + 3 : MAP + 5] = bytes(byte ^ 0xFF for byte in right[MAP + 3 : MAP + 5])
        data[MAP + 10 : MAP + 100] = bytes(byte ^ 0x55 for byte in right[MAP + 10 : MAP + 100])
        path = self.path("a", bytes(data))
        lines = self.said(self.doctor(path), "nothing is written: --write --force makes these changes", status=1)
        self.assertIn(f"{path}: 348 changes make it sound; of 64 files 64 cut and 0 deleted", lines[0])
        at = lines.index("  sector place old new")
        shown = [Change(int(one), int(two), int(old, 16), int(new, 16)) for one, two, old, new in
            (line.split()[:4] for line in lines[at + 1 : at + 349])]  # fmt: skip
        self.assertEqual((shown, lines[at + 349]), (listed(bytes(data)), ""))

    def test_standard_input(self) -> None:
        lines = self.said(self.doctor("-", give=atr_file(HELLO)))
        self.assertEqual(lines[0], "standard input: sound, 1 file, 706 free sectors")
        done = self.doctor("-", "--write", give=ONE_CUT)
        self.trouble(done, "a name is needed to write to: - has none")

    def test_what_is_no_diskette(self) -> None:
        """As with the other words, and nothing is started; the file is left alone."""
        wanted = "and a diskette here has 720 of 128"
        for name, data, said in (
            ("a.atr", atr_file(bytes(1_040 * 128)), f"1040 sectors (enhanced density), {wanted}"),
            ("a.atr", atr_file(bytes(183_936), 256), f"sectors of 256 bytes (double density), {wanted}"),
            ("a.atr", atr_file(HELLO)[:-1], "cut short: 92159 of 92160 bytes are there behind the header"),
            ("a.atr", atr_file(HELLO) + b"x", "1 byte too many: behind the header are 92161, not 92160"),
            ("a.atr", HELLO, "no ATR file: it begins with 00 00, and an ATR file with 96 02"),
            ("a.xfd", HELLO[:-1], "an IMAGE has 92160 bytes, and this file 92159"),
            ("a.xfd", HELLO + b"x", "an IMAGE has 92160 bytes, and this file 92161"),
            ("a.xfd", b"", "an IMAGE has 92160 bytes, and this file 0"),
        ):
            path = self.path(name, data)
            for words in ((path,), (path, "--write", "--force")):
                self.trouble(self.doctor(*words, **NO_CORE), f"{path}: {said}")
            self.assertEqual((self.held(name), self.names()), (data, [name]))
            os.unlink(path)
        for words in ((), ("--write",)):
            self.trouble(self.doctor("/nowhere/a", *words, **NO_CORE), "/nowhere/a: No such file or directory")
            self.trouble(self.doctor(str(self.folder), *words, **NO_CORE), f"{self.folder}: Is a directory")

    def test_a_file_that_cannot_be_read(self) -> None:
        path = self.path("a", ONE_CUT)
        denied = (
            "def denied(path): raise PermissionError(errno.EACCES, 'Permission denied', str(path))\n"
            "pathlib.Path.read_bytes = denied"
        )
        for words in ((path,), (path, "--write"), ("--undo", path)):
            self.trouble(self.patched(denied, *words), f"{path}: Permission denied")

    def test_plays_that_go_wrong(self) -> None:
        """A list of another image, one that leaves something, a refusal, an end: nothing is told or written."""
        path = self.path("a", ONE_CUT)
        for play, said in (
            (
                f"{doctors.PLAY} --broken old",
                "play's list is not of this image: sector 4 place 126 is $09, and the list says $08",
            ),
            (f"{doctors.PLAY} --broken left", "what play's list leaves is not sound: 1 change more"),
            (f"{doctors.PLAY} --broken refuse", "play's doctor gave no list of changes: 01 00 00"),
            (f"{doctors.PLAY} --broken cut", "play has ended"),
            ("true", "play has ended"),
        ):
            with self.subTest(said=said):
                self.trouble(self.doctor(path, "--write", "--force", FIXLOMAND_PLAY=play), said)
        self.trouble(self.doctor(path, **NO_CORE), "FIXLOMAND_PLAY names a program that is not there: /nowhere")
        self.assertEqual((self.held("a"), self.names()), (ONE_CUT, ["a"]))

    def test_a_core_that_is_not_proved(self) -> None:
        """It is said above all."""
        path = self.path("a", HELLO)
        for title, first in ((toolchain.UNPROVED_TITLE, "Fixlomand, NOT PROVED"), (toolchain.TITLE, f"{path}: sound, ")):
            output = io.TextIOWrapper(io.BytesIO(), encoding="utf-8")
            with mock.patch.object(toolchain, "_title", title), mock.patch.dict(os.environ, WITH_CORE):
                with redirect_stdout(output), redirect_stderr(io.StringIO()):
                    self.assertEqual(command.main(["doctor", path]), 0)
            output.seek(0)
            self.assertTrue(output.readline().startswith(first))

    def test_output_that_is_closed(self) -> None:
        """Who cannot be told gets nothing."""
        path = self.path("a", ONE_CUT)
        process = subprocess.Popen(
            [STICK, "doctor", path, "--write"],
            stdout=subprocess.PIPE,
            stderr=subprocess.PIPE,
            env={**os.environ, **WITH_CORE},
        )
        assert process.stdout is not None and process.stderr is not None
        process.stdout.close()
        said = process.stderr.read().decode().splitlines()
        process.stderr.close()
        self.assertEqual((process.wait(PATIENCE), said[-1]), (1, "stick: standard output was closed before the end"))
        self.assertEqual((self.held("a"), self.names()), (ONE_CUT, ["a"]))


class InATerminal(Doctored):
    def shown(self, *words: str, columns: int = 80, kind: str = "xterm", **variables: str) -> Terminal:
        """Runs ``./stick doctor`` in a terminal, to its end."""
        with_these = [f"{name}={value}" for name, value in {**WITH_CORE, **variables}.items()]
        terminal = Terminal(["env", "-u", "NO_COLOR", *with_these, STICK, "doctor", *words], 60, columns, kind)
        self.addCleanup(terminal.close)
        terminal.wait_for_end()
        return terminal

    def test_colours(self) -> None:
        path = self.path("a", ONE_CUT)
        terminal = self.shown(path)
        self.assertIn(b"  1 \x1b[2m###\x1b[0m\x1b[32mA\x1b[0m", terminal.written)
        self.assertIn(b"\x1b[1;37;41m!\x1b[0m", terminal.written)
        self.assertIn("  1 ###A..BB!. " + " ".join(["." * 10] * 5), [line.rstrip() for line in terminal.screen.lines()])

    def test_without_them(self) -> None:
        path = self.path("a", ONE_CUT)
        for terminal in (self.shown(path, NO_COLOR="1"), self.shown(path, kind="dumb")):
            self.assertIn(b"  1 ###A..BB!. ", terminal.written)
            self.assertNotIn(b"\x1b", terminal.written)
        self.assertIn(b"\x1b[32mA", self.shown(path, NO_COLOR="").written)
        self.assertNotIn(b"\x1b", self.doctor(path, TERM="xterm").stdout)

    def test_80_columns(self) -> None:
        """No line goes on in the next: words are broken between words."""
        path = self.path("a", WORKED)
        terminal = self.shown(path, NO_COLOR="1")
        lines = terminal.written.decode().split("\r\n")
        at = lines.index("HELLO.TXT (file 0): cut behind its sector 4, whose link leads to sector 361,")
        self.assertEqual(lines[at + 1], "  which is reserved (the directory); 1 sector kept; the directory says 2")
        self.assertLess(max(map(len, lines[2:-2])), 80)
        self.assertIn("WARNING: if another system wrote this diskette, the changes mutilate it", lines)
        narrow = self.shown(path, columns=50, NO_COLOR="1").written.decode().split("\r\n")
        self.assertIn("  1 " + " ".join(["###A......", *["." * 10] * 3]), narrow)
        # Columns that are none are no end.
        self.assertIn("  1 ###A...... ..........", self.shown(path, columns=1, NO_COLOR="1").written.decode().split("\r\n"))

    def test_no_utf_8(self) -> None:
        """What a terminal cannot show, of names alone, is a question mark."""
        path = self.path("a", changed(HELLO, (DIRECTORY + 5, b"\x00\x1b")))
        for encoding, name in (("ascii", "??LLO.TXT"), ("utf-8", "\u2665\u241bLLO.TXT")):
            done = self.patched(f"sys.stdout.reconfigure(encoding='{encoding}')", path)
            self.assertEqual(done.returncode, 0)
            *lines, last = done.stdout.decode(encoding).splitlines()
            self.assertEqual(last, f"A {name:<12} 1/1")
            self.assertTrue("\n".join(lines).isascii())


class Written(Doctored):
    def test_kept_and_repaired(self) -> None:
        path = self.path("a", ONE_CUT)
        os.chmod(path, 0o640)
        os.utime(path, (1_000_000_000, 1_000_000_000))
        done = self.doctor(path, "--write")
        told = self.said(
            done,
            f"{path}.old is the image as it was",
            f"{path}.list is the list (./stick doctor --undo {shlex.quote(path + '.list')} takes it back)",
            f"{path} is repaired: 3 files, 703 free sectors",
        )
        self.assertEqual(told[0], f"{path}: 4 changes make it sound; of 3 files 1 cut and 0 deleted")
        self.assertEqual(self.names(), ["a", "a.list", "a.old"])
        self.assertEqual((self.held("a"), self.held("a.old")), (REPAIRED, ONE_CUT))
        kept = changes.parse(self.held("a.list").decode())
        self.assertEqual(kept, Listed("a", PLAIN, "a.old", tuple(listed(ONE_CUT))))
        self.assertEqual([os.stat(self.path(name)).st_mode & 0o777 for name in self.names()], [0o640] * 3)
        self.assertEqual([os.stat(self.path(name)).st_mtime == 1_000_000_000 for name in self.names()], [False, False, True])
        self.said(self.doctor(path, "--write"), f"{path} is sound: nothing is written")
        self.assertEqual(self.names(), ["a", "a.list", "a.old"])

    def test_an_atr_file_keeps_its_header(self) -> None:
        header = bytes.fromhex("96 02 80 16 80 00 00 F1 02 03 04 05 06 07 08 09")
        path = self.path("a.atr", header + ONE_CUT)
        self.assertEqual(self.doctor(path, "--write").returncode, 0)
        self.assertEqual((self.held("a.atr"), self.held("a.atr.old")), (header + REPAIRED, header + ONE_CUT))
        self.assertEqual(changes.parse(self.held("a.atr.list").decode()).form, ATR)
        self.assertEqual(self.doctor("--undo", f"{path}.list").returncode, 0)
        self.assertEqual(self.held("a.atr"), header + ONE_CUT)
        # An ATR file by its bytes.
        other = self.path("b", header + ONE_CUT)
        self.assertEqual((self.doctor(other, "--write").returncode, self.held("b")), (0, header + REPAIRED))
        # The one that is kept is a diskette as before.
        self.assertEqual(self.doctor(f"{path}.old").returncode, 1)

    def test_older_copies_stay(self) -> None:
        for held, end in (({}, ""), ({"a.old": b"older"}, ".2"), ({"a.list": b"older", "a.old.2": b"second"}, ".3")):
            for name in self.names():
                os.unlink(self.path(name))
            path = self.path("a", ONE_CUT)
            for name, data in held.items():
                self.path(name, data)
            done = self.doctor(path, "--write")
            self.assertEqual(done.returncode, 0)
            self.assertIn(f"stick: {path}.old{end} is the image as it was", done.stderr.decode().splitlines())
            self.assertEqual(self.names(), sorted(["a", f"a.old{end}", f"a.list{end}", *held]))
            self.assertEqual((self.held("a"), self.held(f"a.old{end}")), (REPAIRED, ONE_CUT))
            self.assertEqual({name: self.held(name) for name in held}, held)
            self.assertEqual(changes.parse(self.held(f"a.list{end}").decode()).old, f"a.old{end}")

    def test_a_link_stays(self) -> None:
        """What is kept is beside the file that it leads to."""
        os.mkdir(self.folder / "far")
        self.path("far/kept", ONE_CUT)
        os.symlink("far/kept", self.folder / "a")
        done = self.doctor(self.path("a"), "--write")
        self.assertEqual((done.returncode, self.names(), os.path.islink(self.path("a"))), (0, ["a", "far"], True))
        self.assertEqual(sorted(os.listdir(self.folder / "far")), ["kept", "kept.list", "kept.old"])
        self.assertIn(f"stick: {os.path.realpath(self.path('far'))}/kept.old is the image as it was", done.stderr.decode())
        self.assertEqual((self.held("far/kept"), self.held("far/kept.old")), (REPAIRED, ONE_CUT))
        self.assertEqual(self.doctor("--undo", self.path("far/kept.list")).returncode, 0)
        self.assertEqual(self.held("far/kept"), ONE_CUT)

    def test_force(self) -> None:
        """Needed where it may be another system's diskette."""
        dos3 = changed(ONE_CUT, (MAP, 3))
        for data, doubt in (
            (WORKED, "of 1 file 1 would be cut or deleted"),
            (dos3, "byte 0 of sector 360 is $03, and DOS 2.0S writes $02"),
            (
                changed(WORKED, (MAP, 0)),
                "byte 0 of sector 360 is $00, and DOS 2.0S writes $02 and of 1 file 1 would be cut or deleted",
            ),
        ):
            path = self.path("a", data)
            said = f"nothing is written: {doubt}; if this is a DOS 2.0S diskette all the same, --write --force"
            self.said(self.doctor(path, "--write"), said, status=1)
            self.assertEqual((self.held("a"), self.names()), (data, ["a"]))
            self.assertEqual(self.doctor(path, "--force", "--write").returncode, 0)
            self.assertEqual((self.held("a"), self.held("a.old")), (changes.replayed(data, listed(data)), data))
            self.assertEqual(self.doctor("--undo", f"{path}.list").returncode, 0)
            self.assertEqual(self.held("a"), data)
            for name in ("a.old", "a.list"):
                os.unlink(self.path(name))
        # Byte 0 is no matter where nothing is to be changed.
        path = self.path("a", changed(HELLO, (MAP, 3)))
        self.said(self.doctor(path, "--write"), f"{path} is sound: nothing is written")

    def test_a_file_that_becomes_another(self) -> None:
        """While it is looked at: what is in it then is not lost."""
        path = self.path("a", ONE_CUT)
        play = f"sh -c {shlex.quote(f'printf x >>{shlex.quote(path)}; exec {CORE}')}"
        done = self.doctor(path, "--write", FIXLOMAND_PLAY=play)
        self.assertEqual(done.returncode, 2)
        self.assertEqual(last_line(done), f"stick: {path} has become another while it was looked at, and is left as it is")
        self.assertEqual((self.held("a"), self.names()), (ONE_CUT + b"x", ["a"]))

    def test_what_cannot_be_written_to(self) -> None:
        path = self.path("a", ONE_CUT)
        os.chmod(path, 0o444)
        os.mkfifo(self.folder / "pipe")
        for words, said in (
            ((path, "--write"), f"{path}: it is write-protected"),
            ((self.path("pipe"), "--write"), f"{self.path('pipe')}: not a file, so that nothing can take its place"),
        ):
            self.trouble(self.doctor(*words, **NO_CORE), said)
        # Looking is not writing.
        self.assertEqual(self.doctor(path).returncode, 1)
        self.assertEqual((self.held("a"), self.names()), (ONE_CUT, ["a", "pipe"]))

    def test_a_folder_that_cannot_be_written(self) -> None:
        """Found before anything runs; where that is not seen, at the first file."""
        path = self.path("a", ONE_CUT)
        done = self.patched("os.access = lambda path, mode: False", path, "--write")
        self.trouble(done, f"{path}: nothing can be written beside it")
        refuses = (
            "real = pathlib.Path.open\n"
            "def opened(path, mode='r', *rest, **more):\n"
            "    if 'w' in mode: raise OSError(errno.EROFS, 'Read-only file system', str(path))\n"
            "    return real(path, mode, *rest, **more)\n"
            "pathlib.Path.open = opened"
        )
        done = self.patched(refuses, path, "--write")
        part = self.folder / ".a.part"
        self.assertEqual(last_line(done), f"stick: {path} is left as it is: {part}: Read-only file system")
        self.assertEqual((done.returncode, self.held("a"), self.names()), (2, ONE_CUT, ["a"]))

    def test_a_name_that_is_too_long(self) -> None:
        """The image's own name is as long as names are: none is left for what is kept."""
        name = "a" * 255
        path = self.path(name, ONE_CUT)
        done = self.doctor(path, "--write")
        self.assertIn(f"stick: {path} is left as it is: ", last_line(done))
        self.assertIn("File name too long", last_line(done))
        self.assertEqual((done.returncode, self.held(name), self.names()), (2, ONE_CUT, [name]))

    def test_every_write_that_fails(self) -> None:
        """Whichever it is, the image is the old one, and nothing is beside it."""
        seen = set()
        for number in range(20):
            path = self.path("a", ONE_CUT)
            fails = (
                f"left = [{number}]\n"
                "def failing(real):\n"
                "    def call(*words, **more):\n"
                "        left[0] -= 1\n"
                "        if left[0] < 0 and not os.path.isdir(words[0]): raise OSError(errno.ENOSPC, 'No space left on device')\n"
                "        return real(*words, **more)\n"
                "    return call\n"
                "os.fsync, os.link, os.replace = map(failing, (os.fsync, os.link, os.replace))"
            )
            done = self.patched(fails, path, "--write")
            if done.returncode == 0:
                break
            seen.add(number)
            self.assertEqual(last_line(done), f"stick: {path} is left as it is: {path}: No space left on device")
            self.assertEqual((done.returncode, self.held("a"), self.names()), (2, ONE_CUT, ["a"]))
        self.assertGreaterEqual(len(seen), 6)

    def test_without_second_names(self) -> None:
        """On a file system that has none, as many diskettes of today."""
        path, like = Path(self.path("a", b"new")), Path(self.path("like", b""))
        for number in {*files.NO_LINKS}:
            with mock.patch("os.link", side_effect=OSError(number, "no")):
                files.keep(self.folder / f"kept{number}", b"new", like)
                self.assertEqual(self.held(f"kept{number}"), b"new")
                self.assertRaises(FileExistsError, files.keep, path, b"other", like)
        with mock.patch("os.link", side_effect=OSError(errno.EIO, "no")):
            self.assertRaises(OSError, files.keep, self.folder / "none", b"new", like)
        self.assertRaises(FileExistsError, files.keep, path, b"other", like)
        self.assertEqual(self.held("a"), b"new")
        self.assertEqual(self.names(), sorted({"a", "like", *(f"kept{number}" for number in files.NO_LINKS)}))


class Killed(Doctored):
    """At each step: the image is whole, the old one or the new one."""

    def killed(self, number: int, *words: str) -> int:
        """Runs the command, killed before the nth thing that it does to the disk; its end status."""
        kills = (
            f"left = [{number}]\n"
            "def killing(real):\n"
            "    def call(*words, **more):\n"
            "        left[0] -= 1\n"
            "        if left[0] < 0: os.kill(os.getpid(), signal.SIGKILL)\n"
            "        return real(*words, **more)\n"
            "    return call\n"
            "for name in ('fsync', 'link', 'replace', 'unlink', 'chmod', 'utime'):\n"
            "    setattr(os, name, killing(getattr(os, name)))\n"
            "pathlib.Path.unlink = killing(pathlib.Path.unlink)\n"
            "pathlib.Path.open = killing(pathlib.Path.open)"
        )
        return self.patched(kills, *words).returncode

    def begin(self) -> str:
        for name in self.names():
            os.unlink(self.path(name))
        return self.path("a.atr", atr_file(ONE_CUT))

    def test_while_it_repairs(self) -> None:
        images = []
        for number in range(60):
            path = self.begin()
            status = self.killed(number, path, "--write")
            now = self.held("a.atr")
            self.assertIn(now, (atr_file(ONE_CUT), atr_file(REPAIRED)))
            kept = [name for name in self.names() if not name.startswith(".")]
            if now == atr_file(REPAIRED):
                # What takes it back is there.
                self.assertEqual((self.held("a.atr.old"), kept), (atr_file(ONE_CUT), ["a.atr", "a.atr.list", "a.atr.old"]))
                self.assertEqual(changes.parse(self.held("a.atr.list").decode()).changes, tuple(listed(ONE_CUT)))
            for name in kept[1:]:
                # What is there is whole.
                self.assertEqual(len(self.held(name)) == 92_176, name.endswith(".old"))
            images.append(now)
            if status == 0:
                break
            self.assertEqual(status, -signal.SIGKILL)
            # What is left of it is in nobody's way.
            self.assertEqual(self.doctor(path, "--write").returncode, 0)
            self.assertEqual(self.held("a.atr"), atr_file(REPAIRED))
            self.assertEqual([name for name in self.names() if name.startswith(".")], [])
        self.assertEqual(status, 0)
        self.assertEqual({*images}, {atr_file(ONE_CUT), atr_file(REPAIRED)})
        self.assertGreater(len(images), 10)
        self.assertLess(images.index(atr_file(REPAIRED)), len(images) - 1)

    def test_while_it_takes_back(self) -> None:
        images = []
        for number in range(60):
            path = self.begin()
            self.assertEqual(self.doctor(path, "--write").returncode, 0)
            status = self.killed(number, "--undo", f"{path}.list")
            images.append(self.held("a.atr"))
            self.assertIn(images[-1], (atr_file(ONE_CUT), atr_file(REPAIRED)))
            self.assertEqual([name for name in self.names() if not name.startswith(".")], ["a.atr", "a.atr.list", "a.atr.old"])
            if status == 0:
                break
            self.assertEqual(status, -signal.SIGKILL)
        self.assertEqual((status, images[0], images[-1]), (0, atr_file(REPAIRED), atr_file(ONE_CUT)))
        self.assertGreater(len(images), 3)

    def test_while_it_waits_for_the_stick(self) -> None:
        for number in (signal.SIGKILL, signal.SIGTERM, signal.SIGINT):
            path = self.begin()
            # A play that takes all calls and answers none, and ends with its input.
            process = subprocess.Popen(
                [STICK, "doctor", path, "--write"], stderr=subprocess.DEVNULL, env={**os.environ, "FIXLOMAND_PLAY": "sed d"}
            )
            with self.assertRaises(subprocess.TimeoutExpired):
                process.wait(0.3)
            process.send_signal(number)
            self.assertNotEqual(process.wait(PATIENCE), 0)
            self.assertEqual((self.held("a.atr"), self.names()), (atr_file(ONE_CUT), ["a.atr"]))


class Undone(Doctored):
    def undo(self, *words: str, give: bytes = b"") -> subprocess.CompletedProcess[bytes]:
        """It looks at files alone."""
        return run("doctor", *words, give=give, **NO_CORE)

    def test_byte_for_byte(self) -> None:
        for name in ("a", "a.atr", "two words.xfd"):
            path = self.repaired(name)
            before = self.held(f"{name}.old")
            self.assertNotEqual(self.held(name), before)
            self.well(self.undo("--undo", f"{path}.list"), f"{path}: 4 changes taken back, 3 files, 701 free sectors")
            self.assertEqual((self.held(name), self.held(f"{name}.old")), (before, before))
        self.assertEqual(len(self.names()), 9)

    def test_of_every_list(self) -> None:
        with Player(shlex.split(CORE)) as player:
            for seed in range(20):
                data = broken_disk(random.Random(1_000 + seed))
                for at in (0, 46_080):
                    player.do(script.Write(script.Buffer.IMAGES, at, data[at : at + 46_080]))
                those = player.doctor()
                after = changes.replayed(data, those)
                text = changes.to_text(Listed("a", PLAIN, "a.old", tuple(those)), Diagnosis(data, those).change_words)
                self.assertEqual(changes.taken_back(after, changes.parse(text).changes), data)

    def test_the_image_that_is_given(self) -> None:
        """Moved, and in another form."""
        path = self.repaired("a")
        other = self.path("b.atr", atr_file(self.held("a")))
        os.unlink(path)
        missing = self.undo("--undo", f"{path}.list")
        self.refused(missing, f"{path}: No such file or directory", 2)
        for words in ((other, "--undo", f"{path}.list"), ("--undo", f"{path}.list", other)):
            self.path("b.atr", atr_file(REPAIRED))
            self.well(self.undo(*words), f"{other}: 4 changes taken back, 3 files, 701 free sectors")
            self.assertEqual(self.held("b.atr"), atr_file(ONE_CUT))
        self.path("b.atr", atr_file(REPAIRED))
        self.assertEqual(self.undo(other, "--undo", "-", give=self.held("a.list")).returncode, 0)
        self.assertEqual(self.held("b.atr"), atr_file(ONE_CUT))

    def test_after_another_change(self) -> None:
        """To any byte of the list: nothing is written. Of others it knows nothing, and leaves them."""
        path = self.repaired("a")
        for change in listed(ONE_CUT):
            data = changed(REPAIRED, (changes.place_of(change), change.new ^ 0x40))
            self.path("a", data)
            self.refused(
                self.undo("--undo", f"{path}.list"),
                f"{path} is left as it is: sector {change.sector} place {change.place} is ${change.new ^ 0x40:02X}, and the "
                f"list says ${change.new:02X} there: it was changed after the repair",
                2,
            )
            self.assertEqual(self.held("a"), data)
        self.path("a", changed(REPAIRED, (700 * 128, 7)))
        self.assertEqual(self.undo("--undo", f"{path}.list").returncode, 0)
        self.assertEqual(self.held("a"), changed(ONE_CUT, (700 * 128, 7)))
        self.assertEqual(self.names(), ["a", "a.list", "a.old"])

    def test_twice(self) -> None:
        path = self.repaired("a")
        self.assertEqual(self.undo("--undo", f"{path}.list").returncode, 0)
        self.refused(
            self.undo("--undo", f"{path}.list"),
            f"{path} is left as it is: sector 4 place 126 is $09, and the list says $00 there: none of the changes is made, "
            "or all are taken back",
            2,
        )
        self.assertEqual(self.held("a"), ONE_CUT)

    def test_what_is_no_list(self) -> None:
        path = self.repaired("a")
        whole = self.held("a.list")
        for data, said in (
            (whole.rsplit(b"\n", 2)[0], "its first line says 4 changes, and it has 3"),
            (b"HELLO\n", "no list of the doctor's: its first line says otherwise"),
            (b"\xff" + whole, "no list of the doctor's: it is no text"),
            (b"", "no list of the doctor's: its first line says otherwise"),
        ):
            other = self.path("b.list", data)
            self.refused(self.undo("--undo", other), f"{other}: {said}", 2)
            self.refused(self.undo(path, "--undo", "-", give=data), f"standard input: {said}", 2)
        self.refused(self.undo("--undo", "/nowhere/list"), "/nowhere/list: No such file or directory", 2)
        self.path("a", REPAIRED[:-1])
        self.refused(self.undo("--undo", f"{path}.list"), f"{path}: an IMAGE has 92160 bytes, and this file 92159", 2)
        self.path("a", REPAIRED)
        os.chmod(path, 0o444)
        self.refused(self.undo("--undo", f"{path}.list"), f"{path}: it is write-protected", 2)
        self.assertEqual(self.held("a"), REPAIRED)


class Help(Doctored):
    def test_help(self) -> None:
        for words in (("--help",), ("-h",), ("a", "--write", "--help"), ("--undo", "a", "-h")):
            done = run("doctor", *words, **NO_CORE)
            self.assertEqual((done.returncode, done.stderr), (0, b""))
            self.assertEqual(done.stdout.decode(), HELPS["doctor"])
        for word in ("--write", "--force", "--undo LIST", "NO_COLOR", "The end status is 0", "IMAGE.old", "IMAGE.list"):
            self.assertIn(word, HELPS["doctor"])
        self.assertIn(b"  stick doctor IMAGE ", run("--help").stdout)
        self.assertIn("stick\ndoctor tells and repairs", HELPS["disk"])
        self.assertIn("  doctor N ", HELPS["play"])
        for document in ("README.md", "docs/HOSTS.md"):
            self.assertIn("`./stick doctor", (HOST.parent / document).read_text(encoding="utf-8"))

    def test_bad_words(self) -> None:
        path = self.path("a", ONE_CUT)
        more = "(try ./stick doctor --help)"
        for words, said in (
            ((), f"doctor takes an IMAGE and no more words {more}"),
            ((path, "b"), f"doctor takes an IMAGE and no more words {more}"),
            ((path, "--fast"), f"doctor has no option '--fast' {more}"),
            ((path, "--force"), f"--force goes with --write {more}"),
            ((path, "--undo"), "--undo needs a word after it"),
            (("--undo", "list", path, "b"), f"doctor --undo takes a LIST, or an IMAGE too, and no more words {more}"),
            (("--undo", "list", "--write"), f"--undo goes with no other option {more}"),
            (("--undo", "list", "--force"), f"--undo goes with no other option {more}"),
            (("--undo", "-"), "--undo - needs the IMAGE too: no name is beside standard input"),
        ):
            self.refused(run("doctor", *words, **NO_CORE), said, 2)
        self.assertEqual((self.held("a"), self.names()), (ONE_CUT, ["a"]))


@unittest.skipUnless(PLAY, NO_PLAY)
class Core(unittest.TestCase):
    """The proved doctor beside that of the tests, which is written from the paper alone."""

    def setUp(self) -> None:
        self.player = Player(shlex.split(PLAY))
        self.addCleanup(self.player.close)

    def same(self, data: bytes, drive: int = 1) -> list[Change]:
        begin = 92_160 * (drive - 1)
        for at in (0, 46_080):
            self.player.do(script.Write(script.Buffer.IMAGES, begin + at, data[at : at + 46_080]))
        found = self.player.doctor(drive)
        self.assertEqual(found, listed(data))
        self.assertEqual(self.player.doctor(drive), [])
        return found

    def test_broken_diskettes(self) -> None:
        changed_bytes = 0
        for seed in range(150):
            changed_bytes += len(self.same(broken_disk(random.Random(seed)), 1 + seed % 4))
        self.assertGreater(changed_bytes, 1_000)

    def test_any_bytes(self) -> None:
        """Diskettes that nobody has formatted."""
        for seed in range(20):
            chance = random.Random(seed)
            self.same(chance.randbytes(92_160))
            few = bytes(chance.choices((0, 1, 4, 0x42, 0x62, 0x80), k=92_160))
            self.same(few)
        self.same(b"\xff" * 92_160)
        self.assertEqual(len(self.same(bytes(92_160))), 91)

    def test_many_at_once(self) -> None:
        """What is written for one has its own length."""
        data = broken_disk(random.Random(7))
        put = [script.Write(script.Buffer.IMAGES, at, data[at : at + 46_080]) for at in (0, 46_080)]
        outputs = self.player.do(*[*put, script.Doctor(0), script.Doctor(0), script.Doctor(4), script.Fresh()] * 9)
        once = b"\0" + len(listed(data)).to_bytes(2, "little") + doctors.doctor(bytearray(data))
        self.assertEqual(outputs, [b"", b"", once, bytes(3), b"\x01\0\0", b"\0"] * 9)

    def test_played(self) -> None:
        text = f"write images 384 {disk.sector(WORKED, 4).hex(' ')}\nwrite images 45952 {disk.sector(WORKED, 360).hex(' ')}\n"
        text += f"write images 46080 {disk.sector(WORKED, 361).hex(' ')}\ndoctor 0\ndoctor 0\ndoctor 4\ntick 0\n"
        done = run("play", "-", give=text.encode())
        self.assertEqual(
            done.stdout.decode().splitlines()[3:],
            [
                "doctor 0: 0 done, 3 changes",
                "  sector 4 place 125: 01 to 00",
                "  sector 4 place 126: 69 to 00",
                "  sector 361 place 1: 02 to 01",
                "doctor 0: 0 done, 0 changes",
                "doctor 4: 1 no such diskette, 0 changes",
                "tick 0: 7 tick, nothing ready or running",
            ],
        )
        self.assertEqual(done.returncode, 0)


if __name__ == "__main__":
    unittest.main()
