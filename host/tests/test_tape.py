"""Tapes: their records, ``./stick tape`` as people run it, hosts at C, and ``live --tape``."""

from __future__ import annotations

import os
import re
import select
import shlex
import signal
import subprocess
import sys
import threading
import unittest
from itertools import islice
from pathlib import Path

from fixlomand import errors, script, tape, wire
from fixlomand.cio import BUFFER_LENGTH, READ, WRITE, Stick
from fixlomand.helps import HELPS
from fixlomand.play import Player, PlayPort
from fixlomand.script import Tape
from fixlomand.tape import File, Record

from .copied import Folder
from .living import Line, Living
from .running import NO_PLAY, PATIENCE, PLAY, STICK, last_line, run
from .tapes import AB, FULL, LAST, PARTIAL, bad, cas, chunk, record
from .tapes import tape as tape_file
from .terminal import Terminal

HOST = Path(STICK).parent / "host"
HELLO = record(FULL, b"HELLO, TAPE\x9b" + b"x" * 116)
NO_CORE = {"FIXLOMAND_PLAY": "/nowhere"}
"""What looks at files alone needs no play."""


class Records(unittest.TestCase):
    def test_checksums(self) -> None:
        for data, expected in ((AB, 0xC7), (LAST, 0xA9), (record(FULL, b"\xff" * 128), 0xA7), (bytes(132), 0)):
            self.assertEqual((tape.checksum(data), data[131]), (expected, expected))

    def test_kinds_and_faults(self) -> None:
        for data, words, characters in (
            (HELLO, "full, 128 characters, checksum right", HELLO[3:131]),
            (AB, "partial, 3 characters, checksum right", b"AB\x9b"),
            (record(PARTIAL, b"A"), "partial, 1 character, checksum right", b"A"),
            (record(PARTIAL, b"A" * 127), "partial, 127 characters, checksum right", b"A" * 127),
            (LAST, "end, checksum right", b""),
            (bytes(132), "blank, reads as $8F", b""),
            (bad(AB), "partial, 3 characters, checksum wrong, reads as $8F (checksum $C6, not $C7)", b"AB\x9b"),
            (bad(LAST), "end, checksum wrong, reads as $8F (checksum $A8, not $A9)", b""),
            (
                record(PARTIAL, b"A", 0),
                "partial, 0 characters, checksum right, reads as $8F (a partial record's count 0, not 1 to 127)",
                b"",
            ),
            (
                record(PARTIAL, b"A" * 127, 128),
                "partial, 128 characters, checksum right, reads as $8F (a partial record's count 128, not 1 to 127)",
                b"A" * 127,
            ),
            (
                record(0xFB, b"A"),
                "control byte $FB, checksum right, reads as $8F (control byte $FB, not $FC, $FA or $FE)",
                b"",
            ),
        ):
            self.assertEqual((tape.record_words(Record(data)), Record(data).characters), (words, characters))

    def test_files(self) -> None:
        for records, files in (
            ([], []),
            ([LAST], [File(0, 0, True)]),
            ([AB, LAST], [File(0, 1, True)]),
            ([AB, LAST, LAST, HELLO, AB, LAST], [File(0, 1, True), File(2, 2, True), File(3, 5, True)]),
            ([AB, LAST, HELLO], [File(0, 1, True), File(2, 2, False)]),
            ([AB, bad(LAST), AB], [File(0, 2, False)]),
            ([bytes(132), AB, bytes(132), LAST, bytes(132), AB], [File(1, 3, True), File(5, 5, False)]),
        ):
            self.assertEqual(tape.files_of([Record(each) for each in records]), files)

    def test_blank_records_behind_the_last(self) -> None:
        self.assertEqual(tape.records_of(bytes(33_000)), [])
        found = tape.records_of(tape_file(bytes(132), AB))
        self.assertEqual([each.data for each in found], [bytes(132), AB])
        self.assertEqual(tape.tape_of(found), tape_file(bytes(132), AB))

    def test_a_tape_is_shown(self) -> None:
        """Records, where the head stands, and what is pending."""
        data = tape_file(AB, LAST)
        for dump, first in (
            (Tape(data, 0, 0, 0, b""), "tape, 2 records in 1 file, closed"),
            (Tape(data, 1, 1, 2, b""), "tape, 2 records in 1 file, reading, the head at record 1, place 2"),
            (Tape(data, 2, 0, 4, b"A\x9bB\x9b"), "tape, 2 records in 1 file, writing, the head at record 0, 4 pending"),
            (Tape(data, 3, 0, 0, b""), "tape, 2 records in 1 file, open with neither R nor W"),
            (Tape(bytes(33_000), 0, 0, 0, b""), "tape, blank, closed"),
        ):
            self.assertEqual(tape.shown(dump)[0], f"  {first}")
        self.assertEqual(
            tape.shown(Tape(data, 2, 0, 4, b"A\x9bB\x9b"))[1:],
            [
                "  file 1",
                "    record 0: partial, 3 characters, checksum right",
                "      |AB",
                "    record 1: end, checksum right: file 1 ends, 3 characters",
                "    pending",
                "      |A",
                "      |B",
            ],
        )


class Tapes(Folder):
    """Tests with files of bytes."""

    def path(self, name: str, data: bytes | None = None) -> str:
        if data is not None:
            (self.folder / name).write_bytes(data)
        return str(self.folder / name)

    def held(self, name: str) -> bytes:
        return (self.folder / name).read_bytes()

    def tape(self, *words: str, **variables: str) -> subprocess.CompletedProcess[bytes]:
        """Runs ``./stick tape`` on files alone."""
        return run("tape", *words, **{**NO_CORE, **variables})

    def names(self) -> list[str]:
        return sorted(os.listdir(self.folder))

    def well(self, done: subprocess.CompletedProcess[bytes], *said: str) -> str:
        """The run ended well, and said these lines beside its output."""
        self.assertEqual((done.stderr.decode().splitlines(), done.returncode), ([f"stick: {line}" for line in said], 0))
        return done.stdout.decode()

    def refused(self, done: subprocess.CompletedProcess[bytes], said: str, status: int = 1) -> None:
        """The run ended with one line, and wrote nothing."""
        self.assertEqual((done.stderr.decode(), done.stdout, done.returncode), (f"stick: {said}\n", b"", status))


class Import(Tapes):
    def test_a_recorder_s_file(self) -> None:
        source, target = self.path("a.cas", cas(HELLO, AB, LAST)), self.path("a tape", b"older")
        done = self.tape("import", source, target)
        self.assertEqual(self.well(done, f"{target}: 3 records in 1 file"), "")
        self.assertEqual(self.held("a tape"), tape_file(HELLO, AB, LAST))
        self.assertEqual(self.names(), ["a tape", "a.cas"])

    def test_unused_bytes_and_bad_records(self) -> None:
        """They are taken as they lie; the bad ones are named."""
        rest = record(PARTIAL, b"AB", unused=0xE5)
        source = self.path("a.cas", cas(rest, bad(AB), record(0), LAST))
        done = self.tape("import", source, self.path("tape"))
        self.well(
            done,
            f"{source}: record 1 reads as $8F: checksum $C6, not $C7",
            f"{source}: record 2 reads as $8F: control byte $00, not $FC, $FA or $FE",
            f"{self.path('tape')}: 4 records in 1 file",
        )
        self.assertEqual(self.held("tape"), tape_file(rest, bad(AB), record(0), LAST))

    def test_no_end_record(self) -> None:
        for records, said, summary in (
            ([HELLO, AB], "no end record behind record 1", "2 records in 1 file"),
            ([HELLO, bad(LAST)], "no end record behind record 1", "2 records in 1 file"),
            ([], "no end record and no record at all", "blank"),
        ):
            source = self.path("a.cas", cas(*records))
            lines = self.tape("import", source, self.path("tape")).stderr.decode().splitlines()
            self.assertEqual(lines[-2:], [f"stick: {source}: {said}", f"stick: {self.path('tape')}: {summary}"])
            self.assertEqual(self.held("tape"), tape_file(*records))

    def test_several_files(self) -> None:
        source, target = self.path("a.cas", cas(HELLO, LAST, AB, LAST, HELLO)), self.path("tape")
        hint = "3 files, and OPEN begins at record 0: import or read with --file N takes another"
        self.well(
            self.tape("import", source, target),
            f"{source}: no end record behind record 4",
            f"{source}: {hint}",
            f"{target}: 5 records in 3 files",
        )
        self.assertEqual(self.held("tape"), tape_file(HELLO, LAST, AB, LAST, HELLO))
        self.well(self.tape("import", source, target, "--file", "2"), f"{target}: 2 records in 1 file")
        self.assertEqual(self.held("tape"), tape_file(AB, LAST))
        self.well(
            self.tape("import", "--file", "3", source, target),
            f"{source}: no end record behind record 4",
            f"{target}: 1 record in 1 file",
        )
        self.assertEqual(self.held("tape"), tape_file(HELLO))
        self.refused(self.tape("import", source, target, "--file", "4"), f"{source}: there is no file 4, only 3 files")
        self.assertEqual(self.held("tape"), tape_file(HELLO))

    def test_what_is_refused(self) -> None:
        """By name and place; the older tape stays."""
        target = self.path("tape", b"older")
        behind = cas(AB)
        for data, said in (
            (behind + chunk(b"data", 5, bytes(131)), "chunk 4 at byte 174, 'data': 131 bytes, and a record has 132"),
            (behind + chunk(b"fsk ", 5, bytes(40)), "chunk 4 at byte 174, 'fsk ': a signal, and no record"),
            (behind + chunk(b"pwmd", 5, bytes(40)), "chunk 4 at byte 174, 'pwmd': a signal, and no record"),
            (behind + chunk(b"what", 5, bytes(40)), "chunk 4 at byte 174, 'what': an unknown type"),
            (behind[:-1], "chunk 3 at byte 34, 'data': cut short: 131 of 132 bytes are there"),
            (behind + b"FUJ", "chunk 4 at byte 174, 'FUJ': cut short: 3 of the 8 bytes before its payload are there"),
            (cas(*[AB] * 251), "chunk 253 at byte 35034, 'data': record 250 of 251, and a tape has 250, 0 to 249"),
            (b"", "no CAS file: it is empty"),
        ):
            source = self.path("a.cas", data)
            self.refused(self.tape("import", source, target), f"{source}: {said}")
        self.assertEqual((self.held("tape"), self.names()), (b"older", ["a.cas", "tape"]))

    def test_as_many_as_fit(self) -> None:
        records = [record(FULL, bytes([place]) * 128) for place in range(249)] + [LAST]
        target = self.path("tape")
        self.well(self.tape("import", self.path("a.cas", cas(*records)), target), f"{target}: 250 records in 1 file")
        self.assertEqual(self.held("tape"), b"".join(records))
        # Of more than fit, a file that does.
        source = self.path("b.cas", cas(AB, LAST, *records))
        self.well(self.tape("import", source, target, "--file", "2"), f"{target}: 250 records in 1 file")
        self.assertEqual(self.held("tape"), b"".join(records))
        self.assertEqual(self.tape("import", source, target).returncode, 1)

    def test_words(self) -> None:
        source = self.path("a.cas", cas(AB, LAST))
        for words, said in (
            (("import", source), "tape import takes a FILE.cas and a TAPE and no more words"),
            (("import", source, "tape", "more"), "tape import takes a FILE.cas and a TAPE and no more words"),
            (("import", source, "tape", "--fast"), "tape import has no option '--fast'"),
        ):
            self.refused(self.tape(*words), f"{said} (try ./stick tape import --help)", 2)
        for words, said in (
            (("import", source, "--file"), "--file needs a word after it"),
            (("import", source, "tape", "--file", "0"), "--file takes the number of a file, from 1 on, not '0'"),
            (("import", source, "tape", "--file", "x"), "--file takes the number of a file, from 1 on, not 'x'"),
            (("import", "/nowhere/a.cas", "tape"), "/nowhere/a.cas: No such file or directory"),
            (("import", source, "/nowhere/tape"), "/nowhere/tape: no file can be written there"),
            (("import", source, str(self.folder)), f"{self.folder}: no file can be written there"),
            (
                ("import", "tape", source),
                f"{source}: import writes a TAPE, whose name does not end in .cas (export writes those)",
            ),
        ):
            self.refused(self.tape(*words), said, 2)


class Export(Tapes):
    def test_through_the_last_end_record(self) -> None:
        source, target = self.path("tape", tape_file(HELLO, LAST, AB, LAST, AB)), self.path("a.cas")
        self.well(
            self.tape("export", source, target),
            f"{source}: left out behind the last end record: record 4",
            f"{target}: 4 records in 2 files",
        )
        written = chunk(b"FUJI") + chunk(b"baud", 600) + chunk(b"data", 20_000, HELLO)
        for each in (LAST, AB, LAST):
            written += chunk(b"data", 3_000, each)
        self.assertEqual(self.held("a.cas"), written)
        self.assertEqual(self.tape("export", source, "-").stdout, written)

    def test_there_and_back(self) -> None:
        for records in ([LAST], [AB, LAST], [HELLO] * 249 + [LAST], [HELLO, bad(AB), LAST, AB, LAST]):
            whole = self.path("tape", tape_file(*records))
            self.assertEqual(self.tape("export", whole, self.path("a.CAS")).returncode, 0)
            self.assertEqual(self.tape("import", self.path("a.CAS"), self.path("again")).returncode, 0)
            self.assertEqual(self.held("again"), self.held("tape"))

    def test_no_end_record(self) -> None:
        for records, said, summary in (
            ([HELLO, AB], "no end record", "2 records in 1 file"),
            ([], "no end record, and no record at all", "blank"),
        ):
            source, target = self.path("tape", tape_file(*records)), self.path("a.cas")
            self.well(self.tape("export", source, target), f"{source}: {said}", f"{target}: {summary}")
            self.assertEqual(self.held("a.cas").count(b"data"), len(records))

    def test_what_is_refused(self) -> None:
        target = self.path("a.cas", b"older")
        is_cas = "; a CAS file's name ends in .cas"
        for data, hint in ((b"", ""), (bytes(32_999), ""), (bytes(33_001), ""), (cas(AB), is_cas)):
            source = self.path("tape", data)
            said = f"{source}: a TAPE has 33000 bytes, and this file {len(data)}{hint}"
            for words in (("export", source, target), ("list", source), ("check", source), ("read", source, "-")):
                self.refused(self.tape(*words), said)
        said = "tape: export writes a CAS file, whose name ends in .cas"
        self.refused(self.tape("export", target, "tape"), said, 2)
        self.assertEqual(self.held("a.cas"), b"older")

    @unittest.skipUnless(os.path.exists("/dev/full"), "there is no full device here")
    def test_a_full_disk(self) -> None:
        os.symlink("/dev/full", self.folder / "full.cas")
        target = self.path("full.cas")
        done = self.tape("export", self.path("tape", tape_file(AB, LAST)), target)
        self.refused(done, f"{target}: No space left on device")


class List(Tapes):
    def test_a_tape(self) -> None:
        records = [HELLO, AB, LAST, bad(AB), record(0x41, b"A"), record(PARTIAL, b"\x00\xc1", 2)]
        source = self.path("tape", tape_file(*records))
        done = self.tape("list", source)
        hint = "2 files, and OPEN begins at record 0: import or read with --file N takes another"
        self.assertEqual(
            self.well(done, f"{source}: {hint}").splitlines(),
            [
                f"{source}: 6 records in 2 files",
                "file 1",
                "  record 0: full, 128 characters, checksum right",
                "    |HELLO, TAPE",
                "    |" + "x" * 116,
                "  record 1: partial, 3 characters, checksum right",
                "    |AB",
                "  record 2: end, checksum right: file 1 ends, 131 characters",
                "file 2",
                "  record 3: partial, 3 characters, checksum wrong, reads as $8F (checksum $C6, not $C7)",
                "    |AB",
                "  record 4: control byte $41, checksum right, reads as $8F (control byte $41, not $FC, $FA or $FE)",
                "  record 5: partial, 2 characters, checksum right: file 2 has no end record, 2 characters",
                "    |\u2665A",
                "  records 6 to 249: blank",
            ],
        )

    def test_a_cas_file(self) -> None:
        """With the gap before each record and the speed, whatever they are."""
        data = chunk(b"FUJI", 0, b"A TEXT") + chunk(b"baud", 617) + chunk(b"data", 20_000, AB)
        data += chunk(b"baud", 65_535) + chunk(b"data", 1, LAST) + chunk(b"data", 0, AB)
        source = self.path("Tape.Cas", data)
        lines = self.tape("list", source).stdout.decode().splitlines()
        self.assertEqual(
            [line for line in lines if line.startswith("  record")],
            [
                "  record 0: partial, 3 characters, checksum right; gap 20000 ms, 617 baud",
                "  record 1: end, checksum right: file 1 ends, 3 characters; gap 1 ms, 65535 baud",
                "  record 2: partial, 3 characters, checksum right: file 2 has no end record, 3 characters; "
                "gap 0 ms, 65535 baud",
            ],
        )
        self.assertNotIn("A TEXT", "\n".join(lines))

    def test_nothing_recorded(self) -> None:
        source = self.path("a.cas", cas())
        self.assertEqual(self.well(self.tape("list", source)), f"{source}: blank\n")

    def test_blank_and_full(self) -> None:
        for data, last in (
            (bytes(33_000), "  records 0 to 249: blank"),
            (tape_file(*[HELLO] * 248, LAST), "  record 249: blank"),
            (HELLO * 249 + LAST, "  record 249: end, checksum right: file 1 ends, 31872 characters"),
        ):
            self.assertEqual(self.tape("list", self.path("tape", data)).stdout.decode().splitlines()[-1], last)
        lines = self.tape("list", self.path("tape", HELLO * 250)).stdout.decode().splitlines()
        said = "  record 249: full, 128 characters, checksum right: file 1 has no end record, 32000 characters"
        self.assertEqual(lines[-3], said)

    def test_what_is_refused(self) -> None:
        source = self.path("a.cas", cas(AB) + b"rest")
        self.refused(self.tape("list", source), f"{source}: chunk 4 at byte 174, 'rest': an unknown type")
        said = "tape list takes a TAPE or FILE.cas and no more words (try ./stick tape list --help)"
        self.refused(self.tape("list"), said, 2)
        self.refused(self.tape("list", "/nowhere/tape"), "/nowhere/tape: No such file or directory", 2)


class Check(Tapes):
    def test_sound(self) -> None:
        for data, summary in (
            (tape_file(HELLO, AB, LAST), "3 records in 1 file"),
            (tape_file(record(PARTIAL, b"AB", unused=0xE5), LAST, AB, LAST), "4 records in 2 files"),
            (HELLO * 250, "250 records in 1 file"),
            (bytes(33_000), "blank"),
        ):
            source = self.path("tape", data)
            self.assertEqual(self.well(self.tape("check", source)), f"{source}: {summary}, 0 faults\n")
        source = self.path("a.cas", cas(HELLO, LAST))
        self.assertEqual(self.well(self.tape("check", source)), f"{source}: 2 records in 1 file, 0 faults\n")

    def test_faults(self) -> None:
        for name, data, faults in (
            ("tape", tape_file(bad(HELLO), LAST), ["record 0 reads as $8F: checksum $"]),
            ("tape", tape_file(HELLO, bytes(132), LAST), ["record 1 reads as $8F: control byte $00, not $FC"]),
            ("tape", tape_file(record(PARTIAL, b"A", 0), LAST), ["record 0 reads as $8F: a partial record's count 0"]),
            ("tape", tape_file(HELLO), ["no end record behind record 0: reads as $8F"]),
            ("tape", tape_file(AB, LAST, bad(LAST)), ["record 2 reads as $8F: checksum", "no end record behind record"]),
            ("a.cas", cas(*[HELLO] * 251), ["251 records, and a tape has 250: import --file N takes one file"]),
        ):
            done = self.tape("check", self.path(name, data))
            lines = done.stdout.decode().splitlines()
            self.assertEqual((done.returncode, done.stderr, len(lines)), (1, b"", len(faults) + 1))
            for line, fault in zip(lines, faults):
                self.assertIn(f"{self.path(name)}: {fault}", line)
            self.assertTrue(lines[-1].endswith(f", {len(faults)} fault{'s' if len(faults) > 1 else ''}"), lines[-1])


class Whole(Tapes):
    """A file is written whole or not at all."""

    def test_killed_before_the_renaming(self) -> None:
        target = self.path("tape", b"older")
        program = (
            "import os, signal, sys\n"
            "from fixlomand import files\n"
            "os.replace = lambda part, path: os.kill(os.getpid(), signal.SIGKILL)\n"
            "files.write(sys.argv[1], bytes(33_000))\n"
        )
        done = subprocess.run([sys.executable, "-c", program, target], cwd=HOST, timeout=PATIENCE, check=False)
        self.assertEqual((done.returncode, self.held("tape")), (-signal.SIGKILL, b"older"))
        # What is left of it is in nobody's way.
        self.well(self.tape("import", self.path("a.cas", cas(AB, LAST)), target), f"{target}: 2 records in 1 file")
        self.assertEqual((self.held("tape"), self.names()), (tape_file(AB, LAST), ["a.cas", "tape"]))

    def test_killed_while_it_reads(self) -> None:
        for number in (signal.SIGKILL, signal.SIGTERM, signal.SIGINT):
            target = self.path("tape", b"older")
            words = [STICK, "tape", "make", target, "-"]
            process = subprocess.Popen(words, stdin=subprocess.PIPE, stderr=subprocess.DEVNULL)
            assert process.stdin is not None
            process.stdin.write(b"a part of it")
            process.stdin.flush()
            with self.assertRaises(subprocess.TimeoutExpired):
                process.wait(0.3)
            process.send_signal(number)
            self.assertNotEqual(process.wait(PATIENCE), 0)
            process.stdin.close()
            self.assertEqual((self.held("tape"), self.names()), (b"older", ["tape"]))

    def test_killed_while_it_waits_for_the_stick(self) -> None:
        for number in (signal.SIGKILL, signal.SIGTERM, signal.SIGINT):
            source, target = self.path("tape", tape_file(AB, LAST)), self.path("out", b"older")
            # A play that takes all calls and answers none, and ends with its input.
            process = subprocess.Popen(
                [STICK, "tape", "read", source, target],
                stderr=subprocess.DEVNULL,
                env={**os.environ, "FIXLOMAND_PLAY": "sed d"},
            )
            with self.assertRaises(subprocess.TimeoutExpired):
                process.wait(0.3)
            process.send_signal(number)
            self.assertNotEqual(process.wait(PATIENCE), 0)
            self.assertEqual((self.held("out"), self.names()), (b"older", ["out", "tape"]))

    def test_a_link_and_its_mode_stay(self) -> None:
        self.path("kept", b"older")
        os.chmod(self.folder / "kept", 0o640)
        os.symlink("kept", self.folder / "tape")
        self.assertEqual(self.tape("import", self.path("a.cas", cas(AB, LAST)), self.path("tape")).returncode, 0)
        self.assertTrue((self.folder / "tape").is_symlink())
        self.assertEqual(self.held("kept"), tape_file(AB, LAST))
        self.assertEqual(os.stat(self.folder / "kept").st_mode & 0o777, 0o640)


class Help(unittest.TestCase):
    def test_of_every_word(self) -> None:
        words = ["import", "export", "list", "check", "read", "make"]
        whole = run("tape", "--help", **NO_CORE)
        self.assertEqual((whole.returncode, whole.stderr), (0, b""))
        for word in words:
            self.assertIn(f"stick tape {word} ".encode(), whole.stdout)
            for asked in (("tape", word, "--help"), ("tape", word, "-h"), ("tape", word, "one", "two", "--help")):
                done = run(*asked, **NO_CORE)
                self.assertEqual((done.returncode, done.stderr), (0, b""))
                self.assertTrue(done.stdout.startswith(f"stick tape {word} ".encode()))
        for text in HELPS.values():
            self.assertLessEqual(max(map(len, text.splitlines())), 80)
        self.assertIn(b"stick tape .. ", run("--help").stdout)
        # The document for those who write hosts has a row for each.
        rows = (HOST.parent / "docs" / "HOSTS.md").read_text(encoding="utf-8").split("| `./stick tape` | |")[1]
        self.assertEqual(re.findall(r"^\| `(\w+) [A-Z]", rows.split("\n\n")[0], re.MULTILINE), words)

    def test_bad_words(self) -> None:
        those = "import, export, list, check, read, make (try ./stick tape --help)"
        for words, said in ((("tape",), "tape needs a word after it"), (("tape", "play"), "unknown word 'tape play'")):
            done = run(*words, **NO_CORE)
            self.assertEqual((done.returncode, done.stdout, last_line(done)), (2, b"", f"stick: {said}: {those}"))


@unittest.skipUnless(PLAY, NO_PLAY)
class Through(Tapes):
    """``read`` and ``make``, through the core."""

    def tape(self, *words: str, **variables: str) -> subprocess.CompletedProcess[bytes]:
        return run("tape", *words, **variables)

    def said(self, done: subprocess.CompletedProcess[bytes], *lines: str, status: int = 0) -> None:
        """What was said after the line on play."""
        self.assertEqual(done.stderr.decode().splitlines()[1:], [f"stick: {line}" for line in lines])
        self.assertEqual(done.returncode, status)

    def test_made_and_read(self) -> None:
        for length, records in ((0, 1), (1, 2), (127, 2), (128, 2), (129, 3), (20_000, 158), (31_872, 250)):
            data = bytes(place * 7 % 256 for place in range(length))
            source, target, out = self.path("data", data), self.path("tape"), self.path("out", b"older")
            characters = f"{length} character{'' if length == 1 else 's'}"
            words = f"{records} record{'' if records == 1 else 's'} in 1 file"
            self.said(self.tape("make", target, source), f"{target}: {words}, {characters}")
            self.said(self.tape("read", target, out), f"{out}: {characters}")
            self.assertEqual((self.held("out"), len(self.held("tape"))), (data, 33_000))
            self.assertEqual(run("tape", "check", target).returncode, 0)

    def test_its_records(self) -> None:
        """As the paper has them, and blank behind; over standard input and as a CAS file too."""
        target = self.path("tape", tape_file(*[HELLO] * 9))
        self.assertEqual(self.tape("make", target, self.path("data", b"AB\x9b")).returncode, 0)
        self.assertEqual(self.held("tape"), tape_file(AB, LAST))
        other = self.path("a.cas")
        self.assertEqual(run("tape", "make", other, "-", give=b"AB\x9b").returncode, 0)
        self.assertEqual(self.held("a.cas"), cas(AB, LAST, text=b"", gap=3_000))
        done = self.tape("read", other, "-")
        self.assertEqual((done.stdout, done.returncode), (b"AB\x9b", 0))
        self.assertEqual(last_line(done), "stick: standard output: 3 characters")

    def test_more_than_fits(self) -> None:
        target, source = self.path("tape", b"older"), self.path("data", bytes(31_873))
        said = f"{source}: $90, the tape is full after 31872 of 31873 characters; {target} is not written"
        self.said(self.tape("make", target, source), said, status=1)
        self.assertEqual(self.held("tape"), b"older")

    def test_a_bad_record(self) -> None:
        """What was read before it, the place, and a failure."""
        out = self.path("out")
        for records, where, read in (
            ([HELLO, bad(AB), LAST], "record 1, place 0 (checksum $C6, not $C7)", HELLO[3:131]),
            ([AB, record(0x41), LAST], "record 1, place 0 (control byte $41, not $FC, $FA or $FE)", b"AB\x9b"),
            ([record(PARTIAL, b"A", 200)], "record 0, place 0 (a partial record's count 200, not 1 to 127)", b""),
            ([HELLO, AB], "record 2, place 0 (no end record)", HELLO[3:131] + b"AB\x9b"),
            ([], "record 0, place 0 (no end record)", b""),
        ):
            source = self.path("tape", tape_file(*records))
            done = self.tape("read", source, out)
            before = f"{len(read)} character{'' if len(read) == 1 else 's'}"
            self.said(done, f"{source}: $8F at {where}; {out} has the {before} before it", status=1)
            self.assertEqual(self.held("out"), read)

    def test_one_of_several_files(self) -> None:
        hint = "3 files, and OPEN begins at record 0: import or read with --file N takes another"
        out = self.path("out")
        records = (HELLO, LAST, AB, LAST, bad(AB))
        for name, data in (("tape", tape_file(*records)), ("a.cas", cas(*records))):
            source = self.path(name, data)
            self.said(self.tape("read", source, out), f"{source}: {hint}", f"{out}: 128 characters")
            self.assertEqual(self.held("out"), HELLO[3:131])
            self.said(self.tape("read", source, out, "--file", "2"), f"{out}: 3 characters")
            self.assertEqual(self.held("out"), b"AB\x9b")
            done = self.tape("read", source, out, "--file", "3")
            where = "record 4, place 0 (checksum $C6, not $C7)"
            self.said(done, f"{source}: $8F at {where}; {out} has the 0 characters before it", status=1)
            done = run("tape", "read", source, out, "--file", "4", **NO_CORE)
            self.refused(done, f"{source}: there is no file 4, only 3 files")

    def test_a_tape_that_runs_out(self) -> None:
        source = self.path("tape", HELLO * 250)
        self.said(self.tape("read", source, self.path("out")), f"{self.path('out')}: 32000 characters")
        self.assertEqual(self.held("out"), HELLO[3:131] * 250)

    def test_no_more_than_it_needs(self) -> None:
        """How many GETs it sends: none behind the last character, which comes with $03."""
        out, calls = self.path("out"), self.path("calls")
        play = f"sh -c {shlex.quote(f'tee {shlex.quote(calls)} | {PLAY}')}"
        for length, gets in ((BUFFER_LENGTH, 1), (BUFFER_LENGTH + 1, 2)):
            data = bytes(place * 7 % 256 for place in range(length))
            full = length // 128
            records = [record(FULL, data[128 * place : 128 * (place + 1)]) for place in range(full)]
            records.append(record(PARTIAL, data[128 * full :]))
            done = self.tape("read", self.path("tape", tape_file(*records, LAST)), out, FIXLOMAND_PLAY=play)
            self.assertEqual((done.returncode, self.held("out")), (0, data))
            taken = b"".join(op.encode()[2:] for op in script.from_bytes(self.held("calls")) if isinstance(op, script.Take))
            self.assertEqual((length, taken.count(bytes.fromhex("10 09 00 00 07"))), (length, gets))

    def test_text(self) -> None:
        data = b"PLAIN\x9b\xc9NVERSE\x9b\x00\x7f\x9b"
        target, out = self.path("tape"), self.path("out")
        self.assertEqual(run("tape", "make", target, "-", give=data).returncode, 0)
        self.said(
            self.tape("read", target, out, "--text"),
            "1 byte above $7F is written without the high bit, which is inverse video (EOL is a newline)",
            f"{out}: {len(data)} characters",
        )
        self.assertEqual(self.held("out"), b"PLAIN\nINVERSE\n\x00\x7f\n")
        self.assertEqual(run("tape", "make", target, "-", give=b"A\x9bB\x9b").returncode, 0)
        self.said(self.tape("read", target, out, "--text"), f"{out}: 4 characters")
        self.assertEqual(self.held("out"), b"A\nB\n")

    def test_a_play_that_ends(self) -> None:
        target = self.path("tape", tape_file(AB, LAST))
        for words in (("read", target, self.path("out", b"older")), ("make", target, self.path("out"))):
            done = self.tape(*words, FIXLOMAND_PLAY="true")
            self.assertEqual((done.returncode, last_line(done)), (1, "stick: play has ended"))
        self.assertEqual((self.held("tape"), self.held("out")), (tape_file(AB, LAST), b"older"))

    def test_played(self) -> None:
        """A call script that puts a tape in, and shows it."""
        put = "write tape 0 " + (AB + LAST).hex(" ")
        done = run("play", "-", give=f"{put}\ndump tape\nlend tape 32999\ntick 0\n".encode())
        self.assertEqual(
            done.stdout.decode().splitlines()[1:],
            [
                "dump tape: mark 0 closed, record 0, place 0",
                "  tape, 2 records in 1 file, closed",
                "  file 1",
                "    record 0: partial, 3 characters, checksum right",
                "      |AB",
                "    record 1: end, checksum right: file 1 ends, 3 characters",
                "lend tape 32999",
                "tick 0: 2 a lent buffer has another length",
            ],
        )


class Noting(Stick):
    """A port that keeps the statuses of its reads."""

    def __init__(self, stream: PlayPort, **words: bool) -> None:
        self.statuses: list[int] = []
        super().__init__(stream, **words)

    def request(self, message: bytes) -> wire.Reply:
        reply = super().request(message)
        if wire.name(message).startswith("GET ") and isinstance(reply, wire.CallReply):
            self.statuses.append(reply.status)
        return reply


@unittest.skipUnless(PLAY, NO_PLAY)
class Hosts(unittest.TestCase):
    """C in the Python library."""

    def setUp(self) -> None:
        self.player = Player(shlex.split(PLAY))
        self.addCleanup(self.player.close)
        self.laptop, self.phone = (Noting(PlayPort(self.player, port)) for port in (0, 1))

    def lend(self, *records: bytes) -> None:
        self.player.do(script.Write(script.Buffer.TAPE, 0, tape_file(*records)))

    def test_character_by_character(self) -> None:
        """To the end without the request that would give $88."""
        for records, data, last in (
            ([AB, LAST], b"AB\x9b", 0x03),
            ([HELLO, AB, LAST, HELLO], HELLO[3:131] + b"AB\x9b", 0x03),
            ([LAST], b"", 0x88),
        ):
            self.lend(*records)
            self.laptop.statuses.clear()
            with self.laptop.open("C:", READ) as file:
                self.assertEqual((bytes(file), file.at_end), (data, last == 0x03))
            self.assertEqual(self.laptop.statuses, [0x01] * (len(data) - 1) + [last])

    def test_a_bad_end(self) -> None:
        """It is not warned of, and is no end."""
        for end in (bad(LAST), bytes(132)):
            self.lend(AB, end)
            self.laptop.statuses.clear()
            got = bytearray()
            with self.laptop.open("C:", READ) as file, self.assertRaises(errors.Checksum):
                for byte in file:
                    got.append(byte)
            self.assertEqual((got, self.laptop.statuses), (b"AB\x9b", [0x01, 0x01, 0x01, 0x8F]))
            with self.laptop.open("C:", READ) as file, self.assertRaises(errors.Checksum) as caught:
                file.get_rest()
            self.assertEqual(caught.exception.data, b"AB\x9b")

    def test_records_to_the_end(self) -> None:
        for text, statuses in (
            (b"ONE\x9bTWO\x9b" + b"3" * 200 + b"\x9b", [0x01, 0x01, 0x03]),
            (b"ONE\x9bTWO", [0x01, 0x88]),
        ):
            self.phone.statuses.clear()
            with self.laptop.open("C:", WRITE) as file:
                file.put_characters(text)
            with self.phone.open("C:", READ) as file:
                self.assertEqual(b"".join(file.records()), text)
            self.assertEqual(self.phone.statuses, statuses)
        self.lend(AB, LAST)
        with self.laptop.open("C:", READ) as file:
            self.assertRaises(errors.RecordCut, file.get_record, 2)
            self.assertEqual((file.at_end, list(file.records())), (False, []))

    def test_the_rest(self) -> None:
        for length, statuses in ((BUFFER_LENGTH, [0x03]), (20_000, [0x01, 0x88])):
            self.phone.statuses.clear()
            data = bytes(place * 7 % 256 for place in range(length))
            with self.laptop.open("C:", WRITE) as file:
                file.put_characters(data)
            with self.phone.open("C:", READ) as file:
                self.assertEqual(file.get_rest(), data)
            self.assertEqual(self.phone.statuses, statuses)

    def test_a_tape_that_runs_out(self) -> None:
        """Its last character is the last of all, without an end record."""
        self.lend(*[HELLO] * 250)
        with self.laptop.open("C:", READ) as file:
            self.assertEqual((len(file.get_characters(31_999)), file.at_end), (31_999, False))
            self.assertEqual((bytes(file), file.at_end, self.laptop.statuses), (b"x", True, [0x01, 0x01, 0x03]))

    def test_a_host_that_dropped_out(self) -> None:
        """The next one begins anew, whatever was read."""
        self.lend(AB, LAST)
        for count in (1, 3):
            self.laptop.open("C:", READ).get_characters(count)
            self.laptop = Noting(PlayPort(self.player, 0), close_all=True)
            with self.laptop.open("C:", READ) as file:
                self.assertEqual((file.at_end, bytes(file)), (False, b"AB\x9b"))

    def test_written_and_read(self) -> None:
        data = bytes(range(256)) * 40
        with self.laptop.open("C:", WRITE) as file:
            self.assertEqual(file.put_record(b"STOCK"), 5)
            self.assertEqual(file.put_characters(data), len(data))
            head = self.player.tape()
            self.assertEqual((head.mark, head.record, head.place), (2, 80, 6))
            self.assertEqual(head.pending, data[-6:])
        with self.phone.open("C1:", READ) as file:
            self.assertEqual(file.get_record(), b"STOCK\x9b")
            head = self.player.tape()
            self.assertEqual((head.mark, head.record, head.place), (1, 0, 6))
            with self.assertRaises(errors.EndOfFile) as caught:
                file.get_characters(20_000)
            self.assertEqual(caught.exception.data, data)
        self.assertEqual(self.player.tape().mark, 0)

    def test_one_host_at_a_time(self) -> None:
        file = self.laptop.open("C:", WRITE)
        for stick in (self.laptop, self.phone):
            self.assertRaises(errors.AlreadyOpen, stick.open, "C:", READ)
            self.assertRaises(errors.BadCommand, stick.open, "C:", READ | WRITE)
        self.assertRaises(errors.NotReadable, file.get_character)
        file.close()
        with self.phone.open("C:", READ) as other:
            self.assertRaises(errors.NotWritable, other.put_character, 0x41)
            self.assertRaises(errors.EndOfFile, other.get_character)

    def test_a_full_tape_and_a_bad_one(self) -> None:
        file = self.laptop.open("C:", WRITE)
        with self.assertRaises(errors.PaperFull) as full:
            file.put_characters(bytes(40_000))
        self.assertEqual(full.exception.count, 31_872)
        file.close()
        self.player.close()
        self.setUp()
        with self.laptop.open("C:", READ) as file, self.assertRaises(errors.Checksum) as caught:
            file.get_characters(5)
        self.assertEqual(str(caught.exception), "$8F: data frame checksum error: a bad record on the tape")

    def test_asking_with_w_overwrites(self) -> None:
        """What docs/HOSTS.md warns of."""
        with self.laptop.open("C:", WRITE) as file:
            file.put_record(b"STOCK")
        self.assertEqual(self.laptop.status("C:", READ), 1)
        self.assertEqual(tape.records_of(self.player.tape().data)[0].characters, b"STOCK\x9b")
        self.assertEqual(self.laptop.status("C:", WRITE), 1)
        self.assertEqual(self.player.tape().data[:132], LAST)


def _status_of_open(stick: Stick, statuses: list[int]) -> None:
    try:
        stick.open("C:", READ)
    except errors.StatusError as error:
        statuses.append(error.status)


def _read_until(stopped: threading.Event, master: int) -> None:
    """Reads what a program writes, so that it never waits for its terminal; then the terminal is gone."""
    while not stopped.is_set():
        if select.select([master], [], [], 0.05)[0]:
            os.read(master, 65_536)
    os.close(master)


@unittest.skipUnless(PLAY, NO_PLAY)
class Live(Living, Folder):
    """``live --tape``."""

    def begin(self, name: str, data: bytes | None = None) -> tuple[Terminal, Stick, Stick]:
        """Starts with a file in a folder that stays."""
        Folder.setUp(self)
        self.kept = self.folder / name
        if data is not None:
            self.kept.write_bytes(data)
        return self.start("--tape", str(self.kept))

    def test_written_with_each_close(self) -> None:
        terminal, laptop, phone = self.begin("tape", tape_file(HELLO, LAST))
        terminal.wait_for_text("tape, 2 records in 1 file")
        with phone.open("C:", READ) as file:
            self.assertEqual(file.get_record(), b"HELLO, TAPE\x9b")
            terminal.wait_for_text("reading, the head at record 0, place 12")
            before = os.stat(self.kept)
        self.assertRaises(errors.NotOpen, laptop.call, 7, 0x05)
        self.assertEqual(os.stat(self.kept), before)
        file = laptop.open("C:", WRITE)
        file.put_record(b"A" * 127)
        file.put_record(b"AB")
        terminal.wait_for_text("writing, the head at record 1, 3 pending")
        self.assertEqual(self.kept.read_bytes(), tape_file(HELLO, LAST))
        file.close()
        terminal.wait_for_text("the tape is saved in ")
        full = record(FULL, b"A" * 127 + b"\x9b")
        self.assertEqual(self.kept.read_bytes(), tape_file(full, AB, LAST))
        phone.status("C:", WRITE)
        terminal.wait_for(lambda: self.kept.read_bytes() == tape_file(LAST, AB, LAST), "the tape that GET STATUS wrote")
        self.assertEqual(os.listdir(self.kept.parent), ["tape"])
        after = self.end(terminal)
        self.assertIn(f"the tape is {self.kept}: 3 records in 2 files\r\n".encode(), after)
        self.assertNotIn(b"still open", after)

    def test_a_cas_file(self) -> None:
        """It is left alone until it is written on; then its gaps are the stick's."""
        whole = cas(HELLO, AB, LAST)
        terminal, laptop, _ = self.begin("a.cas", whole)
        with laptop.open("C:", READ) as file, self.assertRaises(errors.EndOfFile) as caught:
            file.get_characters(200)
        self.assertEqual(caught.exception.data, HELLO[3:131] + b"AB\x9b")
        self.assertEqual(self.kept.read_bytes(), whole)
        with laptop.open("C:", WRITE) as file:
            file.put_record(b"AB")
        terminal.wait_for_text("the tape is saved in ")
        written = cas(AB, LAST, LAST, text=b"", gap=3_000)
        self.assertEqual(self.kept.read_bytes(), written)
        self.end(terminal)
        self.assertEqual(self.kept.read_bytes(), written)

    def test_read_to_the_end(self) -> None:
        """By a host at a plug, and then by ``./stick tape read`` of the file."""
        terminal, laptop, phone = self.begin("tape")
        lines = [b"item %d\x9b" % number for number in range(40)]
        with laptop.open("C:", WRITE) as file:
            for line in lines:
                file.put_record(line)
        with phone.open("C:", READ) as file:
            self.assertEqual(bytes(islice(file, 5)), b"item ")
            self.assertEqual((file.get_record(), list(file.records())), (b"0\x9b", lines[1:]))
            self.assertTrue(file.at_end)
            terminal.wait_for_text("reading, the head at record 3, place 0")
        self.end(terminal)
        done = run("tape", "read", str(self.kept), "-")
        self.assertEqual((done.stdout, done.returncode), (b"".join(lines), 0))

    def test_unchanged_it_is_left_alone(self) -> None:
        whole = cas(HELLO, AB, LAST)
        terminal, _, _ = self.begin("a.cas", whole)
        before = os.stat(self.kept)
        self.assertIn(b"3 records in 1 file", self.end(terminal))
        self.assertEqual((self.kept.read_bytes(), os.stat(self.kept)), (whole, before))

    def test_a_new_tape(self) -> None:
        for name, blank in (("tape", bytes(33_000)), ("a.cas", cas(text=b""))):
            terminal, _, _ = self.begin(name)
            self.assertIn(f"{self.kept} is new: the tape is blank".encode(), terminal.written)
            self.assertIn(f"the tape is {self.kept}: blank".encode(), self.end(terminal))
            self.assertEqual(self.kept.read_bytes(), blank)

    def test_ended_by_a_signal_while_it_is_written(self) -> None:
        for number in (signal.SIGTERM, signal.SIGHUP, signal.SIGINT):
            with self.subTest(number=number):
                terminal, laptop, _ = self.begin("tape", tape_file(AB, LAST))
                laptop.open("C:", WRITE).put_characters(b"A" * 130)
                terminal.process.send_signal(number)
                after = self.end(terminal, b"")
                self.assertEqual(self.kept.read_bytes(), tape_file(record(FULL, b"A" * 128), LAST))
                said = "stick: the tape is still open for writing: its end record is missing, "
                self.assertIn(f"{said}2 pending characters are not on it\r\n".encode(), after)

    def test_killed_after_a_close(self) -> None:
        terminal, laptop, _ = self.begin("tape")
        with laptop.open("C:", WRITE) as file:
            file.put_record(b"AB")
        file = laptop.open("C:", WRITE)
        file.put_characters(b"A" * 300)
        terminal.process.kill()
        terminal.process.wait(PATIENCE)
        self.assertEqual((self.kept.read_bytes(), os.listdir(self.kept.parent)), (tape_file(AB, LAST), ["tape"]))

    def test_a_tape_that_cannot_be_saved(self) -> None:
        terminal, laptop, _ = self.begin("tape")
        moved = self.kept.parent.rename(self.kept.parent.with_suffix(".moved"))
        with laptop.open("C:", WRITE) as file:
            file.put_record(b"AB")
        terminal.wait_for_text(f"{self.kept}: No such file")
        terminal.type(b"\x03")
        self.assertEqual(terminal.wait_for_end(), 1)
        self.assertIn(f"stick: {self.kept}: No such file or directory; the tape is not saved".encode(), terminal.written)
        moved.rename(self.kept.parent)

    def test_saved_at_the_end_after_all(self) -> None:
        terminal, laptop, _ = self.begin("tape")
        moved = self.kept.parent.rename(self.kept.parent.with_suffix(".moved"))
        with laptop.open("C:", WRITE) as file:
            file.put_record(b"AB")
        terminal.wait_for_text(f"{self.kept}: No such file")
        moved.rename(self.kept.parent)
        self.assertIn(f"the tape is {self.kept}: 2 records".encode(), self.end(terminal))
        self.assertEqual(self.kept.read_bytes(), tape_file(AB, LAST))

    def test_without_a_file(self) -> None:
        terminal, laptop, _ = self.start()
        terminal.wait_for_text("tape, blank")
        with laptop.open("C:", WRITE) as file:
            file.put_record(b"AB")
        terminal.wait_for_text("tape, 2 records in 1 file")
        said = b"the tape, 2 records in 1 file, is gone with the stick (--tape FILE keeps one)"
        self.assertIn(said, self.end(terminal))

    def test_two_groups_at_once(self) -> None:
        terminal, laptop, phone = self.start("--speed", "1000")
        file, editor = laptop.open("C:", WRITE), phone.open("E:", WRITE)
        writing = threading.Thread(target=file.put_characters, args=(b"stock " * 500,), daemon=True)
        writing.start()
        terminal.wait_for_text("PUT CHARACTERS: holds the tape")
        editor.put_record(b"the phone goes on")
        self.assertTrue(writing.is_alive())
        terminal.wait_for_text("  the phone goes on")
        terminal.wait_for_text("open: 0 C1:W")
        # An OPEN of the tape waits for the PUT, and is refused then.
        statuses: list[int] = []
        opening = threading.Thread(target=_status_of_open, args=(phone, statuses), daemon=True)
        opening.start()
        terminal.wait_for_text("OPEN: waits (answer 8)")
        terminal.wait_for_text("writing, the head at record 23, 56 pending")
        for each in (writing, opening):
            each.join(PATIENCE)
            self.assertFalse(each.is_alive())
        self.assertEqual(statuses, [0x81])
        self.end(terminal)

    def test_a_terminal_that_has_gone(self) -> None:
        Folder.setUp(self)
        kept = self.folder / "tape"
        master, slave = os.openpty()
        process = subprocess.Popen(
            [STICK, "live", "--tape", str(kept)],
            stdin=slave,
            stdout=slave,
            stderr=slave,
            env={**os.environ, "TERM": "xterm"},
            start_new_session=True,
        )
        os.close(slave)
        written = b""
        while not (found := re.search(rb"laptop: (\S+)\r\n", written)):
            written += os.read(master, 4096)
        stopped = threading.Event()
        threading.Thread(target=_read_until, args=(stopped, master), daemon=True).start()
        line = Line(found[1].decode())
        self.addCleanup(line.close)
        Stick(line).open("C:", WRITE).put_characters(b"A" * 128)
        stopped.set()
        process.wait(PATIENCE)
        self.assertEqual(kept.read_bytes(), tape_file(record(FULL, b"A" * 128)))

    def test_a_log(self) -> None:
        """It has the tape that was put in, so that it plays again; and what became of it."""
        Folder.setUp(self)
        kept = self.folder / "tape"
        kept.write_bytes(tape_file(AB, LAST))
        log = self.folder / "log"
        terminal, laptop, _ = self.start("--tape", str(kept), "--log", str(log))
        with laptop.open("C:", READ) as file:
            self.assertEqual(file.get_record(), b"AB\x9b")
        self.end(terminal)
        text = log.read_text()
        self.assertRegex(text, r"\n# \d+\.\d\d\d tape, 2 records in 1 file, closed\n")
        self.assertIn(" port 0: GET RECORD replied $03 last character, count 3\n", text)
        again = run("play", str(log)).stdout.decode()
        self.assertIn("bytes 92 04 00 01 41 42 9B", again)
        self.assertIn("\n  tape, 2 records in 1 file, closed\n", again)
        self.assertEqual(set(re.findall(r": (?:ticks \d+, last )?([1-9] [a-z ]+)", again)), set())

    def test_what_is_refused(self) -> None:
        Folder.setUp(self)
        for name, data, said, status in (
            ("tape", bytes(7), "a TAPE has 33000 bytes, and this file 7", 1),
            ("a.cas", cas(AB) + chunk(b"fsk "), "chunk 4 at byte 174, 'fsk ': a signal, and no record", 1),
            ("a.cas", cas(*[AB] * 251), "chunk 253 at byte 35034, 'data': record 250 of 251", 1),
            ("no/tape", None, "no file can be written there", 2),
        ):
            path = self.folder / name
            if data is not None:
                path.write_bytes(data)
            terminal = Terminal([STICK, "live", "--tape", str(path)])
            self.addCleanup(terminal.close)
            self.assertEqual(terminal.wait_for_end(), status)
            self.assertIn(f"stick: {path}: {said}".encode(), terminal.written.replace(b"\r\n", b"\n"))
            self.assertNotIn(b"Traceback", terminal.written)
        for words, said in (
            (("--tape",), "--tape needs a word after it"),
            (("--tape", "-"), "--tape takes a file, not '-'"),
        ):
            terminal = Terminal([STICK, "live", *words])
            self.addCleanup(terminal.close)
            self.assertEqual(terminal.wait_for_end(), 2)
            self.assertIn(f"stick: {said}".encode(), terminal.written)


if __name__ == "__main__":
    unittest.main()
