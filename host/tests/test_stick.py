"""``./stick`` run as people run it: demo, play, picture, and what goes wrong."""

from __future__ import annotations

import os
import platform
import shlex
import struct
import subprocess
import unittest
import zlib
from pathlib import Path

from fixlomand import letters, picture

from .copied import Copied, Folder
from .running import NO_PLAY, PATIENCE, PLAY, STICK, last_line, run
from .terminal import Terminal

CASE_6 = """\
fresh
take 0 11 05 00 00 00 45 3A 9B   # E: at 0
tick 0
give 0 x 4
take 0 10 09 00 00 03 00 00 00 00 0D 00 00
tick 0
give 0 x 7
take 0 11 04 00 10 00 41 C2
tick 0
give 0 x 4
take 0 10 09 00 00 09 10 00 02 00 00 00 00
tick 0 x 300
give 0 x 7
"""


@unittest.skipUnless(PLAY, NO_PLAY)
class Demo(unittest.TestCase):
    def test_its_parts(self) -> None:
        done = run("demo")
        self.assertEqual((done.returncode, len(done.stderr.splitlines())), (0, 1))
        first, second = done.stdout.decode().split("\n2. ")
        self.assertRegex(first, r'PUT 785 characters begins\n[^+]*  : +PUT RECORD "ITEM\?" -> \$01\n')
        self.assertIn("|  GAUZE: 3 LEFT", first)
        self.assertIn("|ALCOHOL          31", first)
        self.assertIn("|ZINC PASTE        5  LOW|", first)
        self.assertIn("Ticks answered 8, wait for the other port: 0.", first)
        self.assertRegex(second, r'PUT RECORD "ITEM\?" begins\n')
        self.assertRegex(second, r"\.\.\. ends -> \$01, [1-9]\d* answers 8\n")
        self.assertIn("|  ZINC PASTE        5  LOW", second)
        self.assertIn("|  GAUZE: 3 LEFT", second)

    def test_two_screens_of_plain_text(self) -> None:
        done = run()
        lines = done.stdout.decode("ascii").splitlines()
        self.assertEqual(done.stdout, run("demo").stdout)
        self.assertLessEqual(len(lines), 48)
        self.assertLessEqual(max(map(len, lines)), 80)
        self.assertNotIn(b"\x1b", done.stdout)

    def test_in_a_terminal(self) -> None:
        terminal = Terminal([STICK, "demo"], rows=60)
        self.addCleanup(terminal.close)
        self.assertEqual(terminal.wait_for_end(), 0)
        self.assertIn(b"\x1b[1m2. The same", terminal.written)


@unittest.skipUnless(PLAY, NO_PLAY)
class Play(Folder):
    def test_a_script_and_its_answers(self) -> None:
        done = run("play", self.file("case", CASE_6))
        lines = done.stdout.decode().splitlines()
        self.assertEqual((done.returncode, len(lines)), (0, 13))
        self.assertEqual(lines[0], "fresh: 0 done")
        self.assertEqual(lines[3], "give 0 x 4: 0 done, bytes 91 01 00 01")
        self.assertEqual(lines[11], "tick 0 x 300: ticks 4, last 0 done")
        self.assertEqual(lines[12], "give 0 x 7: 0 done, bytes 90 04 00 01 02 00 00")
        self.assertEqual(run("play", "-", give=CASE_6.encode()).stdout, done.stdout)

    def test_an_op_that_is_cut(self) -> None:
        done = run("play", "-", give=b"fresh\nraw 54 00")
        self.assertEqual((done.returncode, done.stdout), (0, b"fresh: 0 done\nraw 54 00\n"))

    def test_a_play_that_ends_early(self) -> None:
        done = run("play", "-", give=b"fresh\ntick 0", FIXLOMAND_PLAY="printf '\\0'")
        self.assertEqual((done.returncode, done.stdout), (1, b"fresh: 0 done\ntick 0: the output ends\n"))
        self.assertEqual(last_line(done), "stick: play ended before the script did")


def read_png(data: bytes) -> tuple[list[bytes], bytes]:
    """The rows of colour numbers of a PNG, and its palette."""
    assert data[:8] == b"\x89PNG\r\n\x1a\n"
    chunks: dict[bytes, bytes] = {}
    at = 8
    while at < len(data):
        length, kind = struct.unpack(">I4s", data[at : at + 8])
        value = data[at + 8 : at + 8 + length]
        assert struct.unpack(">I", data[at + 8 + length : at + 12 + length])[0] == zlib.crc32(kind + value)
        chunks[kind] = value
        at += 12 + length
    assert list(chunks) == [b"IHDR", b"PLTE", b"IDAT", b"IEND"]
    width, height, *form = struct.unpack(">IIBBBBB", chunks[b"IHDR"])
    assert form == [8, 3, 0, 0, 0]
    rows = zlib.decompress(chunks[b"IDAT"])
    assert len(rows) == height * (width + 1)
    lines = [rows[row * (width + 1) : (row + 1) * (width + 1)] for row in range(height)]
    assert all(line[0] == 0 for line in lines)
    return [line[1:] for line in lines], chunks[b"PLTE"]


@unittest.skipUnless(PLAY, NO_PLAY)
class Picture(Folder):
    def test_the_drawing(self) -> None:
        path = self.folder / "drawing.png"
        path.write_bytes(b"older")
        done = run("picture", str(path))
        self.assertEqual((done.returncode, done.stdout), (0, b""))
        rows, palette = read_png(path.read_bytes())
        self.assertEqual((len(rows), len(rows[0])), (416, 672))
        self.assertEqual(palette, bytes(part for colour in picture.GRAPHICS for part in colour))
        # A cell of mode 7 is 4 by 4 pixels here, the border 16.
        for row, cells in enumerate(picture.drawing()):
            shown = rows[16 + 4 * row][16:-16]
            self.assertEqual(bytes(shown[::4]), cells)
            self.assertEqual(rows[16 + 4 * row + 3], rows[16 + 4 * row])
        self.assertEqual(os.listdir(self.folder), ["drawing.png"])

    def test_text(self) -> None:
        done = run("picture", "-", "--script", self.file("case", CASE_6))
        self.assertEqual(done.returncode, 0)
        rows, palette = read_png(done.stdout)
        self.assertEqual(len(palette), 6)
        # Cells (0,2) and (0,3) hold an A and an inverse B.
        for column, cell in ((2, 0x41), (3, 0xC2), (4, 0x20)):
            for line, bits in enumerate(letters.letter(cell)):
                left = 16 + 16 * column
                shown = rows[16 + 2 * line][left : left + 16 : 2]
                self.assertEqual("".join(map(str, shown)), f"{bits:08b}")

    def test_nothing_is_lost(self) -> None:
        path = self.file("older.png", "older")
        script = self.file("ends", "fresh\nraw 54 00\n")
        done = run("picture", path, "--script", script)
        self.assertEqual(done.returncode, 2)
        self.assertIn(f"{script}: the script ends the run", last_line(done))
        self.assertEqual(run("picture", path, FIXLOMAND_PLAY="true").returncode, 1)
        self.assertEqual(Path(path).read_text(), "older")
        self.assertEqual(sorted(os.listdir(self.folder)), ["ends", "older.png"])


class Words(Folder):
    def test_help(self) -> None:
        done = run("--help")
        self.assertEqual((done.returncode, done.stderr), (0, b""))
        for word in (b"demo", b"live", b"play SCRIPT", b"picture FILE", b"--script", b"--unproved", b"FIXLOMAND_PLAY"):
            self.assertIn(word, done.stdout)

    def test_bad_words(self) -> None:
        bad = self.file("bad", "fresh\ntock\n")
        for words, line in (
            ("tune", "unknown word 'tune' (try ./stick --help)"),
            ("demo twice", "demo takes no more words (try ./stick --help)"),
            ("demo --fast", "demo has no option '--fast' (try ./stick --help)"),
            ("play", "play takes a SCRIPT and no more words (try ./stick --help)"),
            ("play one two", "play takes a SCRIPT and no more words (try ./stick --help)"),
            ("play /nowhere/script", "/nowhere/script: No such file or directory"),
            (f"play {bad}", f"{bad}: line 2: not an op: tock"),
            ("picture", "picture takes a FILE and no more words (try ./stick --help)"),
            ("picture /nowhere/a.png", "/nowhere/a.png: no file can be written there"),
            ("picture a.png --script", "--script needs a word after it"),
            ("live --speed fast", "--speed takes a number from 1 to 1000000, not 'fast'"),
            ("live", "live needs a terminal"),
        ):
            with self.subTest(words=words):
                done = run(*words.split())
                self.assertEqual((done.returncode, done.stdout), (2, b""))
                self.assertEqual(done.stderr.decode(), f"stick: {line}\n")


class Missing(Copied):
    """A toolchain that is not there, fails, or works; a stand-in each."""

    def test_no_toolchain(self) -> None:
        done = self.start()
        self.assertEqual((done.returncode, done.stdout), (2, b""))
        self.assertEqual(
            done.stderr.decode(),
            "stick: the Rattle toolchain's command rt is not on the PATH (README.md tells where it comes from)\n",
        )

    def test_no_proof(self) -> None:
        self.rt("echo $* fails", "exit 1")
        done = self.start()
        log = self.repository / "target" / "stick.log"
        self.assertEqual((done.returncode, done.stdout), (2, b""))
        self.assertEqual(last_line(done), f"stick: rt run in crates/play failed, so there is no play; {log} tells why")
        self.assertEqual(log.read_text(), "run fails\n")

    def test_no_program(self) -> None:
        self.rt("exit 0")
        done = self.start()
        program = self.repository / "crates" / "play" / "out" / "play"
        self.assertEqual((done.returncode, last_line(done)), (2, f"stick: {program} is missing"))

    @unittest.skipUnless(PLAY, NO_PLAY)
    def test_built_and_started(self) -> None:
        path = shlex.quote(os.environ["PATH"])
        play = self.file("play", f"#!/bin/sh\nPATH={path} exec {shlex.join(shlex.split(PLAY))}\n", 0o755)
        self.rt("mkdir -p out", f"cp {play} out/play")
        self.file("kit/toolchain/lib/ld-linux-x86-64.so.2", '#!/bin/sh\nshift 2\nexec "$@"\n', 0o755)
        emulator = self.file("kit/bin/qemu-x86_64", '#!/bin/sh\nexec "$@"\n', 0o755)
        how = f"under the emulator {emulator}"
        if platform.machine() == "x86_64":
            how = "on this processor, with the toolchain's loader"
        self.copy("crates")
        done = self.start()
        self.assertEqual(done.returncode, 0)
        self.assertEqual(last_line(done), f"stick: play runs {how}")
        self.assertIn(b"GAUZE: 3 LEFT", done.stdout)
        # Once more, with all the crates as they were: at once, and rt is not asked.
        self.rt("exit 1")
        before = os.times()
        again = self.start()
        after = os.times()
        # The processor's time: another program may be at work meanwhile.
        took = after.children_user + after.children_system - before.children_user - before.children_system
        self.assertLess(took, 2)
        self.assertEqual((again.returncode, again.stdout), (0, done.stdout))

    def test_a_name_for_nothing(self) -> None:
        done = run(FIXLOMAND_PLAY="/nowhere/play --fast")
        self.assertEqual(done.returncode, 2)
        self.assertEqual(last_line(done), "stick: FIXLOMAND_PLAY names a program that is not there: /nowhere/play")


class Broken(unittest.TestCase):
    def test_a_play_that_ends(self) -> None:
        done = run(FIXLOMAND_PLAY="true")
        self.assertEqual((done.returncode, last_line(done)), (1, "stick: play has ended"))

    @unittest.skipUnless(PLAY, NO_PLAY)
    def test_output_that_is_closed(self) -> None:
        process = subprocess.Popen([STICK, "demo"], stdout=subprocess.PIPE, stderr=subprocess.PIPE)
        assert process.stdout is not None and process.stderr is not None
        process.stdout.close()
        said = process.stderr.read().decode().splitlines()
        process.stderr.close()
        self.assertEqual(process.wait(PATIENCE), 1)
        self.assertEqual((len(said), said[-1]), (2, "stick: standard output was closed before the end"))

    @unittest.skipUnless(PLAY and os.path.exists("/dev/full"), NO_PLAY)
    def test_a_full_disk(self) -> None:
        with open("/dev/full", "wb") as full:
            done = subprocess.run([STICK, "demo"], stdout=full, stderr=subprocess.PIPE, timeout=PATIENCE, check=False)
        self.assertEqual((done.returncode, last_line(done)), (1, "stick: No space left on device"))


if __name__ == "__main__":
    unittest.main()
