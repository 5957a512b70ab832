"""``./stick live`` in a terminal of its own, with a host at each plug."""

from __future__ import annotations

import os
import re
import shutil
import signal
import threading
import time
import unittest

from fixlomand import errors, view
from fixlomand.cio import EOL, FORCED, READ, WRITE, File
from fixlomand.picture import drawing

from .living import Living
from .running import NO_PLAY, PLAY, STICK, run
from .terminal import PATIENCE, Terminal

F7, F8 = b"\x1b[18~", b"\x1b[19~"


@unittest.skipUnless(PLAY, NO_PLAY)
class Live(Living):
    def test_screen_and_paper(self) -> None:
        terminal, laptop, phone = self.start()
        laptop.open("P2:", WRITE).put_record(b"ten boxes of lint")
        editor = phone.open("E:", READ | WRITE | FORCED)
        editor.put_record(b"Plain " + bytes(byte | 0x80 for byte in b"inverse"))
        terminal.wait_for_text("  ten boxes of lint")
        terminal.wait_for_text("  Plain inverse")
        terminal.wait_for_text("open: 0 P2:W")
        terminal.wait_for_text("open: 0 E1:RW")
        self.assertEqual(terminal.screen.inverse[1][:40], [False] * 8 + [True] * 7 + [False] * 25)
        self.assertTrue(terminal.screen.lines()[-1].startswith("F1 inverse F2 unlock F3 shift lock"))
        editor.put_character(0x1C)
        self.assertEqual(len(editor.get_record()), 14)
        after = self.end(terminal)
        self.assertIn(b"ten boxes of lint\r\n", after)
        self.assertIn(b"its paper has 18 bytes", after)

    def key(self, terminal: Terminal, keyboard: File, typed: bytes, code: int) -> int:
        """Types a key, sees it pressed and reads it."""
        terminal.type(typed)
        terminal.wait_for_text(f"key ${code:02X}")
        try:
            return keyboard.get_character()
        finally:
            terminal.wait_for_text("key none")

    def test_keys(self) -> None:
        terminal, _, phone = self.start()
        keyboard = phone.open("K:", READ)
        for typed, code, character in (
            (b"a", 0x3F, 0x41),
            (b"A", 0x7F, 0x41),
            (b"\x01", 0xBF, 0x01),
            (b"7", 0x33, ord("7")),
            (b"!", 0x5F, ord("!")),
            (b"\r", 0x0C, EOL),
            (b"\x7f", 0x34, 0x7E),
            (b"\x1b", 0x1C, 0x1B),
            (b"\x1bOA", 0x8E, 0x1C),
        ):
            with self.subTest(typed=typed):
                self.assertEqual(self.key(terminal, keyboard, typed, code), character)
        for typed, code, shown in (
            (b"\x1bOQ", 0x3C, "no lock"),
            (b"\x1bOP", 0x27, "no lock, inverse"),
            (b"\x1bOS", 0xBC, "control lock, inverse"),
            (b"\x1bOR", 0x7C, "shift lock, inverse"),
        ):
            with self.subTest(shown=shown), self.assertRaises(errors.EndOfFile):
                self.key(terminal, keyboard, typed, code)
            terminal.wait_for_text(f"key none, {shown} ")
        self.assertEqual(self.key(terminal, keyboard, b"a", 0x3F), 0xC1)
        self.end(terminal, b"\x1b[21~")

    def test_keys_that_wait(self) -> None:
        terminal, _, phone = self.start()
        keyboard = phone.open("K:", READ)
        terminal.type(b"bandages\r")
        terminal.wait_for_text("8 more keys wait")
        typed = b""
        end = time.monotonic() + PATIENCE
        while not typed.endswith(bytes([EOL])) and time.monotonic() < end:
            try:
                typed += bytes([keyboard.get_character()])
            except errors.EndOfFile:
                pass
        self.assertEqual(typed, b"BANDAGES\x9b")
        terminal.wait_for_text("key none")
        # Nothing is left over, and a key is not held back for one that was read long ago.
        self.assertRaises(errors.EndOfFile, keyboard.get_character)
        self.assertEqual(self.key(terminal, keyboard, b"7", 0x33), ord("7"))
        self.end(terminal)

    def test_two_hosts_at_once(self) -> None:
        terminal, laptop, phone = self.start("--speed", "1000")
        printer = laptop.open("P:", WRITE)
        editor = phone.open("E:", WRITE)
        printing = threading.Thread(target=printer.put_characters, args=(b"stock " * 500,), daemon=True)
        printing.start()
        terminal.wait_for_text("PUT CHARACTERS: holds the printer")
        editor.put_record(b"the phone goes on")
        self.assertTrue(printing.is_alive())
        terminal.wait_for_text("  the phone goes on")
        terminal.wait_for_text("paper, 3000 of 4096 bytes")
        printing.join(PATIENCE)

        lister = laptop.open("E:", WRITE)
        whole_rows = (b"stock " * 500)[: 38 * 78]
        listing = threading.Thread(target=lister.put_characters, args=(whole_rows,), daemon=True)
        listing.start()
        terminal.wait_for_text("PUT CHARACTERS: holds the console")
        waiting = threading.Thread(target=editor.put_record, args=(b"the phone waited",), daemon=True)
        waiting.start()
        terminal.wait_for_text("PUT RECORD: waits (answer 8)")
        terminal.wait_for_text("the phone waited")
        listing.join(PATIENCE)
        waiting.join(PATIENCE)
        self.end(terminal)

    def test_the_foot_at_every_width(self) -> None:
        for width in range(20, 200):
            lines = view.foot(width)
            self.assertLessEqual(max(map(len, lines)), width)
            for place in range(1, 9):
                self.assertEqual(sum(line.count(f"F{place} ") for line in lines), 1)
            self.assertEqual(lines[-1][-6:], " quits")
        self.assertEqual([len(view.foot(width)) for width in (59, 79, 119)], [2, 1, 1])

    def test_sizes(self) -> None:
        for rows, columns in ((24, 60), (12, 60), (24, 80), (50, 132)):
            with self.subTest(rows=rows, columns=columns):
                terminal, laptop, _ = self.start(rows=rows, columns=columns)
                laptop.open("E:", WRITE).put_record(b"x" * 38 * 23 + b"the last row")
                terminal.wait_for_text("  the last row")
                lines = [line.rstrip() for line in terminal.screen.lines()]
                foot = view.foot(columns - 1)
                self.assertEqual(lines[-len(foot) :], foot)
                self.assertRegex(lines[0], r"^Fixlomand   laptop /dev/\S+   phone /dev/\S+$")
                self.assertIn("port 0, laptop: ", lines[1])
                terminal.wait_for_text("open: 0 E1:W")
                self.end(terminal)

    def test_log(self) -> None:
        terminal, laptop, phone = self.start("--log", "a log")
        laptop.open("P:", WRITE).put_record(b"ten boxes # 9 of lint")
        editor = phone.open("E:", READ | WRITE | FORCED)
        editor.put_record(b"ready")
        terminal.type(b"a")
        terminal.wait_for_text("key $3F")
        keyboard = phone.open("K:", READ)
        self.assertEqual(keyboard.get_character(), ord("A"))
        with self.assertRaises(errors.EndOfFile):
            keyboard.get_character()
        self.assertIn(b"the log is a log", self.end(terminal))
        text = (self.folder / "a log").read_text()
        times = [float(line.split()[1]) for line in text.splitlines()[1:] if line.startswith("#")]
        self.assertEqual((times, times[0] >= 0.0), (sorted(times), True))
        for words in (
            'port 0: LOAD 21 bytes at 16: "ten boxes # 9 of lint"',
            "port 0: PUT RECORD replied $01 success, count 21",
            'key $3F: "a"',
            "port 1: GET CHARACTERS replied $88 EndOfFile, end of file from K, C or D",
        ):
            self.assertRegex(text, rf"\n# \d+\.\d\d\d {re.escape(words)}\n")
        again = run("play", str(self.folder / "a log"))
        shown = again.stdout.decode()
        self.assertEqual(again.returncode, 0)
        self.assertIn("\n  |  ready ", shown)
        self.assertIn("\n  |ten boxes # 9 of lint\n", shown)
        self.assertEqual(set(re.findall(r": (?:ticks \d+, last )?([1-9] [a-z ]+)", shown)), set())

    def test_a_log_whose_live_was_killed(self) -> None:
        terminal, laptop, _ = self.start("--log", "log")
        laptop.open("P:", WRITE).put_record(b"ten boxes of lint")
        terminal.process.kill()
        terminal.process.wait(PATIENCE)
        text = (self.folder / "log").read_text()
        self.assertTrue(text.endswith("port 0: PUT RECORD replied $01 success, count 17\ngive 0 x 7\n"))
        again = run("play", "-", give=text.encode() + b"dump\n")
        self.assertIn(b"\n  |ten boxes of lint\n", again.stdout)

    def test_logs_that_cannot_be_written(self) -> None:
        for name, said in (("/nowhere/log", "/nowhere/log: No such file"), ("-", "--log takes a file, not '-'")):
            terminal = Terminal([STICK, "live", "--log", name])
            self.addCleanup(terminal.close)
            self.assertEqual(terminal.wait_for_end(), 2)
            self.assertIn(f"stick: {said}".encode(), terminal.written)
        if os.path.exists("/dev/full"):
            terminal, laptop, _ = self.start("--log", "/dev/full")
            laptop.open("P:", WRITE).put_record(b"goes on")
            terminal.wait_for_text("  goes on")
            terminal.type(b"\x03")
            self.assertEqual(terminal.wait_for_end(), 1)
            self.assertIn(b"/dev/full: No space left on device; the log ends before the run did", terminal.written)

    def test_saving(self) -> None:
        terminal, laptop, phone = self.start(rows=24, columns=60)
        terminal.type(F7)
        terminal.wait_for_text("the paper is empty: nothing is saved")
        laptop.open("P:", WRITE).put_record(b"ten boxes of lint")
        phone.open("E:", WRITE).put_record(b"\x00 and lint")
        terminal.type(F7)
        terminal.wait_for_text("paper-1.txt is saved in ")
        self.assertEqual((self.folder / "paper-1.txt").read_text(), "ten boxes of lint\n")
        (self.folder / "picture-1.png").write_text("older")
        terminal.type(F8)
        terminal.wait_for_text("picture-2.png is saved in ")
        self.assertEqual((self.folder / "picture-1.png").read_text(), "older")
        self.assertEqual((self.folder / "picture-2.png").read_bytes()[:8], b"\x89PNG\r\n\x1a\n")
        moved = self.folder.rename(self.folder.with_suffix(".moved"))
        shutil.rmtree(moved)
        self.folder.mkdir()
        terminal.type(F7)
        terminal.wait_for_text("the paper is not saved: No such file")
        after = self.end(terminal)
        for name in ("paper-1.txt", "picture-2.png"):
            self.assertIn(f"stick: saved {self.folder.resolve() / name}\r\n".encode(), after)

    def test_graphics_in_a_small_terminal(self) -> None:
        terminal, laptop, _ = self.start(rows=24, columns=80)
        laptop.open("S:", WRITE, 7).put_characters(b"".join(drawing()))
        terminal.wait_for_text("mode 7, cursor 96,0")
        terminal.wait_for(lambda: terminal.screen.lines()[1][:40] == "\u2580" * 40, "the drawing")
        self.assertTrue(terminal.screen.lines()[-1].rstrip().endswith("^C quits"))
        self.end(terminal)

    def test_graphics_without_colours(self) -> None:
        terminal, laptop, _ = self.start(kind="vt100")
        laptop.open("S:", WRITE, 7).put_characters(b"".join(drawing()))
        terminal.wait_for_text("." * 70)
        shown = "".join(line[:80] for line in terminal.screen.lines()[1:-1])
        self.assertGreater(min(map(shown.count, ".+#")), 50)
        terminal.type(b"\x03")
        self.assertEqual((terminal.wait_for_end(), terminal.settings()), (0, terminal.before))

    def test_characters_that_are_not_ascii(self) -> None:
        for language, shown in (("C.UTF-8", "  a\u2665\u2660z "), ("C", "  a??z ")):
            terminal, laptop, _ = self.start(language=language)
            laptop.open("E:", WRITE).put_record(b"a\x00\xfbz")
            terminal.wait_for_text(shown)
            self.assertEqual(terminal.screen.inverse[1][2:6], [False, False, True, False])
            self.end(terminal)

    def test_rubbish_and_a_host_that_comes_back(self) -> None:
        terminal, laptop, phone = self.start()
        with self.assertRaises(errors.UnknownTag):
            phone.request(b"\x55\x05\x00rubbi")
        with self.assertRaises(errors.BadCommand):
            phone.request(b"\x12\x01\x00s")
        laptop.open("P:", WRITE).put_record(b"still here")
        terminal.wait_for_text("  still here")
        self.end(terminal)

    def test_ended_from_outside(self) -> None:
        terminal, _, _ = self.start()
        terminal.process.send_signal(signal.SIGTERM)
        self.end(terminal, b"")

    def test_a_play_that_ends(self) -> None:
        before = os.environ["FIXLOMAND_PLAY"]
        self.addCleanup(os.environ.__setitem__, "FIXLOMAND_PLAY", before)
        os.environ["FIXLOMAND_PLAY"] = "true"
        terminal = Terminal([STICK, "live"])
        self.addCleanup(terminal.close)
        self.assertEqual(terminal.wait_for_end(), 1)
        self.assertEqual(terminal.settings(), terminal.before)
        self.assertTrue(terminal.written.endswith(b"stick: play has ended\r\n"))


if __name__ == "__main__":
    unittest.main()
