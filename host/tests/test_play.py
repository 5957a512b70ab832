"""Both ports of a real ``play``, named by FIXLOMAND_PLAY, at work."""

import io
import os
import shlex
import sys
import unittest

from fixlomand import errors, log, script, wire
from fixlomand.cio import FORCED, READ, WRITE, Stick
from fixlomand.play import Player, PlayPort
from fixlomand.ports import Port

from .running import last_line, run
from .tapes import AB, LAST

PLAY = os.environ.get("FIXLOMAND_PLAY", "")


@unittest.skipUnless(PLAY, "FIXLOMAND_PLAY names no play")
class Play(unittest.TestCase):
    def setUp(self) -> None:
        self.player = Player(shlex.split(PLAY))
        self.addCleanup(self.player.close)
        self.laptop, self.phone = (Stick(PlayPort(self.player, port)) for port in (0, 1))

    def test_two_hosts(self) -> None:
        printer = self.laptop.open("P2:", WRITE)
        editor = self.phone.open("E:", READ | WRITE | FORCED)
        self.assertEqual(printer.put_characters(b"x" * 3000), 3000)
        self.assertEqual(editor.put_record(b"AB"), 2)
        editor.put_character(0x1C)
        self.assertEqual(editor.get_record(), b"AB\x9b")
        with self.assertRaises(errors.PaperFull) as caught:
            printer.put_record(b"y" * 2000)
        self.assertEqual(caught.exception.count, 1096)
        state = self.player.state()
        self.assertEqual((state.used, state.blocks[0][0].device, state.blocks[0][0].number), (4096, "P", 2))
        self.assertEqual(bytes(state.screen[2:4]), b"AB")

    def test_a_port_that_waits(self) -> None:
        self.laptop.open("E:", WRITE)
        editor = self.phone.open("E:", WRITE)
        long_put = bytes.fromhex("10 09 00 00 0B 00 00 00 20 00 00 00")
        self.player.do(*(script.Take(0, byte) for byte in long_put), script.Tick(0))
        self.assertEqual(editor.put_record(b"after"), 5)
        self.assertEqual(self.player.state().phases, (3, 0))

    def test_keys(self) -> None:
        keyboard = self.phone.open("K:", READ)
        self.assertRaises(errors.EndOfFile, keyboard.get_character)
        self.player.do(script.Press(0x3F))
        self.assertEqual(keyboard.get_character(), ord("A"))


class Written(io.StringIO):
    """A file whose text is there after its end."""

    text = ""

    def close(self) -> None:
        self.text = self.getvalue()
        super().close()


@unittest.skipUnless(PLAY, "FIXLOMAND_PLAY names no play")
class Logged(unittest.TestCase):
    """What two ports did, as a script with words."""

    def setUp(self) -> None:
        self.player = Player(shlex.split(PLAY))
        self.addCleanup(self.player.close)
        self.ports = [Port(self.player, number) for number in (0, 1)]
        self.file = Written()
        self.log = log.Log(self.file, lambda: 0.0)
        self.player.listener = self.log

    def ask(self, port: int, *messages: bytes, ticks: int = 100) -> None:
        for message in messages:
            self.ports[port].inbox += message
            while self.ports[port].step(ticks):
                pass
            self.ports[port].outbox.clear()

    def words(self) -> list[str]:
        """What the log says, without the times."""
        self.log.close()
        return [line[len("# 0.000 ") :] for line in self.file.text.splitlines()[1:] if line.startswith("#")]

    def test_words(self) -> None:
        self.ask(0, wire.load(0, b"K:\x9b"), wire.call(2, 0x03, aux1=0x04), wire.call(2, 0x07))
        self.player.do(script.Press(0x3F), script.Dump(), script.Press(0x0C))
        self.ask(0, wire.call(2, 0x07), wire.call(2, 0x07, 0, 5), wire.fetch(0, 1), wire.call(2, 0x0C))
        self.ask(1, b"\x55\x01\x00x", b"\x12\x00\x00", wire.call(0, 0x0B, a=0x41), wire.call(0, 0x0E))
        self.ports[1].inbox += b"\x11\x05"
        self.ports[1].step(1)
        self.assertEqual(
            self.words(),
            [
                'port 0: LOAD 3 bytes at 0: "K:" EOL',
                "port 0: LOAD replied $01 success",
                "port 0: OPEN block 2, specification at 0, AUX1 $04 (R), AUX2 0",
                "port 0: OPEN replied $01 success",
                "port 0: GET CHARACTERS block 2, one by A",
                "port 0: GET CHARACTERS replied $88 EndOfFile, end of file from K, C or D",
                'key $3F: "a"',
                "key $0C: return",
                "port 0: GET CHARACTERS block 2, one by A",
                "port 0: GET CHARACTERS replied $01 success, A EOL",
                "port 0: GET CHARACTERS block 2, 5 bytes at 0",
                "port 0: GET CHARACTERS replied $88 EndOfFile, end of file from K, C or D, count 0",
                "port 0: FETCH 1 byte at 0",
                'port 0: FETCH replied $01 success: "K"',
                "port 0: CLOSE block 2",
                "port 0: CLOSE replied $01 success",
                "port 1: tag $55 of 1 byte, an unknown tag",
                "port 1: tag $55 replied $92 UnknownTag, unknown tag",
                "port 1: FETCH of 0 bytes, a wrong length",
                f"port 1: FETCH replied $84 BadCommand, {errors.BadCommand.meaning}",
                'port 1: PUT CHARACTERS block 0, A "A"',
                "port 1: PUT CHARACTERS replied $85 NotOpen, transfer on a closed block",
                "port 1: command $0E block 0, specification at 0, AUX1 $00, AUX2 0",
                "port 1: command $0E replied $82 UnknownDevice, unknown device, or malformed specification",
                "port 1: 2 bytes of a message that did not come whole",
                "unplugged",
            ],
        )

    def test_the_last_character(self) -> None:
        """A tape's: its status by name, and the character where it is in A."""
        self.player.do(script.Write(script.Buffer.TAPE, 0, AB + LAST))
        self.ask(1, wire.load(0, b"C:"), wire.call(0, 0x03, aux1=0x04), wire.call(0, 0x07, 16, 2), wire.call(0, 0x07))
        self.ask(1, wire.call(0, 0x07), wire.call(0, 0x0C), wire.call(0, 0x03, aux1=0x04), wire.call(0, 0x05, 16, 9))
        self.assertEqual(
            [line for line in self.words() if "GET" in line and "replied" in line],
            [
                "port 1: GET CHARACTERS replied $01 success, count 2",
                "port 1: GET CHARACTERS replied $03 last character, A EOL",
                "port 1: GET CHARACTERS replied $88 EndOfFile, end of file from K, C or D",
                "port 1: GET RECORD replied $03 last character, count 3",
            ],
        )

    def test_played_again(self) -> None:
        """Both at the console in small steps; a key refused meanwhile, and a cut message at the end."""
        for port in (0, 1):
            self.ask(port, wire.load(0, b"E:\x9b"), wire.call(0, 0x03, aux1=0x0D), wire.load(16, b"0123456789" * 25))
            self.ports[port].inbox += wire.call(0, 0x0B, 16, 250 - 100 * port)
        self.ports[0].step(7)
        self.player.do(script.Press(0x3F))
        while any([port.step(7) for port in self.ports]):
            for port in self.ports:
                port.outbox.clear()
        self.player.do(script.Press(0x15))
        self.ports[0].inbox += wire.load(500, b"abc")[:-1]
        self.ports[0].step(1)
        words = self.words()
        self.assertEqual(words.count("port 1: PUT CHARACTERS waits for the other port"), 1)
        self.assertNotIn('key $3F: "a"', words)
        ops = script.parse(self.file.text)
        self.assertEqual((ops[0], *ops[-2:]), (script.Fresh(), script.Dump(), script.DumpTape()))
        counts = [[op.count for op in ops if isinstance(op, script.Ticks) and op.port == port] for port in (0, 1)]
        self.assertEqual(counts, [[14, 237], [151]])
        with Player(shlex.split(PLAY)) as other:
            outputs = other.do(*ops)
            self.assertEqual(script.read_dump(outputs[-2]), self.player.state())
            self.assertEqual(script.read_tape(outputs[-1]), self.player.tape())
            for op, output in zip(ops, outputs):
                if isinstance(op, script.Ticks):
                    self.assertEqual(output, op.count.to_bytes(2, "little") + b"\0")
                elif not isinstance(op, (script.Dump, script.DumpTape)):
                    self.assertEqual(output[0], 0)
            self.assertEqual(other.do(script.Take(0, ord("c")), script.Tick(0)), [b"\0", b"\0"])
            self.assertEqual(other.state().areas[0][500:503], b"abc")


class Help(unittest.TestCase):
    def test_of_the_words(self) -> None:
        for word, parts in (("play", [*script.FORMS.values()]), ("live", ["--speed N", "--log FILE", "--tape FILE", "--disk N=FILE", "F7", "F8"])):
            for words in ((word, "--help"), (word, "-h")):
                done = run(*words, FIXLOMAND_PLAY="/nowhere")
                self.assertEqual((done.returncode, done.stderr), (0, b""))
                shown = done.stdout.decode()
                self.assertTrue(shown.startswith(f"stick {word}"))
                self.assertEqual([part for part in parts if part not in shown], [])
                self.assertLessEqual(max(map(len, shown.splitlines())), 80)

    def test_a_field_that_is_wrong(self) -> None:
        done = run("play", "-", give=b"fresh\nlend 5 0\n", FIXLOMAND_PLAY="/nowhere")
        self.assertEqual((done.returncode, done.stdout), (2, b""))
        self.assertIn("standard input: line 2: buffer 5: there is none", last_line(done))

    @unittest.skipUnless(PLAY, "FIXLOMAND_PLAY names no play")
    def test_a_dump(self) -> None:
        done = run("play", "-", give=b"dump\n")
        self.assertEqual((done.returncode, len(done.stdout.splitlines())), (0, 3))
        self.assertIn(b"\n  screen, mode 0, 40 by 24: empty\n  paper, 0 of 4096 bytes: empty\n", done.stdout)


class Gone(unittest.TestCase):
    def test_a_play_that_ends(self) -> None:
        with Player([sys.executable, "-c", ""]) as player:
            self.assertRaises(errors.StickError, player.do, script.Fresh())


if __name__ == "__main__":
    unittest.main()
