"""The documents say what is so: README.md and docs/HOSTS.md by their examples, docs/HOSTS.md by its table of statuses, README.md
by its table of crates, docs/CHANGING.md by the files and names that it leads to."""

import inspect
import re
import shlex
import unittest
from pathlib import Path

import fixlomand
from fixlomand import cases, drives, errors, script, wire
from fixlomand.cio import WRITE, File, Stick
from fixlomand.play import Player, PlayPort
from fixlomand.ports import Port
from fixlomand.wire import Command

from .disks import HELLO
from .running import NO_PLAY, PLAY

REPOSITORY = Path(__file__).resolve().parents[2]
HOSTS = REPOSITORY / "docs" / "HOSTS.md"
README = REPOSITORY / "README.md"
CHANGING = REPOSITORY / "docs" / "CHANGING.md"


def replies(port: Port, sent: bytes) -> bytes:
    """What a port replies to bytes, once all are taken."""
    port.inbox += sent
    got = b""
    while port.step(0xFFFF):
        got += bytes(port.outbox)
        port.outbox.clear()
    return got


class Hosts(unittest.TestCase):
    def setUp(self) -> None:
        self.text = HOSTS.read_text(encoding="utf-8")

    @unittest.skipUnless(PLAY, NO_PLAY)
    def test_the_examples(self) -> None:
        for document, length in ((HOSTS, 33), (README, 4)):
            text = document.read_text(encoding="utf-8")
            rows = re.findall(r"^\| `([0-9A-F ]+)` \| `([0-9A-F ]+)` \|", text, re.MULTILINE)
            self.assertEqual(len(rows), length)
            with Player(shlex.split(PLAY)) as player:
                drives.lend(player, HELLO)
                port = PlayPort(player, 0)
                for sent, expected in rows:
                    port.write(bytes.fromhex(sent))
                    self.assertEqual(port.read(300).hex(" ").upper(), expected)

    def test_the_bytes_that_find_the_place(self) -> None:
        self.assertEqual(re.findall(r"`(00 [0-9A-F ]+)` and 251 zeros", self.text), [wire.BOUNDARY[:8].hex(" ").upper()])
        self.assertEqual(wire.BOUNDARY[8:], bytes(251))
        self.assertIn("511 zeros, 65,024 bytes of $01 and 257 zeros", self.text)
        self.assertEqual(wire.LONG_END, bytes(511) + b"\x01" * 65_024 + bytes(257))
        self.assertIn("pieces of 1, 2, 4 and so on to 256 bytes, 511 in all", self.text)
        self.assertEqual(wire.ZEROS, (1, 2, 4, 8, 16, 32, 64, 128, 256))
        for made in (wire.marked(1), wire.marked_reply(1)):
            self.assertIn(f"`{made[:-1].hex(' ').upper()} xx`", self.text)

    @unittest.skipUnless(PLAY, NO_PLAY)
    def test_getting_back_in_step(self) -> None:
        """Steps 2 to 4, on the core: with all zeros at once, as if no reply had been heard in time."""
        message = bytes.fromhex("11 05 00 00 00 45 3A 9B")
        with Player(shlex.split(PLAY)) as player:
            port = Port(player, 1)
            for cut in range(len(message) + 1):
                replies(port, message[:cut])
                got = replies(port, bytes(sum(wire.ZEROS)) + wire.BOUNDARY + wire.marked(1 + cut) + wire.marked(99))
                self.assertTrue(got.endswith(wire.marked_reply(1 + cut) + wire.marked_reply(99)))
                self.assertEqual(replies(port, message).hex(), "91010001")

    @unittest.skipUnless(PLAY, NO_PLAY)
    def test_what_zeros_make_of_it(self) -> None:
        """The table of messages cut short: what of the area, the screen, the paper and the blocks is another than before."""
        load, put = wire.load(0x0120, b"ABC"), wire.call(0, Command.PUT_CHARACTERS, 0x100, 0x0203, a=0x41)
        player = Player(shlex.split(PLAY))
        self.addCleanup(player.close)

        def begin() -> Stick:
            player.do(script.Fresh())
            stick = Stick(PlayPort(player, 0))
            stick.open("E:", WRITE).put_record(b"on the screen")
            stick.close_all()
            stick.open("P:", WRITE)
            stick.load(0, b"x" * 1024)
            stick.load(0x80, b"E:")
            return stick

        area = begin().fetch(0, 1024)
        before = player.state()
        for message, cut, changed in (
            (load, 1, {}),
            (load, 2, {"area": {0: 0, 1: 0, 2: 0}}),
            (load, 3, {"area": {0: 0, 1: 0, 2: 0}}),
            (load, 4, {"area": {0x20: 0, 0x21: 0, 0x22: 0}}),
            (load, 5, {"area": {0x120: 0, 0x121: 0, 0x122: 0}}),
            (load, 6, {"area": {0x120: 0x41, 0x121: 0, 0x122: 0}}),
            (wire.load(0, bytes(256)), 2, {}),
            (wire.fetch(0, 9), 5, {}),
            (put, 1, {}),
            (put, 3, {}),
            (put, 4, {}),
            (put, 5, {"paper": [0]}),
            (put, 7, {"paper": [0]}),
            (put, 8, {"paper": list(b"xxx")}),
            (put, 9, {"paper": list(b"x" * 0x203)}),
            (wire.call(0, Command.PUT_CHARACTERS, a=0x41), 9, {"paper": [0]}),
            (wire.call(1, Command.OPEN, 0x80, aux1=WRITE), 4, {}),
            (wire.call(1, Command.OPEN, 0x80, aux1=WRITE), 6, {"screen": True, "open": 1}),
            (wire.call(0, Command.CLOSE), 5, {"closed": 0}),
        ):
            with self.subTest(message=message[:12].hex(" "), cut=cut):
                stick = begin()
                replies(Port(player, 0), message[:cut] + bytes(300) + wire.BOUNDARY)
                after, area_after = player.state(), stick.fetch(0, 1024)
                difference: dict[str, object] = {}
                if area != area_after:
                    difference["area"] = {at: area_after[at] for at in range(1024) if area[at] != area_after[at]}
                if after.used != before.used:
                    difference["paper"] = list(after.paper[before.used : after.used])
                if after.screen != before.screen:
                    difference["screen"] = True
                for iocb, (was, now) in enumerate(zip(before.blocks[0], after.blocks[0])):
                    if was != now:
                        difference["closed" if iocb == 0 else "open"] = iocb
                self.assertEqual(difference, changed)

    def test_the_control_codes(self) -> None:
        table = self.text.split("## The editor's control codes")[1].split("##")[0]
        codes: list[int] = []
        for cell in re.findall(r"^\| (\$[^|]*) \|", table, re.MULTILINE):
            for each in cell.split(", "):
                first, *last = (int(number[1:], 16) for number in each.split(" to "))
                codes += range(first, (last or [first])[0] + 1)
        self.assertEqual(sorted(codes), sorted(cases.CONTROL_CODES))

    def test_the_library(self) -> None:
        """Its table has each public method once, with its parameters; and the errors that are no status."""
        rows = re.findall(r"^\| `(\w+)(?:\.(\w+))?\(([^)]*)\)` \|", self.text, re.MULTILINE)
        public = {("Stick", "")} | {
            (each.__name__, name)
            for each in (Stick, File)
            for name, method in vars(each).items()
            if inspect.isfunction(method) and not name.startswith("_")
        }
        self.assertEqual(sorted((owner, name) for owner, name, _ in rows), sorted(public))
        for owner, name, words in rows:
            method = getattr({"Stick": Stick, "File": File}[owner], name or "__init__")
            self.assertEqual(words.split(", ") if words else [], list(inspect.signature(method).parameters)[1:])
        named = set(re.findall(r"^\| `(\w+)` \| ", self.text.split("The others:")[1], re.MULTILINE))
        others = {each.__name__ for each in errors.StickError.__subclasses__() if each.__module__ == errors.__name__}
        self.assertEqual(named, others - {"StatusError"})

    def test_the_statuses(self) -> None:
        rows = re.findall(r"^\| \$(\w\w) \| .* \| `(\w+)` \|$", self.text, re.MULTILINE)
        self.assertEqual(
            {int(number, 16): name for number, name in rows},
            {number: error.__name__ for number, error in errors.BY_STATUS.items()},
        )
        table = self.text.split("## Statuses")[1].split("##")[0]
        below = re.findall(r"^\| \$([0-7]\w) \| (\w+)", table, re.MULTILINE)
        self.assertEqual(below, [(f"{status:02X}", "success") for status in (wire.SUCCESS, wire.LAST_CHARACTER)])
        for name in ("SUCCESS", "LAST_CHARACTER"):
            self.assertIn(f"`{name}`", self.text)
            self.assertIn(name, fixlomand.__all__)
        self.assertIn("| `File.at_end` | ", self.text)
        self.assertIn("at_end", vars(File(None, 0)))  # type: ignore[arg-type]


class Crates(unittest.TestCase):
    def test_the_table(self) -> None:
        rows = re.findall(r"^\| `(\w+)` \| ", README.read_text(encoding="utf-8"), re.MULTILINE)
        lines = (REPOSITORY / "crates.txt").read_text(encoding="utf-8")
        self.assertEqual(rows, re.findall(r"^(\w+)(?: staticlib)?:", lines, re.MULTILINE))


class Changing(unittest.TestCase):
    def test_all_is_there(self) -> None:
        """Each path, and each name."""
        files = [
            file
            for folder in ("crates", "host", "model/src", "model/tests", "firmware", "docs")
            for file in (REPOSITORY / folder).rglob("*")
            if file.suffix in (".rt", ".antt", ".py", ".rs", ".c", ".h", ".md")
            and file != CHANGING
            and "out" not in file.relative_to(REPOSITORY).parts  # what rt makes
        ]
        names = {part for file in files for part in (*file.parts, file.stem)}
        for file in files:
            names |= set(re.findall(r"[\w-]+", file.read_text(encoding="utf-8")))
        for word in re.findall(r"`([^`]+)`", CHANGING.read_text(encoding="utf-8")):
            if "/" in word or word.endswith(".txt"):
                self.assertTrue((REPOSITORY / "crates" / word).exists() or (REPOSITORY / word).exists(), word)
            else:
                for part in word.split("::"):
                    self.assertIn(part, names)


if __name__ == "__main__":
    unittest.main()
