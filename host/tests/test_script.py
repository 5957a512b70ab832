"""The call script in its two forms, and what is written for it."""

import unittest
from pathlib import Path

from fixlomand import script
from fixlomand.script import Change, Doctor, Dump, DumpTape, Fresh, Give, Lend, Press, Raw, Take, Tape, Tick, Ticks, Write

# The same bytes are tested in the model.
TEXT = """\
fresh
take 0 11 05 00 00 00 45 3A 9B
tick 0
give 0 x 4
give 0
take 1 10
take 255 FF
tick 1 x 300
press 3F
lend area 100
lend state 602
raw 4C 07 70 11 01
lend tape 33000
lend images 368640
write tape 132 55 55 FA
write images 45952 02
raw 57 09 FF FF FF 00 00
dump
dump tape
doctor 3
raw 54 00
"""
BYTES = bytes.fromhex(
    "46 540011 540005 540000 540000 540000 540045 54003A 54009B 4B00 4700 4700 4700 4700 4700"
    "540110 54FFFF 58012C01 503F 4C00640000 4C035A0200 4C07701101 4C04E88000 4C0600A005"
    "57048400000300 5555FA 570680B300010002 5709FFFFFF0000"
    "44 43 5203 5400"
)


GATE = Path(__file__).resolve().parents[2] / "crates" / "play"


def dump(**places: int) -> bytes:
    """A dump of zeros but for some places after the buffers."""
    output = bytearray(script.DUMP)
    for place, value in places.items():
        output[98_304 + int(place[1:])] = value
    return bytes(output)


class Forms(unittest.TestCase):
    def test_both(self) -> None:
        ops = script.parse(TEXT)
        self.assertEqual(script.to_bytes(ops), BYTES)
        self.assertEqual(script.from_bytes(BYTES), ops)
        self.assertEqual(script.to_text(ops), TEXT.replace("give 0 x 4\ngive 0\n", "give 0 x 5\n"))
        self.assertEqual(script.parse(script.to_text(ops)), ops)

    def test_ops(self) -> None:
        ops = [Fresh(), Take(1, 2), Tick(3), Give(4), Press(5), Ticks(6, 7), Lend(2, 9), Dump(), DumpTape(), Doctor(3)]
        ops.append(Raw(b"T\0"))
        self.assertEqual(script.from_bytes(script.to_bytes(ops)), ops)

    def test_writes(self) -> None:
        """Their length is their own, and one that is cut is no op."""
        for data in (b"", b"F", b"W" * 700, bytes(33_000)):
            ops = [Write(4, 0x030201, data), Write(9, 0, data), Fresh()]
            written = script.to_bytes(ops)
            self.assertEqual(script.from_bytes(written), ops)
            self.assertEqual(script.parse(script.to_text(ops)), ops)
            for cut in (1, 6, 6 + len(data)):
                self.assertEqual(script.from_bytes(written[:cut]), [Raw(written[:cut])])
        self.assertEqual(script.parse("write 4 7 41"), [Write(4, 7, b"A")])
        self.assertEqual(script.parse("write 6 368639 41\nlend 6 9"), [Write(6, 368_639, b"A"), Lend(6, 9)])
        self.assertEqual(script.to_text([Write(6, 0, b"A"), Lend(6, 9)]), "write images 0 41\nlend images 9\n")
        self.assertEqual(script.parse("write tape 16777215 " + "00 " * 65_535), [Write(4, 0xFFFFFF, bytes(65_535))])

    def test_long_takes_are_split(self) -> None:
        text = script.to_text([Take(0, 7)] * 20)
        self.assertEqual(text, "take 0" + " 07" * 16 + "\ntake 0" + " 07" * 4 + "\n")

    def test_comments_and_faults(self) -> None:
        self.assertEqual(script.parse("  # nothing\n\nfresh # all\n"), [Fresh()])
        for line, fault in {
            "tock 0": "not an op: tock 0",
            "fresh 1": "fresh 1: not of the form fresh",
            "take 0": "take 0: not of the form take PORT BYTES",
            "take 256 00": "port 256: at most 255",
            "take 0 100": "byte 100: at most FF",
            "take 0 11 +1": "byte +1: not hexadecimal",
            "tick 256": "port 256: at most 255",
            "tick two": "port two: not a number",
            "tick 0 y 3": "tick 0 y 3: not of the form tick PORT [x N]",
            "tick 0 x 65536": "count 65536: at most 65535",
            "give 0 x 70000": "count 70000: at most 65535",
            "press": "press: not of the form press CODE",
            "press 1FF": "code 1FF: at most FF",
            "lend area": "lend area: not of the form lend BUFFER LENGTH",
            "lend area 16777216": "length 16777216: at most 16777215",
            "lend 5 0": "buffer 5: there is none; the buffers are 0 area, 1 screen, 2 paper, 3 state, 4 tape, 6 images",
            "lend disk 0": "buffer disk: there is none; the buffers are 0 area, 1 screen, 2 paper, 3 state, 4 tape, 6 images",
            "write state 0 00": "buffer state: there is none; the buffers are 0 area, 1 screen, 2 paper, 4 tape, 6 images",
            "write tape": "write tape: not of the form write BUFFER AT BYTES",
            "write tape 16777216 00": "place 16777216: at most 16777215",
            "write tape 0 100": "byte 100: at most FF",
            "write tape 0 " + "00 " * 65_536: "65536 bytes: at most 65535",
            "dump disk": "dump disk: not of the form dump [tape]",
            "doctor": "doctor: not of the form doctor N",
            "doctor 0 1": "doctor 0 1: not of the form doctor N",
            "doctor 256": "diskette 256: at most 255",
            "doctor D1": "diskette D1: not a number",
            "raw": "raw: not of the form raw BYTES",
        }.items():
            with self.assertRaises(script.ScriptError) as caught:
                script.parse(f"fresh\n{line} # why")
            self.assertEqual(str(caught.exception), f"line 2: {fault}")

    def test_the_limits_are_reached(self) -> None:
        text = "take 255 FF\ntick 255 x 65535\npress FF\nlend 3 16777215\ndoctor 255\n"
        ops = [Take(255, 255), Ticks(255, 65_535), Press(255), Lend(3, 16_777_215), Doctor(255)]
        self.assertEqual(script.parse(text), ops)

    def test_a_buffer_that_is_not_there(self) -> None:
        """It can be had as bytes alone, as in a script that is no text."""
        self.assertEqual(script.to_text([Lend(5, 1)]), "raw 4C 05 01 00 00\n")
        self.assertEqual(script.parse("raw 4C 05 01 00 00\nfresh"), [Lend(5, 1), Fresh()])
        self.assertEqual(script.to_text([Write(3, 1, b"A")]), "raw 57 03 01 00 00 01 00 41\n")


class Answers(unittest.TestCase):
    def test_words(self) -> None:
        self.assertEqual(script.describe(Fresh(), b"\x02"), "2 a lent buffer has another length")
        self.assertEqual(script.describe(Give(0), b"\x00\x91"), "0 done, byte 91")
        self.assertEqual(script.describe(Ticks(0, 300), b"\x2c\x01\x00"), "ticks 300, last 0 done")
        self.assertEqual(script.describe(Lend(0, 1), b""), "nothing")
        self.assertEqual(script.describe(Write(4, 0, b"A"), b""), "nothing")
        self.assertEqual(script.describe(Tick(0), b""), "the output ends")
        self.assertEqual(script.describe(Give(0), b"\x05"), "the output ends after 05")
        self.assertEqual(script.describe(Tick(0), b"\x09"), "9 no such answer")

    def test_lines(self) -> None:
        ops = script.parse("fresh\ntake 0 55 00 00\nlend area 5\ntick 0\ngive 0 x 3\ntake 1 00 00 00 00")
        output = bytes([0, 0, 0, 0, 0, 0, 0xFF, 0, 1, 0, 0, 0, 0, 0, 4])
        self.assertEqual(
            script.format_answers(ops, output),
            [
                "fresh: 0 done",
                "take 0 55 00 00: 0 done (x 3)",
                "lend area 5",
                "tick 0: 0 done",
                "give 0 x 3: 0 done, bytes FF 01 00",
                "take 1 00 00 00 00: 0 done (x 3); 4 byte offered while not gathering",
            ],
        )

    def test_dump(self) -> None:
        self.assertEqual(script.DUMP, 98_382)
        output = dump(p0=2, p1=1, p4=9, p8=255, p9=0xFF, p10=1, p20=1, p21=ord("P"), p22=3, p23=0xF8, p76=2)
        state = script.read_dump(output)
        self.assertEqual((state.used, state.column, state.read_column, state.lock), (258, 9, None, 1))
        self.assertEqual(state.blocks[0][2], script.Block(True, "P", 3, 0xF8))
        self.assertEqual(state.blocks[1][7], script.Block(False, "", 0, 0))
        self.assertEqual((state.phases, len(state.screen), len(state.areas[1])), ((2, 0), 61_440, 16_384))
        self.assertEqual(
            script.describe(Dump(), output),
            "used 258, mode 0, row 0, column 9, last 0, escape 0, read column 255, key 255, lock 1, inverse 0, "
            "port 0 block 2 P3: AUX1 F8, port 0 running, port 1 gathering",
        )
        self.assertRaises(ValueError, script.read_dump, output[1:])

    def test_dump_of_the_tape(self) -> None:
        self.assertEqual(script.TAPE_DUMP, 33_132)
        data = bytes(range(250)) * 132
        for numbers, pending, tape, words in (
            ("02 F8 00 03", b"ABC", Tape(data, 2, 248, 3, b"ABC"), "mark 2 writing, record 248, place 3"),
            ("01 01 00 05", b"", Tape(data, 1, 1, 5, b""), "mark 1 reading, record 1, place 5"),
            ("03 00 00 00", b"", Tape(data, 3, 0, 0, b""), "mark 3 open with neither R nor W, record 0, place 0"),
            ("00 00 00 00", b"", Tape(data, 0, 0, 0, b""), "mark 0 closed, record 0, place 0"),
        ):
            output = data + bytes.fromhex(numbers) + pending.ljust(128, b"\0")
            self.assertEqual(script.read_tape(output), tape)
            self.assertEqual(script.describe(DumpTape(), output), words)
            self.assertRaises(ValueError, script.read_tape, output[1:])
        lines = script.format_answers([DumpTape()], output, lambda tape: [f"mark {tape.mark}"])
        self.assertEqual(lines, ["dump tape: mark 0 closed, record 0, place 0", "mark 0"])

    def test_the_doctor(self) -> None:
        """Its output is as long as it says; the changes are under its line."""
        sound, none = bytes(3), bytes.fromhex("01 00 00")
        listed = bytes.fromhex("00 02 00 04 00 7D 01 00 69 01 01 02 01")
        for output, words, changes in (
            (sound, "0 done, 0 changes", []),
            (listed[:8].replace(b"\x02", b"\x01"), "0 done, 1 change", [Change(4, 125, 1, 0)]),
            (listed, "0 done, 2 changes", [Change(4, 125, 1, 0), Change(361, 1, 2, 1)]),
        ):
            self.assertEqual((script.describe(Doctor(0), output), script.read_changes(output)), (words, changes))
            self.assertEqual(script.written(Doctor(0), output[:3]), len(output))
        self.assertEqual(script.describe(Doctor(4), none), "1 no such diskette, 0 changes")
        self.assertEqual(script.describe(Doctor(4), b"\x02\0\0"), "2 no such answer, 0 changes")
        for wrong in (none, b"", listed[:2], listed[:-1], listed + b"\0"):
            self.assertRaises(ValueError, script.read_changes, wrong)
        for cut in (0, 2, 3, 7, 12):
            ends = f"the output ends after {listed[:cut].hex(' ').upper()}" if cut else "the output ends"
            self.assertEqual(script.format_answers([Doctor(0)], listed[:cut]), [f"doctor 0: {ends}"])
        ops = [Doctor(1), Doctor(0), Fresh(), Doctor(4), Tick(0)]
        output = sound + listed + b"\0" + none + b"\7"
        self.assertEqual(script.pieces(ops, output), [sound, listed, b"\0", none, b"\7"])
        self.assertEqual(
            script.format_answers(ops, output),
            [
                "doctor 1: 0 done, 0 changes",
                "doctor 0: 0 done, 2 changes",
                "  sector 4 place 125: 01 to 00",
                "  sector 361 place 1: 02 to 01",
                "fresh: 0 done",
                "doctor 4: 1 no such diskette, 0 changes",
                "tick 0: 7 tick, nothing ready or running",
            ],
        )

    def test_a_dump_is_shown_under_its_line(self) -> None:
        lines = script.format_answers([Dump(), Fresh()], dump(p0=7) + b"\0", lambda state: [f"paper {state.used}"])
        self.assertEqual((lines[0][:12], lines[1:]), ("dump: used 7", ["paper 7", "fresh: 0 done"]))
        cut = script.format_answers([Dump()], b"\0\0", lambda state: ["never"])
        self.assertEqual(cut, ["dump: the output ends after 00 00"])


class Gate(unittest.TestCase):
    """The script that the gate plays: what stands behind an op of it is what must be written."""

    def setUp(self) -> None:
        self.text = (GATE / "script.txt").read_text(encoding="utf-8")
        self.output = (GATE / "stdout").read_bytes()

    def test_bytes(self) -> None:
        self.assertEqual(script.to_bytes(script.parse(self.text)), (GATE / "stdin").read_bytes())

    def test_notes(self) -> None:
        at = 0
        dumps, tapes = [], []
        for line in self.text.splitlines():
            words, _, note = line.partition("#")
            for op in (ops := script.parse(words)):
                written = self.output[at : at + script.written(op, self.output[at : at + op.output])]
                at += len(written)
                if isinstance(op, Dump):
                    dumps.append(script.read_dump(written))
                if isinstance(op, DumpTape):
                    tapes.append(script.read_tape(written))
                if isinstance(op, Ticks) and note:
                    self.assertEqual(written, int(note).to_bytes(2, "little") + b"\0", line)
            if ops and isinstance(ops[0], Doctor) and note:
                self.assertEqual(written.hex(" "), bytes.fromhex(note).hex(" "), line)
            if ops and isinstance(ops[0], Give) and note:
                given = b"".join(bytes([0, byte]) for byte in bytes.fromhex(note))
                self.assertEqual(self.output[at - len(given) : at], given, line)
        self.assertEqual(at, len(self.output))
        record, cell, letters, rows, ends, disks = dumps
        self.assertEqual((record.screen[2:4], record.row, record.column), (b"\x41\x42", 1, 2))
        self.assertEqual(cell.screen[0], 1)
        blank = b"\x20"
        self.assertEqual(letters.screen[:43], 2 * blank + b"B" + 39 * blank + b"C")
        self.assertEqual(letters.screen[880:960], 2 * blank + b"X" + 77 * blank)
        self.assertEqual((letters.row, letters.column), (23, 2))
        self.assertEqual(rows.screen[:3], b"\x06\x07\x08")
        self.assertEqual(rows.screen[877:884], blank + b"\x09\x0a\x0b\x0c\x0d" + blank)
        self.assertEqual(rows.screen[917:963], blank + b"\x0e\x0f" + 40 * blank + b"\x10\x11\0")
        self.assertEqual(rows.screen[997:1003], b"\0\x12\x13\x14\x15\0")
        self.assertEqual(rows.screen[-3:], b"\0\x16\x17")
        self.assertEqual((ends.areas[1][-1], ends.screen[-1], ends.paper[-1]), (0x7A, 0x7B, 0x7C))
        self.assertEqual(ends.blocks[1][2], script.Block(True, "C", 1, 0x04))
        first = (script.Block(True, "D", 1, 0x04), script.Block(True, "D", 1, 0x06), script.Block(False, "", 0, 0))
        self.assertEqual(disks.blocks[0][:3], first)
        self.assertEqual(disks.blocks[1][7], script.Block(True, "D", 1, 0x04))
        pending, reading, closed = tapes
        self.assertEqual(pending, Tape(bytes(33_000), 2, 0, 3, b"AB\x9b"))
        partial = bytes.fromhex("55 55 FA 41 42 9B") + bytes(124) + bytes.fromhex("15 D9")
        end = bytes.fromhex("55 55 FE") + bytes(128) + b"\xa9"
        self.assertEqual(reading, Tape((partial + end).ljust(33_000, b"\0"), 1, 0, 2, b""))
        self.assertEqual(closed, Tape((end + end).ljust(33_000, b"\0"), 0, 0, 0, b""))


if __name__ == "__main__":
    unittest.main()
