"""Letters, keys and cells: what needs no running stick."""

import unittest

from fixlomand import keys, letters, picture, screen, script


def dump(mode: int, cells: bytes, paper: bytes = b"") -> script.State:
    """The state of a dump with these cells and this paper."""
    output = bytearray(script.DUMP)
    output[32_768 : 32_768 + len(cells)] = cells
    output[94_208 : 94_208 + len(paper)] = paper
    output[98_304:98_307] = len(paper).to_bytes(2, "little") + bytes([mode])
    return script.read_dump(bytes(output))


def ink(code: int) -> list[str]:
    """A letter's rows as they are drawn."""
    return [f"{row:08b}".replace("0", ".").replace("1", "#") for row in letters.letter(code)]


def edges(code: int) -> tuple[bool, bool, bool, bool]:
    """Whether a letter's ink reaches the middle of the upper, lower, left and right edge."""
    rows = ink(code)
    return rows[0][3] == "#", rows[7][3] == "#", rows[3][0] == "#", rows[3][7] == "#"


class Letters(unittest.TestCase):
    def test_all_are_drawn(self) -> None:
        drawn = {letters.letter(code) for code in range(0x80)}
        self.assertEqual(len(drawn), 128)
        self.assertEqual(letters.letter(0x20), (0,) * 8)

    def test_one_letter(self) -> None:
        rows = [f"{row:08b}" for row in letters.letter(ord("F"))]
        self.assertEqual(rows, ["01111100", *["01000000"] * 2, "01111000", *["01000000"] * 3, "00000000"])

    def test_inverse(self) -> None:
        for code in range(0x80):
            self.assertEqual([row ^ 0xFF for row in letters.letter(code)], list(letters.letter(code | 0x80)))

    def test_lines_join(self) -> None:
        up, down, left, right = range(4)
        for code, reached in {
            0x01: {up, down, right},
            0x03: {up, left},
            0x04: {up, down, left},
            0x05: {down, left},
            0x11: {down, right},
            0x12: {left, right},
            0x13: {up, down, left, right},
            0x17: {down, left, right},
            0x18: {up, left, right},
            0x1A: {up, right},
            0x7C: {up, down},
        }.items():
            with self.subTest(code=hex(code)):
                self.assertEqual({edge for edge, is_reached in enumerate(edges(code)) if is_reached}, reached)

    def test_blocks_and_slopes(self) -> None:
        empty, full, left, right = "." * 8, "#" * 8, "####....", "....####"
        for code, rows in {
            0x02: ["......##"] * 8,
            0x06: [row[::-1] for row in ink(0x07)],
            0x08: ["." * (7 - place) + "#" * (place + 1) for place in range(8)],
            0x09: [empty] * 4 + [right] * 4,
            0x0A: ["#" * (place + 1) + "." * (7 - place) for place in range(8)],
            0x0B: [right] * 4 + [empty] * 4,
            0x0C: [left] * 4 + [empty] * 4,
            0x0D: [full] * 2 + [empty] * 6,
            0x0E: [empty] * 6 + [full] * 2,
            0x0F: [empty] * 4 + [left] * 4,
            0x15: [empty] * 4 + [full] * 4,
            0x16: ["##......"] * 8,
            0x19: [left] * 8,
        }.items():
            with self.subTest(code=hex(code)):
                self.assertEqual(ink(code), rows)
        self.assertEqual((ink(0x07)[0], ink(0x07)[7]), ("##......", "......##"))

    def test_suits_and_arrows(self) -> None:
        for code in (0x00, 0x10, 0x14, 0x1C, 0x1D, 0x60, 0x7B):  # both halves alike
            self.assertEqual(ink(code), [row[::-1] for row in ink(code)], hex(code))
        self.assertEqual(ink(0x1E), [row[::-1] for row in ink(0x1F)])
        self.assertEqual(ink(0x7E), [row[::-1] for row in ink(0x7F)])
        self.assertEqual(ink(0x1C)[:7], ink(0x1D)[:0:-1])
        self.assertEqual(ink(0x60)[:7], ink(0x60)[6::-1])
        self.assertGreater(ink(0x00)[1].count("#"), ink(0x00)[6].count("#"))
        self.assertLess(ink(0x7B)[0].count("#"), ink(0x7B)[4].count("#"))


class Keys(unittest.TestCase):
    def test_characters(self) -> None:
        self.assertEqual([keys.code_of(ord(key)) for key in "aA\x01"], [0x3F, 0x7F, 0xBF])
        for character in range(0x20, 0x7D):
            code = keys.code_of(character)
            assert code is not None
            self.assertEqual(keys.TABLE[code], character)

    def test_others(self) -> None:
        expected = {"\r": 0x9B, "\n": 0x9B, "\x7f": 0x7E, "\b": 0x7E, "\t": 0x7F, "\x1b": 0x1B}
        for key, byte in expected.items():
            self.assertEqual(keys.TABLE[keys.code_of(ord(key)) or 0], byte)
        self.assertEqual([keys.code_of(key) for key in (0, ord("}"), ord("~"), 0x80, 0x141)], [None] * 5)
        self.assertEqual((keys.UNLOCK, keys.SHIFT_LOCK, keys.CONTROL_LOCK), (0x3C, 0x7C, 0xBC))
        self.assertEqual((keys.INVERSE, keys.END_OF_FILE, keys.CLEAR), (0x27, 0x9A, 0x76))


class Cells(unittest.TestCase):
    def test_text(self) -> None:
        rows = screen.text_rows(dump(0, b"AB\xc3\x00\xfb\x9b".ljust(960)))
        self.assertEqual((len(rows), rows[0]), (24, "ABC\u2665\u2660\u241b" + " " * 34))
        shown = [screen.character(code) for code in range(0x80)]
        self.assertEqual(len(set(shown)), 128)
        self.assertEqual((shown[0x1B:0x20], shown[0x60]), (list("\u241b\u2191\u2193\u2190\u2192"), "\u2666"))

    def test_paper(self) -> None:
        self.assertEqual(screen.paper_lines(dump(0, b"")), [])
        self.assertEqual(screen.paper_lines(dump(0, b"", b"one\x9b\x9btwo")), ["one", "", "two"])
        self.assertEqual(screen.paper_lines(dump(0, b"", b"one\x9b")), ["one"])

    def test_a_dump_as_text(self) -> None:
        state = dump(0, b" " * 42 + b"Two".ljust(918), b"one\x9btwo")
        self.assertEqual(
            screen.shown(state),
            [
                "  screen, mode 0, 40 by 24",
                f"  |{' ' * 40}|",
                f"  |{'  Two':40}|",
                "  paper, 7 of 4096 bytes",
                "  |one",
                "  |two",
            ],
        )
        empty = ["  screen, mode 0, 40 by 24: empty", "  paper, 0 of 4096 bytes: empty"]
        self.assertEqual(screen.shown(dump(0, b" " * 960)), empty)
        self.assertEqual(screen.shown(dump(3, bytes(range(4))))[:2], ["  screen, mode 3, 40 by 24", f"  |{' .+#':40}|"])
        lines = screen.shown(dump(8, bytes(320 * 192 - 1) + b"\x01"))
        self.assertEqual((lines[0], len(lines)), ("  screen, mode 8, 320 by 192, shown as 80 by 24", 26))
        self.assertEqual(lines[24], f"  |{'.':>80}|")
        self.assertEqual(screen.shown(dump(9, b""))[0], "  screen: there is no mode 9")

    def test_scaled(self) -> None:
        rows = [bytes([0, 1, 0, 0]), bytes([0, 0, 0, 3])]
        self.assertEqual(screen.scaled(rows, 2, 1), [bytes([1, 3])])
        self.assertEqual(screen.scaled(rows, 8, 2), [bytes([0, 0, 1, 1, 0, 0, 0, 0]), bytes([0] * 6 + [3, 3])])
        self.assertEqual(screen.scaled(rows, 3, 3)[0], bytes([0, 1, 0]))

    def test_pixels_of_each_mode(self) -> None:
        for number, mode in screen.MODES.items():
            last = mode.columns * mode.rows - 1
            rows = picture.pixels(dump(number, bytes(last) + b"\x01"))
            self.assertEqual((len(rows), {len(row) for row in rows}), (192, {320}))
            if number:
                self.assertEqual((rows[0][0], rows[191][319], sum(map(sum, rows))), (0, 1, 192 * 320 // (last + 1)))


if __name__ == "__main__":
    unittest.main()
