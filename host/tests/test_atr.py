"""The ATR format: what is taken of it, what is refused and why, what is written; and images as they lie."""

import unittest

from fixlomand import atr

from .disks import HELLO
from .disks import atr as atr_file


class Taken(unittest.TestCase):
    def test_an_atr_file(self) -> None:
        self.assertEqual(atr_file(HELLO)[:16].hex(" ").upper(), "96 02 80 16 80 00 00 00 00 00 00 00 00 00 00 00")
        for data in (HELLO, bytes(92_160), b"\xff" * 92_160, bytes(range(256)) * 360, b"\x96\x02" * 46_080):
            self.assertEqual(atr.parse(atr_file(data)), data)
            self.assertEqual(atr.image_of(atr_file(data)), data)

    def test_any_flags(self) -> None:
        """Also a checksum, which some programs have at 7."""
        for rest in (b"\xff" * 9, bytes(range(1, 10))):
            self.assertEqual(atr.parse(atr_file(HELLO, rest=rest)), HELLO)

    def test_an_image_as_it_lies(self) -> None:
        for data in (HELLO, bytes(92_160), b"\x96\x02" * 46_080):
            self.assertEqual((atr.bare(data), atr.image_of(data)), (data, data))


class Refused(unittest.TestCase):
    def refused(self, data: bytes) -> str:
        with self.assertRaises(atr.Refused) as caught:
            atr.parse(data)
        return str(caught.exception)

    def test_other_diskettes(self) -> None:
        """Each by its name."""
        wanted = "and a diskette here has 720 of 128"
        double = bytes(3 * 128 + 717 * 256)
        for data, said in (
            (atr_file(bytes(1_040 * 128)), "1040 sectors (enhanced density)"),
            (atr_file(double, 256), "sectors of 256 bytes (double density)"),
            (atr_file(bytes(720 * 256), 256), "sectors of 256 bytes (double density)"),
            (atr_file(bytes(92_160), 512), "sectors of 512 bytes"),
            (atr_file(bytes(92_160), 0), "sectors of 0 bytes"),
            (atr_file(bytes(719 * 128)), "719 sectors"),
            (atr_file(bytes(721 * 128)), "721 sectors"),
            (atr_file(bytes(92_160 + 16)), "92176 bytes, which are no whole sectors"),
            (atr_file(b""), "0 sectors"),
            (atr_file(bytes(92_160), paragraphs=5_760 + 65_536), "8912 sectors"),
        ):
            self.assertEqual(self.refused(data), f"{said}, {wanted}")

    def test_every_cut(self) -> None:
        whole = atr_file(HELLO)
        for cut in (*range(1, 40), 46_080, len(whole) - 128, len(whole) - 1):
            said = f"{cut} of the header's 16 bytes" if cut < 16 else f"{cut - 16} of 92160 bytes"
            self.assertTrue(self.refused(whole[:cut]).startswith(f"cut short: {said} are there"), cut)

    def test_more_than_the_header_says(self) -> None:
        for more, said in ((1, "1 byte"), (128, "128 bytes"), (40_960, "40960 bytes")):
            data = atr_file(HELLO, paragraphs=5_760) + bytes(more)
            self.assertEqual(self.refused(data), f"{said} too many: behind the header are {92_160 + more}, not 92160")

    def test_what_is_no_atr_file(self) -> None:
        self.assertEqual(self.refused(b""), "no ATR file: it is empty")
        self.assertEqual(self.refused(b"\x96"), "cut short: 1 of the header's 16 bytes are there")
        for begin, said in ((b"FUJI", "46 55"), (b"\x96\x03", "96 03"), (b"\x02\x96", "02 96"), (b"A", "41")):
            self.assertEqual(self.refused(begin), f"no ATR file: it begins with {said}, and an ATR file with 96 02")
        self.assertIn("it begins with 00 00", self.refused(HELLO))

    def test_no_image_as_it_lies(self) -> None:
        wanted = "and a diskette here has 720 of 128"
        for length, said in (
            (1_040 * 128, f"1040 sectors of 128 bytes (enhanced density), {wanted}"),
            (720 * 256, f"720 sectors of 256 bytes (double density), {wanted}"),
            (3 * 128 + 717 * 256, f"720 sectors of 256 bytes (double density), {wanted}"),
            (0, "an IMAGE has 92160 bytes, and this file 0"),
            (92_159, "an IMAGE has 92160 bytes, and this file 92159"),
            (92_161, "an IMAGE has 92160 bytes, and this file 92161"),
            (92_176, "an IMAGE has 92160 bytes, and this file 92176"),
        ):
            for read in (atr.bare, atr.image_of):
                with self.assertRaises(atr.Refused) as caught:
                    read(bytes(length))
                self.assertEqual(str(caught.exception), said)


class Written(unittest.TestCase):
    def test_bytes(self) -> None:
        self.assertEqual(atr.encode(HELLO), bytes.fromhex("96 02 80 16 80 00") + bytes(10) + HELLO)

    def test_read_again(self) -> None:
        data = bytes(range(240)) * 384
        self.assertEqual(atr.parse(atr.encode(data)), data)


if __name__ == "__main__":
    unittest.main()
