"""The CAS format: what is taken of it, what is refused and where, what is written."""

import unittest

from fixlomand import cas
from fixlomand.tape import Record

from .tapes import AB, FULL, LAST, PARTIAL, bad, chunk, record
from .tapes import cas as cas_file


class Taken(unittest.TestCase):
    def test_a_recorder_s_file(self) -> None:
        first = record(FULL, bytes(range(128)))
        taken = cas.parse(cas_file(first, AB, LAST))
        self.assertEqual([each.record.data for each in taken], [first, AB, LAST])
        self.assertEqual([(each.gap, each.baud) for each in taken], [(20_000, 600), (260, 600), (260, 600)])
        self.assertEqual([each.chunk.number for each in taken], [3, 4, 5])
        self.assertEqual([each.chunk.place for each in taken], [8 + 18 + 8, 8 + 18 + 8 + 140, 8 + 18 + 8 + 280])

    def test_any_gap_and_any_baud(self) -> None:
        gaps, bauds = (0, 1, 259, 3_001, 20_000, 65_535), (0, 1, 600, 617, 9_600, 65_535)
        data = b"".join(chunk(b"baud", baud) + chunk(b"data", gap, AB) for gap, baud in zip(gaps, bauds))
        self.assertEqual([(each.gap, each.baud) for each in cas.parse(data)], list(zip(gaps, bauds)))

    def test_the_speed_before_any_is_named(self) -> None:
        self.assertEqual(cas.parse(chunk(b"data", 5, AB))[0].baud, 600)

    def test_texts_are_skipped(self) -> None:
        for text in (b"", b"data", b"fsk \x00\x00", bytes(65_535)):
            data = chunk(b"FUJI", 0x1234, text) + chunk(b"data", 5, AB) + chunk(b"FUJI", 0, text)
            self.assertEqual([each.record.data for each in cas.parse(data)], [AB])

    def test_bad_records_are_taken_as_they_lie(self) -> None:
        strange = [bad(AB), record(0x00), bytes(132), b"\xff" * 132, record(PARTIAL, b"AB", unused=0xE5)]
        self.assertEqual([each.record.data for each in cas.parse(cas_file(*strange))], strange)

    def test_no_record(self) -> None:
        self.assertEqual(cas.parse(chunk(b"FUJI") + chunk(b"baud", 600)), [])


class Refused(unittest.TestCase):
    def refused(self, data: bytes) -> str:
        with self.assertRaises(cas.Refused) as caught:
            cas.parse(data)
        return str(caught.exception)

    def test_by_name_and_place(self) -> None:
        begin = chunk(b"FUJI", 0, b"TEXT") + chunk(b"baud", 600) + chunk(b"data", 20_000, AB)
        self.assertEqual(len(begin), 160)
        for behind, said in (
            (chunk(b"data", 5, bytes(131)), "'data': 131 bytes, and a record has 132"),
            (chunk(b"data", 5, bytes(133)), "'data': 133 bytes, and a record has 132"),
            (chunk(b"data", 5), "'data': 0 bytes, and a record has 132"),
            (chunk(b"fsk ", 5, bytes(40)), "'fsk ': a signal, and no record"),
            (chunk(b"pwms", 0x206, bytes(2)), "'pwms': a signal, and no record"),
            (chunk(b"pwmc", 5, bytes(3)), "'pwmc': a signal, and no record"),
            (chunk(b"pwmd", 5, bytes(200)), "'pwmd': a signal, and no record"),
            (chunk(b"pwml", 5, bytes(4)), "'pwml': a signal, and no record"),
            (chunk(b"DATA", 5, AB), "'DATA': an unknown type"),
            (b"\x00\x01UV" + bytes(9), "'\\x00\\x01UV': an unknown type"),
            (chunk(b"data", 5, AB)[:-1], "'data': cut short: 131 of 132 bytes are there"),
            (chunk(b"data", 5, AB)[:8], "'data': cut short: 0 of 132 bytes are there"),
            (chunk(b"FUJI", 0, bytes(300))[:20], "'FUJI': cut short: 12 of 300 bytes are there"),
            (chunk(b"baud", 600)[:7], "'baud': cut short: 7 of the 8 bytes before its payload are there"),
            (b"da", "'da': cut short: 2 of the 8 bytes before its payload are there"),
            (b"pw", "'pw': cut short: 2 of the 8 bytes before its payload are there"),
            (b"x", "'x': an unknown type"),
        ):
            with self.subTest(said=said):
                self.assertEqual(self.refused(begin + behind), f"chunk 4 at byte 160, {said}")

    def test_every_cut(self) -> None:
        """A file that is cut anywhere but between two chunks."""
        whole = cas_file(AB, LAST)
        between = (26, 34, 174, len(whole))
        for cut in range(1, len(whole)):
            if cut not in between:
                self.assertIn("cut short", self.refused(whole[:cut]))
        for cut in between:
            self.assertEqual(len(cas.parse(whole[:cut])), between.index(cut) - 1 if cut > 34 else 0)

    def test_what_is_no_cas_file(self) -> None:
        self.assertEqual(self.refused(b""), "no CAS file: it is empty")
        self.assertEqual(self.refused(AB + LAST), "chunk 1 at byte 0, 'UU\u00faA': an unknown type")

    def test_more_than_fit(self) -> None:
        for count in (250, 251, 300):
            taken = cas.parse(cas_file(*[AB] * count, text=b""))
            self.assertEqual(len(taken), count)
            if count == 250:
                cas.check_room(taken)
                continue
            with self.assertRaises(cas.Refused) as caught:
                cas.check_room(taken)
            self.assertEqual(
                str(caught.exception),
                f"chunk 253 at byte {16 + 250 * 140}, 'data': record 250 of {count}, and a tape has 250, 0 to 249",
            )


class Written(unittest.TestCase):
    def test_bytes(self) -> None:
        self.assertEqual(
            cas.encode([Record(AB), Record(LAST), Record(LAST)]),
            b"FUJI" + bytes(4) + b"baud\x00\x00\x58\x02" + b"data\x84\x00\x20\x4e" + AB
            + b"data\x84\x00\xb8\x0b" + LAST + b"data\x84\x00\xb8\x0b" + LAST,
        )  # fmt: skip
        self.assertEqual(cas.encode([]), b"FUJI" + bytes(4) + b"baud\x00\x00\x58\x02")

    def test_read_again(self) -> None:
        records = [record(FULL, bytes([place]) * 128) for place in range(249)] + [LAST]
        taken = cas.parse(cas.encode([Record(each) for each in records]))
        self.assertEqual([each.record.data for each in taken], records)
        self.assertEqual([each.gap for each in taken], [20_000] + 249 * [3_000])


if __name__ == "__main__":
    unittest.main()
