"""Messages and replies as bytes."""

import unittest

from fixlomand import errors, wire


class Messages(unittest.TestCase):
    def test_case_1_load(self) -> None:
        self.assertEqual(wire.load(0, b"E:\x9b"), bytes.fromhex("11 05 00 00 00 45 3A 9B"))

    def test_case_2_call(self) -> None:
        expected = bytes.fromhex("10 09 00 00 03 00 00 00 00 0D 00 00")
        self.assertEqual(wire.call(0, wire.Command.OPEN, aux1=0x0D), expected)

    def test_low_byte_first(self) -> None:
        self.assertEqual(wire.fetch(0x1234, 0x0100), bytes.fromhex("12 04 00 34 12 00 01"))
        self.assertEqual(wire.call(7, 9, 0x3FFF, 2, 3, 4, 5), bytes.fromhex("10 09 00 07 09 FF 3F 02 00 03 04 05"))
        self.assertEqual(len(wire.load(0, bytes(256))), 261)

    def test_what_does_not_fit(self) -> None:
        for make in (lambda: wire.load(0, b""), lambda: wire.load(0, bytes(257)), lambda: wire.fetch(65_536, 1)):
            self.assertRaises(ValueError, make)
        self.assertRaises(ValueError, wire.call, 256, 3)


class Replies(unittest.TestCase):
    STREAM = bytes.fromhex("91 01 00 01  90 04 00 89 02 01 07  92 03 00 01 41 42  92 01 00 B0  FF 01 00 92")
    REPLIES = [
        wire.LoadReply(1),
        wire.CallReply(0x89, 0x0102, 7),
        wire.FetchReply(1, b"AB"),
        wire.FetchReply(0xB0, b""),
        wire.Refusal(0x92),
    ]

    def test_at_once(self) -> None:
        self.assertEqual(wire.ReplyReader().feed(self.STREAM), self.REPLIES)

    def test_byte_by_byte(self) -> None:
        reader = wire.ReplyReader()
        replies = []
        for byte in self.STREAM:
            self.assertGreater(reader.needed, 0)
            replies += reader.feed(bytes([byte]))
        self.assertEqual(replies, self.REPLIES)

    def test_needed_never_reads_into_the_next_reply(self) -> None:
        reader, rest, replies = wire.ReplyReader(), self.STREAM, []
        while rest:
            piece, rest = rest[: reader.needed], rest[reader.needed :]
            got = reader.feed(piece)
            self.assertLessEqual(len(got), 1)
            replies += got
        self.assertEqual(replies, self.REPLIES)

    def test_no_reply(self) -> None:
        for text in ("10 00 00", "90 01 00 01", "91 02 00 01 02", "92 02 00 84 00", "FF 00 00", "92 00 00"):
            self.assertRaises(errors.BadReply, wire.ReplyReader().feed, bytes.fromhex(text))


    def test_whose_reply(self) -> None:
        call, load, fetch = wire.call(0, 9), wire.load(0, b"AB"), wire.fetch(0, 2)
        unknown, wrong = wire.field(0x55, b"AB"), wire.field(wire.Tag.LOAD, b"AB")
        right = (
            (call, wire.CallReply(1, 0, 0)),
            (load, wire.LoadReply(0xB0)),
            (fetch, wire.FetchReply(1, b"AB")),
            (fetch, wire.FetchReply(0xB0, b"")),
            (unknown, wire.Refusal(0x92)),
            (wrong, wire.Refusal(0x84)),
        )
        for message, reply in right:
            self.assertTrue(wire.answers(message, reply))
            for other, _ in right:
                if other != message:
                    self.assertFalse(wire.answers(other, reply))
        for count in (0, 1, 3):
            self.assertFalse(wire.answers(fetch, wire.FetchReply(1, bytes(count))))

    def test_a_whole_message(self) -> None:
        message = wire.load(0, b"AB")
        self.assertTrue(wire.whole(message))
        for cut in range(len(message)):
            self.assertFalse(wire.whole(message[:cut]))
        self.assertFalse(wire.whole(message + b"C"))


def messages(taken: bytes) -> tuple[list[bytes], bytes]:
    """The messages that a port makes of bytes, and what is left of them."""
    found = []
    while len(taken) >= 3 and len(taken) >= 3 + int.from_bytes(taken[1:3], "little"):
        length = 3 + int.from_bytes(taken[1:3], "little")
        found.append(taken[:length])
        taken = taken[length:]
    return found, taken


class Place(unittest.TestCase):
    """Whatever was taken before, the port comes to a boundary, and does nothing on the way but what was begun."""

    def test_a_boundary(self) -> None:
        for zeros in (0, 1, 2):
            found, rest = messages(bytes(zeros) + wire.BOUNDARY)
            self.assertEqual(rest, b"")
            self.assertTrue({message[0] for message in found}.isdisjoint(wire.Tag))

    def test_every_piece_of_zeros(self) -> None:
        """Also where the host before dropped out while it was finding its own place."""
        finding = bytes(3) + wire.BOUNDARY + wire.marked(7)
        for begun in (wire.call(7, 9, 1, 2, 3, 4, 5), wire.load(1, bytes(range(256))), wire.fetch(1, 2), finding):
            for cut in range(len(begun)):
                sent = messages(begun[:cut])[1]
                for size in wire.ZEROS:
                    sent += bytes(size)
                    found, rest = messages(sent)
                    if found:
                        break
                self.assertTrue({message[0] for message in found[1:]}.isdisjoint(wire.Tag))
                self.assertIn(rest, (b"", b"\0", b"\0\0"))

    def test_an_unfinished_long_end(self) -> None:
        for cut in range(1, len(wire.LONG_END), 997):
            self.assertEqual(messages(wire.LONG_END[:cut] + wire.LONG_END + wire.BOUNDARY)[1], b"")

    def test_a_field_of_any_length(self) -> None:
        for length in (*range(0, 65_536, 331), *range(255, 261), 65_024, 65_025, 65_534, 65_535):
            for begun in (b"\x11" + wire.word(length), b"\x11" + wire.word(length)[:1], b"\x11" + wire.word(length) + b"AB"):
                found, rest = messages(begun + wire.LONG_END + wire.BOUNDARY)
                self.assertEqual(rest, b"")
                self.assertTrue({message[0] for message in found[1:]}.isdisjoint(wire.Tag))
                self.assertLess(len(found), 600)

    def test_the_mark(self) -> None:
        self.assertEqual(wire.marked(7), bytes.fromhex("10 09 00 FF 00 00 00 00 00 00 00 07"))
        self.assertEqual(wire.marked_reply(7), bytes.fromhex("90 04 00 86 00 00 07"))


class Errors(unittest.TestCase):
    def test_one_for_each_status(self) -> None:
        statuses = [0x81, 0x82, 0x83, 0x84, 0x85, 0x86, 0x87, 0x88, 0x89, 0x8D, 0x8F, 0x90, 0x91, 0x92]
        statuses += [0xA4, 0xA5, 0xA7, 0xAA, 0xB0]
        self.assertEqual(sorted(errors.BY_STATUS), statuses)
        for status in statuses:
            with self.assertRaises(errors.BY_STATUS[status]) as caught:
                errors.check(status, 3, 4)
            error = caught.exception
            self.assertEqual((error.status, error.count, error.a), (status, 3, 4))
            self.assertIn(f"${status:02X}: ", str(error))

    def test_success_and_strangers(self) -> None:
        for status in (wire.SUCCESS, wire.LAST_CHARACTER, 0x7F):
            errors.check(status)
        with self.assertRaises(errors.StatusError) as caught:
            errors.check(0xEE)
        self.assertEqual((type(caught.exception), caught.exception.status), (errors.StatusError, 0xEE))


if __name__ == "__main__":
    unittest.main()
