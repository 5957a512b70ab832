"""The bench cases and the boundaries of 01-scope, the manual's section 5 and
what of 02-change-requests is built, each played on a fresh stick and compared
with what the papers say.

Where 01-scope decides over the manual, what is expected is 01-scope's; where
02-change-requests decides over both, its.
"""

from __future__ import annotations

from collections.abc import Callable, Sequence
from dataclasses import dataclass

from . import keys, script, wire
from .cio import BLOCKS, BUFFER, SPECIFICATION
from .errors import BadReply
from .play import GROUP_HELD, Player
from .tape import CHARACTERS, END, FULL, PARTIAL, RECORD, RECORDS, checksum
from .wire import AREA, DIRECTORY, EOL, FORCED, KEEP, PIECE, READ, WRITE, CallReply, Command, FetchReply, LoadReply

OK = wire.SUCCESS
LAST_CHARACTER = wire.LAST_CHARACTER
BLANK = 0x20
ESCAPE, UP, DOWN, LEFT, RIGHT = 0x1B, 0x1C, 0x1D, 0x1E, 0x1F
CLEAR, BACKSPACE, BELL = 0x7D, 0x7E, 0xFD
CONTROL_CODES = bytes.fromhex("1B 1C 1D 1E 1F 7D 7E 7F 9B 9C 9D 9E 9F FD FE FF")
"""The sixteen control codes of the screen editor."""
EDITOR = READ | WRITE | FORCED
CAPS, SHIFT, CONTROL, INVERSE_KEY = 0x3C, 0x40, 0x80, 0x27


class Wrong(Exception):
    """Something that is not as the paper says."""

    def __init__(self, expected: object, got: object) -> None:
        super().__init__(f"expected {shown(expected)}, got {shown(got)}")


def shown(value: object) -> str:
    """A value as the papers write it."""
    if isinstance(value, CallReply):
        return f"status ${value.status:02X} count {value.count} A ${value.a:02X}"
    if isinstance(value, bytes):
        return value.hex(" ").upper() if len(value) <= 48 else f"{value[:48].hex(' ').upper()} ... ({len(value)} bytes)"
    if isinstance(value, tuple):
        return f"({', '.join(map(shown, value))})"
    return str(value)


class Bench:
    """A fresh stick, played message by message."""

    def __init__(self, player: Player) -> None:
        self._player = player
        self.ticks = 0
        """Ticks of the last message after its start."""
        self.compared = 0
        """How often something was compared."""
        self.fresh()

    def same(self, expected: object, got: object) -> None:
        """Compares."""
        self.compared += 1
        if expected != got:
            raise Wrong(expected, got)

    def fresh(self) -> None:
        """A fresh start."""
        self.same(b"\x00", self._player.do(script.Fresh())[0])

    def press(self, code: int) -> None:
        """Presses a key."""
        self.same(b"\x00", self._player.do(script.Press(code))[0])

    @property
    def state(self) -> script.State:
        """What a dump tells now."""
        return self._player.state()

    @property
    def cursor(self) -> tuple[int, int]:
        """Row and column."""
        return self.state.row, self.state.column

    @property
    def tape(self) -> bytes:
        """What is written for a dump of the tape now: the tape, its mark,
        record (2) and place, and what is pending."""
        return self._player.do(script.DumpTape())[0]

    def lend_tape(self, data: bytes = b"") -> None:
        """From now on the tape is these bytes, and zeros: a fresh start leaves
        its bytes as they are."""
        self._player.do(script.Write(script.Buffer.TAPE, 0, data.ljust(script.TAPE, b"\0")))

    def write_screen(self, cells: bytes) -> None:
        """From now on the screen shows these cells."""
        self._player.do(script.Write(script.Buffer.SCREEN, 0, cells))

    def lend_diskette(self, data: bytes = b"", drive: int = 1) -> None:
        """From now on the diskette in a drive is these bytes, and zeros: a
        fresh start leaves its bytes as they are."""
        half = script.IMAGE // 2
        for at in (0, half):
            self.write_diskette(at, data[at : at + half].ljust(half, b"\0"), drive)

    def write_diskette(self, at: int, data: bytes, drive: int = 1) -> None:
        """Writes bytes of the diskette in a drive, and leaves the others."""
        self._player.do(script.Write(script.Buffer.IMAGES, (drive - 1) * script.IMAGE + at, data))

    def doctor(self, which: int = 0) -> bytes:
        """The doctor on a diskette, 0 to 3; all that is written for it."""
        return self._player.do(script.Doctor(which))[0]

    def begin(self, data: bytes, port: int = 0) -> int:
        """Sends a message and ticks once; the tick's answer."""
        *taken, ticked = self._player.do(*(script.Take(port, byte) for byte in data), script.Tick(port))
        self.same(bytes(len(data)), b"".join(taken))
        return ticked[0]

    def message(self, data: bytes, port: int = 0) -> bytes:
        """Sends a message; its whole reply. It is not to wait."""
        self.same(0, self.begin(data, port))
        return self.reply(port)

    def reply(self, port: int = 0) -> bytes:
        """Ticks a message that has started to its end; its whole reply."""
        give = script.Give(port)
        self.ticks = 0
        answer, first = self._player.do(give)[0]
        for _ in range(2):  # the longest request takes more ticks than one op makes
            if answer:
                ticked = self._player.do(script.Ticks(port, 0xFFFF))[0]
                self.ticks += int.from_bytes(ticked[:2], "little")
                answer, first = self._player.do(give)[0]
        self.same(0, answer)
        header = bytes([first]) + bytes(byte for _, byte in self._player.do(give, give))
        rest = self._player.do(*[give] * int.from_bytes(header[1:], "little"))
        self.same(bytes(len(rest)), bytes(answer for answer, _ in rest))
        return header + bytes(byte for _, byte in rest)

    def _reply(self, message: bytes) -> wire.Reply:
        reply = self.message(message)
        try:
            return wire.reply_of(reply[0], reply[3:])
        except BadReply:
            raise Wrong("a reply", reply) from None

    def load(self, data: bytes, address: int = BUFFER) -> None:
        """Writes bytes into the area."""
        for at in range(0, len(data), PIECE):
            self.same(LoadReply(OK), self._reply(wire.load(address + at, data[at : at + PIECE])))

    def fetch(self, count: int, address: int = BUFFER) -> bytes:
        """Reads bytes of the area."""
        data = b""
        while len(data) < count:
            reply = self._reply(wire.fetch(address + len(data), min(PIECE, count - len(data))))
            if not isinstance(reply, FetchReply) or not reply.data:
                raise Wrong("bytes of the area", reply)
            data += reply.data
        return data

    def call(
        self,
        command: int,
        address: int = BUFFER,
        length: int = 0,
        aux1: int = 0,
        aux2: int = 0,
        a: int = 0,
        iocb: int = 0,
    ) -> wire.Reply:
        """A CALL; its reply."""
        return self._reply(wire.call(iocb, command, address, length, aux1, aux2, a))

    def open(
        self, specification: bytes, aux1: int, aux2: int = 0, *, iocb: int = 0, status: int = OK, command: int = 3
    ) -> None:
        """Opens a block, or asks with another command that opens; it is to answer the status."""
        self.load(specification, SPECIFICATION)
        self.same(CallReply(status, 0, 0), self.call(command, SPECIFICATION, 0, aux1, aux2, iocb=iocb))

    def put(
        self,
        data: bytes,
        count: int | None = None,
        status: int = OK,
        *,
        iocb: int = 0,
        command: int = Command.PUT_CHARACTERS,
    ) -> None:
        """Writes bytes; all are to be counted, or so many, with the status."""
        self.load(data)
        expected = CallReply(status, len(data) if count is None else count, 0)
        self.same(expected, self.call(command, length=len(data), iocb=iocb))

    def put_record(self, data: bytes, count: int | None = None) -> None:
        """Writes a record."""
        self.put(data, count, command=Command.PUT_RECORD)

    def get(
        self,
        length: int,
        expected: bytes,
        status: int = OK,
        *,
        command: int = Command.GET_CHARACTERS,
        ticks: int | None = None,
        iocb: int = 0,
    ) -> None:
        """Reads with a buffer of the length: the bytes are to be stored, and none behind them; in so many ticks, the
        start's too, if that is said."""
        behind = b"\xa5"
        self.load(behind * (length + 1))
        self.same(CallReply(status, len(expected), 0), self.call(command, length=length, iocb=iocb))
        if ticks is not None:
            self.same(f"{ticks} ticks", f"{1 + self.ticks} ticks")
        self.same(expected + behind, self.fetch(len(expected) + 1))

    def get_record(
        self, length: int, expected: bytes, status: int = OK, *, ticks: int | None = None, iocb: int = 0
    ) -> None:
        """Reads a record."""
        self.get(length, expected, status, command=Command.GET_RECORD, ticks=ticks, iocb=iocb)

    def key(self, code: int, expected: int | None) -> None:
        """Presses a key and reads it by A: a character, or none and $88."""
        self.press(code)
        no_character = CallReply(0x88, 0, 0)
        reply = no_character if expected is None else CallReply(OK, 0, expected)
        self.same((f"key ${code:02X}", reply), (f"key ${code:02X}", self.call(Command.GET_CHARACTERS)))

    def editor(self) -> None:
        """Opens E on block 0."""
        self.open(b"E:", EDITOR)

    def keyboard(self) -> None:
        """Opens K on block 0."""
        self.open(b"K:", READ)

    def printer(self) -> None:
        """Opens P on block 0."""
        self.open(b"P:", WRITE)

    def paper(self, expected: bytes) -> None:
        """Compares what is printed."""
        state = self.state
        self.same(expected, state.paper[: state.used])

    def row(self, row: int, expected: bytes) -> None:
        """Compares a row of mode 0 from the left margin on; the rest of it is blank."""
        cells = self.state.screen[40 * row : 40 * (row + 1)]
        self.same(bytes([BLANK, BLANK]) + expected.ljust(38), cells)


Function = Callable[[Bench], None]


@dataclass(frozen=True)
class Case:
    """A case: where it stands, what it shows, and how."""

    place: str
    shows: str
    function: Function


CASES: list[Case] = []


def case(place: str, shows: str) -> Callable[[Function], Function]:
    """Notes a function as a case."""

    def note(function: Function) -> Function:
        CASES.append(Case(place, shows, function))
        return function

    return note


def run(player: Player, cases: Sequence[Case]) -> int:
    """Plays cases and prints a line for each; how many are wrong."""
    wrong = 0
    for number, each in enumerate(cases, 1):
        line = f"{number}  {each.place}: {each.shows}"
        try:
            bench = Bench(player)
            before = bench.compared
            each.function(bench)
            if bench.compared == before:
                raise Wrong("something compared", "nothing")
            print(f"ok {line}")
        except Wrong as error:
            wrong += 1
            print(f"WRONG {line}: {error}")
    print(f"{len(cases)} cases, {wrong} wrong")
    return wrong


# the bench cases of 01-scope; all but the last are proved as well

LOAD_EDITOR = bytes.fromhex("11 05 00 00 00 45 3A 9B")
OPEN_EDITOR = bytes.fromhex("10 09 00 00 03 00 00 00 00 0D 00 00")


@case("01-scope case 1 (proved too)", "LOAD of E: is answered 91 01 00 01")
def _(bench: Bench) -> None:
    bench.same(bytes.fromhex("91 01 00 01"), bench.message(LOAD_EDITOR))


@case("01-scope case 2 (proved too)", "then OPEN is answered 90 04 00 01 00 00 00")
def _(bench: Bench) -> None:
    bench.message(LOAD_EDITOR)
    bench.same(bytes.fromhex("90 04 00 01 00 00 00"), bench.message(OPEN_EDITOR))


@case("01-scope case 3 (proved too)", "IOCB 8 is $86")
def _(bench: Bench) -> None:
    bench.open(b"E:", EDITOR, iocb=8, status=0x86)


@case("01-scope case 4 (proved too)", "GET on a closed block is $85")
def _(bench: Bench) -> None:
    for command in (Command.GET_RECORD, Command.GET_CHARACTERS):
        bench.same(CallReply(0x85, 0, 0), bench.call(command, length=1))


@case("01-scope case 5 (proved too)", "PUT at 16,383: n 1 passes, n 2 is $B0")
def _(bench: Bench) -> None:
    for command in (Command.PUT_RECORD, Command.PUT_CHARACTERS):
        bench.fresh()
        bench.printer()
        bench.same(CallReply(OK, 1, 0), bench.call(command, AREA - 1, 1))
        bench.same(CallReply(0xB0, 0, 0), bench.call(command, AREA - 1, 2))


@case("01-scope case 6 (proved too)", "PUT RECORD AB on fresh E: two cells, cursor (1,2), count 2")
def _(bench: Bench) -> None:
    bench.editor()
    bench.put_record(b"AB", 2)
    bench.row(0, b"AB")
    bench.same((1, 2), bench.cursor)


@case("01-scope case 7 (proved too)", "then up and GET RECORD: n 10 or 3 gives 41 42 9B, n 2 gives $89 and count 2")
def _(bench: Bench) -> None:
    for length, expected, status in ((10, b"AB\x9b", OK), (3, b"AB\x9b", OK), (2, b"AB", 0x89)):
        bench.fresh()
        bench.editor()
        bench.put_record(b"AB")
        bench.put(bytes([UP]))
        bench.get_record(length, expected, status)


@case("01-scope case 8 (proved too)", "fresh key $3F is $41; after a GET on $3C ($88) it is $61")
def _(bench: Bench) -> None:
    bench.keyboard()
    bench.key(0x3F, 0x41)
    bench.key(0x3C, None)
    bench.key(0x3F, 0x61)


@case("01-scope case 9 (proved too)", "key $BF is $01")
def _(bench: Bench) -> None:
    bench.keyboard()
    bench.key(0xBF, 0x01)


@case("01-scope case 10 (proved too)", "key $9A is $88")
def _(bench: Bench) -> None:
    bench.keyboard()
    bench.key(0x9A, None)


@case("01-scope case 11 (proved too)", "mode 3, PUT 5: cell 1")
def _(bench: Bench) -> None:
    bench.open(b"S:", WRITE, 3)
    bench.put(b"\x05")
    bench.same(1, bench.state.screen[0])


@case("01-scope case 12", "mode 8 fresh, GET RECORD n 1: count 1, $8D, 61,441 ticks after the start")
def _(bench: Bench) -> None:
    bench.open(b"S:", READ, 8)
    reply = bench.call(Command.GET_RECORD, length=1)
    bench.same((CallReply(0x8D, 1, 0), 61_441), (reply, bench.ticks))


# 01-scope: the boundaries of its numbers; those of S are among the display handler's

LAST = bytes(range(256))
"""What is loaded at 16,128 ($3F00): the area's last 256 bytes."""


@case("01-scope, Messages, FETCH", "(16,383, 1) and (16,128, 256) give the area's last bytes")
def _(bench: Bench) -> None:
    bench.load(LAST, 16_128)
    bench.same(bytes.fromhex("92 02 00 01 FF"), bench.message(bytes.fromhex("12 04 00 FF 3F 01 00")))
    bench.same(bytes.fromhex("92 01 01 01") + LAST, bench.message(bytes.fromhex("12 04 00 00 3F 00 01")))


@case("01-scope, Messages, FETCH", "(16,384, 1), (16,383, 2) and (16,129, 256) are past the area: $B0, and no bytes")
def _(bench: Bench) -> None:
    for message in ("12 04 00 00 40 01 00", "12 04 00 FF 3F 02 00", "12 04 00 01 3F 00 01", "12 04 00 FF FF 01 00"):
        for port in (0, 1):
            bench.same(bytes.fromhex("92 01 00 B0"), bench.message(bytes.fromhex(message), port))


@case("01-scope, Messages, FETCH", "a count of 0 or 257 is $84 first, past the area too")
def _(bench: Bench) -> None:
    for address in ("00 00", "FF 3F", "00 40", "FF FF"):
        for count in ("00 00", "01 01", "FF FF"):
            bench.same(bytes.fromhex("92 01 00 84"), bench.message(bytes.fromhex(f"12 04 00 {address} {count}")))


@case("01-scope, Messages, LOAD", "an end at 16,384 is inside; one byte more is $B0, and the area is unchanged")
def _(bench: Bench) -> None:
    bench.same(bytes.fromhex("91 01 00 01"), bench.message(bytes.fromhex("11 03 00 FF 3F 41")))
    bench.same(bytes(AREA - 1) + b"A", bench.state.areas[0])
    bench.same(bytes.fromhex("91 01 00 01"), bench.message(bytes.fromhex("11 02 01 00 3F") + LAST))
    bench.same(bytes.fromhex("91 01 00 01"), bench.message(bytes.fromhex("11 03 00 FF 3F 43"), 1))
    areas = (bytes(16_128) + LAST, bytes(AREA - 1) + b"C")
    bench.same(areas, bench.state.areas)
    for message in ("11 03 00 00 40 42", "11 04 00 FF 3F 42 42", "11 02 01 01 3F" + 256 * " 42", "11 03 00 FF FF 42"):
        for port in (0, 1):
            bench.same(bytes.fromhex("91 01 00 B0"), bench.message(bytes.fromhex(message), port))
            bench.same(areas, bench.state.areas)


@case("01-scope, Messages, LOAD", "lengths 3 and 258 load; 2 and 259 are $FF with $84, and the area is unchanged")
def _(bench: Bench) -> None:
    for message in ("11 02 00 00 00", "11 03 01 00 00" + 257 * " 42"):
        bench.same(bytes.fromhex("FF 01 00 84"), bench.message(bytes.fromhex(message)))
        bench.same(bytes(AREA), bench.state.areas[0])
    bench.same(bytes.fromhex("91 01 00 01"), bench.message(bytes.fromhex("11 03 00 00 00 41")))
    bench.same(b"A" + bytes(AREA - 1), bench.state.areas[0])
    bench.same(bytes.fromhex("91 01 00 01"), bench.message(bytes.fromhex("11 02 01 00 00") + LAST))
    bench.same(LAST + bytes(AREA - 256), bench.state.areas[0])


@case("01-scope, Messages", "a known tag with another length is $FF with $84: its value is dropped, the next is heard")
def _(bench: Bench) -> None:
    for tag, lengths in ((0x10, (0, 8, 10, 265)), (0x11, (0, 1, 2, 259, 260)), (0x12, (0, 3, 5, 260))):
        for length in lengths:
            bench.same(bytes.fromhex("FF 01 00 84"), bench.message(wire.field(tag, bytes(length))))
            bench.same(bytes.fromhex("91 01 00 01"), bench.message(LOAD_EDITOR))


@case("01-scope, Messages", "an unknown tag is $FF with $92, whatever its length; the next is heard")
def _(bench: Bench) -> None:
    for tag in (0x00, 0x0F, 0x13, 0x90, 0xFF):
        for length in (0, 3, 4, 9, 258, 259):
            bench.same(bytes.fromhex("FF 01 00 92"), bench.message(wire.field(tag, bytes(length))))
            bench.same(bytes.fromhex("91 01 00 01"), bench.message(LOAD_EDITOR))


@case("01-scope, Statuses, $86", "IOCB 7 works; 8 and 255 are $86 before all else, a bad command too")
def _(bench: Bench) -> None:
    bench.open(b"P:", WRITE, iocb=7)
    bench.put(b"A", iocb=7)
    bench.same(CallReply(OK, 0, 0), bench.call(Command.GET_STATUS, iocb=7))
    bench.same(CallReply(OK, 0, 0), bench.call(Command.CLOSE, iocb=7))
    bench.same(CallReply(0x85, 0, 0), bench.call(Command.PUT_CHARACTERS, length=1, iocb=7))
    for iocb in (8, 255):
        for command in range(16):
            bench.same(CallReply(0x86, 0, 0), bench.call(command, AREA - 1, 2, iocb=iocb))
    bench.paper(b"A")


@case("01-scope, Statuses, $B0", "GET at 16,383: n 1 passes, n 2 is $B0; at 16,384 n 1 is $B0, n 0 does not look")
def _(bench: Bench) -> None:
    bench.editor()
    bench.put(b"AB\x9b" + bytes([UP]))
    bench.same(CallReply(OK, 1, 0), bench.call(Command.GET_CHARACTERS, AREA - 1, 1))
    bench.same(b"A", bench.fetch(1, AREA - 1))
    for command in (Command.GET_RECORD, Command.GET_CHARACTERS):
        for address, length in ((AREA - 1, 2), (AREA, 1), (1, AREA), (0, AREA + 1), (0xFFFF, 0xFFFF)):
            bench.same(CallReply(0xB0, 0, 0), bench.call(command, address, length))
    bench.same(b"A", bench.fetch(1, AREA - 1))
    bench.same(CallReply(OK, 0, 0x42), bench.call(Command.GET_CHARACTERS, AREA))
    bench.same(CallReply(OK, 0, EOL), bench.call(Command.GET_RECORD, 0xFFFF))


@case("01-scope, Statuses", "the reply's A is the request's: after every command, after refusals, after transfers")
def _(bench: Bench) -> None:
    bench.load(b"P:", SPECIFICATION)
    bench.load(b"A")
    for command, length, aux1, reply in (
        (0x0A, 0, 0, CallReply(0x84, 0, 0x5A)),
        (Command.PUT_CHARACTERS, 0, 0, CallReply(0x85, 0, 0x5A)),
        (Command.GET_CHARACTERS, 0, 0, CallReply(0x85, 0, 0x5A)),
        (Command.OPEN, 0, READ, CallReply(0x84, 0, 0x5A)),
        (Command.OPEN, 0, WRITE, CallReply(OK, 0, 0x5A)),
        (Command.OPEN, 0, WRITE, CallReply(0x81, 0, 0x5A)),
        (Command.GET_CHARACTERS, 0, 0, CallReply(0x83, 0, 0x5A)),
        (Command.PUT_CHARACTERS, AREA, 0, CallReply(0xB0, 0, 0x5A)),
        (Command.PUT_CHARACTERS, 1, 0, CallReply(OK, 1, 0x5A)),
        (Command.PUT_RECORD, 1, 0, CallReply(OK, 1, 0x5A)),
        (Command.PUT_CHARACTERS, 0, 0, CallReply(OK, 0, 0x5A)),
        (Command.PUT_RECORD, 0, 0, CallReply(OK, 0, 0x5A)),
        (Command.GET_STATUS, 0, 0, CallReply(OK, 0, 0x5A)),
        (0x0E, 0, 0, CallReply(0x84, 0, 0x5A)),
        (Command.CLOSE, 0, 0, CallReply(OK, 0, 0x5A)),
        (Command.CLOSE, 0, 0, CallReply(OK, 0, 0x5A)),
    ):
        address = SPECIFICATION if command == Command.OPEN else BUFFER
        bench.same(reply, bench.call(command, address, length, aux1, a=0x5A))
    bench.paper(b"AA\x9bZZ")


@case("01-scope, Statuses", "the reply's A is the character after a read of length 0, status below $80, and only then")
def _(bench: Bench) -> None:
    bench.keyboard()
    for command in (Command.GET_CHARACTERS, Command.GET_RECORD):
        bench.same(CallReply(0x88, 0, 0x5A), bench.call(command, a=0x5A))
        bench.press(0x3F)
        bench.same(CallReply(OK, 0, 0x41), bench.call(command, a=0x5A))
        bench.press(0x3F)
        bench.same(CallReply(OK, 1, 0x5A), bench.call(Command.GET_CHARACTERS, length=1, a=0x5A))
        bench.same(b"A", bench.fetch(1))


AUX1 = {b"E:": (READ, 0x84), b"S:": (0x10, 0x91), b"K:": (WRITE, 0x84), b"P:": (READ, 0x84)}
"""The bit of AUX1 that a device refuses, and the status; E takes its own beside bit 0."""


@case("01-scope, OPEN", "AUX1 bit by bit: E refuses R alone, K W and P R with $84, S bit 4 with $91; the others none")
def _(bench: Bench) -> None:
    for specification, (refused, status) in AUX1.items():
        for bit in (0x01, 0x02, 0x04, 0x08, 0x10, 0x20, 0x40, 0x80):
            bench.open(specification, bit, 3, status=status if bit == refused else OK)
            block = bench.state.blocks[0][0]
            opened = (False, 0) if bit == refused else (True, bit)
            bench.same((specification, bit, *opened), (specification, bit, block.is_open, block.aux1))
            bench.same(CallReply(OK, 0, 0), bench.call(Command.CLOSE))


@case("01-scope, OPEN", "AUX1, all 256 values: the same bits refuse beside others; E takes R with bit 0, forced read")
def _(bench: Bench) -> None:
    for specification, (refused, status) in AUX1.items():
        for aux1 in range(256):
            offered = not aux1 & refused or specification == b"E:" and aux1 & FORCED
            bench.open(specification, aux1, 3, status=OK if offered else status)
            bench.same(CallReply(OK, 0, 0), bench.call(Command.CLOSE))


@case("01-scope, OPEN", "the area's last byte: a colon opens, a letter or digit is $B0, an unknown letter or digit $82")
def _(bench: Bench) -> None:
    for iocb, specification in enumerate((b"P:", b"P8:")):
        bench.load(specification, AREA - len(specification))
        bench.same(CallReply(OK, 0, 0), bench.call(3, AREA - len(specification), aux1=WRITE, iocb=iocb))
    for specification, status in ((b"P", 0xB0), (b"P8", 0xB0), (b"R", 0x82), (b"P9", 0x82)):
        bench.load(specification, AREA - len(specification))
        bench.same(CallReply(status, 0, 0), bench.call(3, AREA - len(specification), aux1=WRITE, iocb=7))
    bench.same(CallReply(0xB0, 0, 0), bench.call(3, AREA, aux1=WRITE, iocb=7))


ROW = b"ABCDEFGHIJKLMNOPQRSTUVWXYZabcdefghijkl"
"""The 38 characters of a row of mode 0."""


@case("01-scope, E", "records of 0, 1, 37, 38 and 39 characters on a blank row, read back; from 38 on two rows down")
def _(bench: Bench) -> None:
    # The record, its row, the cursor's row after it, how far up the record is then, the cursor's row after the read.
    for record, start, after, up, end in (
        (b"", 0, 1, 1, 1),
        (b"A", 0, 1, 1, 1),
        (ROW[:37], 0, 1, 1, 1),
        (ROW, 0, 2, 2, 1),
        (ROW + b"m", 0, 2, 2, 1),
        (b"", 22, 23, 1, 23),
        (b"A", 22, 23, 1, 23),
        (ROW[:37], 22, 23, 1, 23),
        (ROW, 22, 23, 2, 22),
        (ROW + b"m", 22, 23, 2, 22),
        (b"", 23, 23, 1, 23),
        (b"A", 23, 23, 1, 23),
        (ROW[:37], 23, 23, 1, 23),
        (ROW, 23, 23, 2, 22),
        (ROW + b"m", 23, 23, 2, 22),
    ):
        bench.fresh()
        bench.editor()
        if start:
            bench.put(bytes([EOL] * start))
        # An empty record is its EOL: with length 0 there is no record rule.
        bench.put_record(record or bytes([EOL]))
        bench.same((after, 2), bench.cursor)
        bench.put(bytes([UP] * up))
        bench.row(after - up, record[:38])
        bench.get_record(80, record[:38] + b"\x9b")
        bench.same((end, 2), bench.cursor)


@case("01-scope, E", "38 characters fit a buffer of 39 and are cut by one of 38, $89; an EOL by A is an empty record")
def _(bench: Bench) -> None:
    for length, expected, status in ((39, ROW + b"\x9b", OK), (38, ROW, 0x89), (37, ROW[:37], 0x89)):
        bench.fresh()
        bench.editor()
        bench.put_record(ROW, 38)
        bench.put(bytes([UP, UP]))
        bench.get_record(length, expected, status)
        bench.same((1, 2), bench.cursor)
    bench.fresh()
    bench.editor()
    bench.same(CallReply(OK, 0, EOL), bench.call(Command.PUT_RECORD, a=EOL))
    bench.same((1, 2), bench.cursor)
    bench.put(bytes([UP]))
    bench.get_record(1, b"\x9b")


@case("01-scope, E", "column 39: a character there is read behind blanks, a blank is not, and no read begins there")
def _(bench: Bench) -> None:
    blanks = b" " * 37
    for record, expected in ((blanks + b"Z", blanks + b"Z\x9b"), (ROW[:37] + b" ", ROW[:37] + b"\x9b")):
        bench.fresh()
        bench.editor()
        bench.put_record(record, 38)
        bench.same((2, 2), bench.cursor)
        bench.put(bytes([UP, UP, LEFT]))
        bench.same((0, 39), bench.cursor)
        bench.get_record(80, expected)
        bench.same((1, 2), bench.cursor)
    bench.fresh()
    bench.editor()
    bench.put(ROW + bytes([UP]))
    bench.get(38, ROW)
    bench.same((40, 0, 2), (bench.state.read_column, *bench.cursor))
    bench.get(1, b"\x9b")
    bench.same((None, 1, 2), (bench.state.read_column, *bench.cursor))


@case("01-scope, P", "byte 4,096 is printed, the next is $90: of characters, of a record and its EOL, by A")
def _(bench: Bench) -> None:
    data = bytes(place % 251 for place in range(4095))
    for last in ("characters", "record", "A"):
        bench.fresh()
        bench.printer()
        bench.put(data)
        if last == "characters":
            bench.put(b"Z")
        elif last == "record":
            bench.put(b"Z", 1, 0x90, command=Command.PUT_RECORD)
        else:
            bench.same(CallReply(OK, 0, 0x5A), bench.call(Command.PUT_CHARACTERS, a=0x5A))
        bench.paper(data + b"Z")
        bench.put(b"Y", 0, 0x90)
        bench.put(b"Y", 0, 0x90, command=Command.PUT_RECORD)
        bench.same(CallReply(0x90, 0, 0x59), bench.call(Command.PUT_CHARACTERS, a=0x59))
        bench.paper(data + b"Z")


# the manual: central I/O utility


@case("manual, CIO Calling Mechanism", "the example of IOCB #2: an error status has its most significant bit set")
def _(bench: Bench) -> None:
    bench.same(CallReply(0x85, 0, 0), bench.call(Command.GET_RECORD, length=1, iocb=2))
    bench.open(b"E:", EDITOR, iocb=2)
    bench.put(b"A", iocb=2)


@case("manual, Multiple Device/File Concurrency", "up to eight device/files, each independent of the others")
def _(bench: Bench) -> None:
    for iocb in range(BLOCKS):
        bench.open(b"P:" if iocb % 2 else b"E:", WRITE, iocb=iocb)
    bench.open(b"P:", WRITE, iocb=BLOCKS, status=0x86)
    for iocb in range(BLOCKS):
        bench.put(b"%d" % iocb, iocb=iocb)
    bench.row(0, b"0246")
    bench.paper(b"1357")


@case("manual, OPEN", "device and number come from the specification, the direction from AUX1; an open block is $81")
def _(bench: Bench) -> None:
    bench.open(b"P2:", WRITE, iocb=5)
    block = bench.state.blocks[0][5]
    bench.same((True, "P", 2, WRITE), (block.is_open, block.device, block.number, block.aux1))
    bench.open(b"P2:", WRITE, iocb=5, status=0x81)


@case("manual, Auxiliary Information", "R and W of OPEN: reading without R is $83, writing without W is $87")
def _(bench: Bench) -> None:
    for specification, reading in ((b"E:", READ | FORCED), (b"S:", READ)):
        bench.fresh()
        bench.open(specification, WRITE, 3)
        bench.get(1, b"", 0x83)
        bench.open(specification, reading, 3, iocb=1)
        bench.put(b"A", 0, 0x87, iocb=1)


@case("manual, Buffer Length/Byte Count", "after an end of file or an error the count is less than the buffer length")
def _(bench: Bench) -> None:
    bench.keyboard()
    bench.press(0x3F)
    bench.get(5, b"A", 0x88)
    bench.open(b"S:", WRITE, 3, iocb=1)
    bench.put(bytes(1000), 960, 0x8D, iocb=1)


@case("manual, Central I/O Utility", "writing until there is no more medium: 4,096 bytes of paper, then $90")
def _(bench: Bench) -> None:
    bench.printer()
    data = bytes(place % 251 for place in range(4097))
    bench.put(data, 4096, 0x90)
    bench.paper(data[:4096])


@case("manual, CLOSE", "the block is released and used for another device")
def _(bench: Bench) -> None:
    bench.printer()
    bench.same(CallReply(OK, 0, 0), bench.call(Command.CLOSE))
    bench.same(False, bench.state.blocks[0][0].is_open)
    bench.editor()
    bench.put(b"A")
    bench.row(0, b"A")
    bench.paper(b"")


@case("manual, GET CHARACTERS", "EOLs end nothing: n bytes over several records, the next GET goes on behind them")
def _(bench: Bench) -> None:
    bench.editor()
    bench.put(b"AB\x9bC\x9bDEF\x9b" + bytes([UP] * 3))
    bench.get(6, b"AB\x9bC\x9bD")
    bench.get(3, b"EF\x9b")


@case("manual, GET CHARACTERS", "length 0: the data is returned in A only")
def _(bench: Bench) -> None:
    bench.editor()
    bench.put(b"AB\x9b" + bytes([UP]))
    bench.load(b"\x55")
    for expected in b"AB\x9b":
        bench.same(CallReply(OK, 0, expected), bench.call(Command.GET_CHARACTERS))
    bench.same(b"\x55", bench.fetch(1))


@case("manual, PUT CHARACTERS", "EOLs end nothing, and none is generated")
def _(bench: Bench) -> None:
    bench.printer()
    bench.put(b"A\x9bB")
    bench.paper(b"A\x9bB")


@case("manual, PUT CHARACTERS", "length 0: one character is passed in A")
def _(bench: Bench) -> None:
    bench.printer()
    bench.load(b"\x55")
    bench.same(CallReply(OK, 0, 0x41), bench.call(Command.PUT_CHARACTERS, a=0x41))
    bench.paper(b"A")


@case("manual, GET RECORD", "the EOL is put into the buffer; the count may be less than the buffer length")
def _(bench: Bench) -> None:
    bench.editor()
    bench.put(b"ABC\x9b" + bytes([UP]))
    bench.get_record(80, b"ABC\x9b")


@case("manual, GET RECORD", "a truncated record: no EOL in the buffer, $89, the next read begins at the next record")
def _(bench: Bench) -> None:
    bench.editor()
    bench.put(b"ABCDEF\x9bGH\x9b" + bytes([UP, UP]))
    bench.get_record(4, b"ABCD", 0x89)
    bench.get_record(4, b"GH\x9b")


@case("manual, PUT RECORD", "written until an EOL is; what follows it is not")
def _(bench: Bench) -> None:
    bench.printer()
    bench.put_record(b"AB\x9bCD", 3)
    bench.paper(b"AB\x9b")


@case("manual, PUT RECORD", "a buffer without EOL is sent with one after it")
def _(bench: Bench) -> None:
    bench.printer()
    bench.put_record(b"AB", 2)
    bench.put_record(b"C", 1)
    bench.paper(b"AB\x9bC\x9b")


@case("manual, GET STATUS and Implied OPEN Option", "an unopened block is opened for it and closed again; $01")
def _(bench: Bench) -> None:
    for specification, aux2 in ((b"E:", 0), (b"S:", 3), (b"K:", 0), (b"P:", 0)):
        bench.open(specification, 0, aux2, command=Command.GET_STATUS)
        bench.same(False, bench.state.blocks[0][0].is_open)
    bench.printer()
    bench.same(CallReply(OK, 0, 0), bench.call(Command.GET_STATUS))
    bench.same(True, bench.state.blocks[0][0].is_open)


@case("manual, SPECIAL and Implied OPEN Option", "any command above $0D goes to the handler, here always $84")
def _(bench: Bench) -> None:
    for command in range(0x0E, 0x100):
        bench.open(b"P:", WRITE, status=0x84, command=command)
        bench.same(False, bench.state.blocks[0][0].is_open)
    bench.printer()
    bench.same(CallReply(0x84, 0, 0), bench.call(0x0E))
    bench.same(True, bench.state.blocks[0][0].is_open)


@case("manual, Device/Filename Specification", "numbers 1 to 8, or none for 1; a filename is passed over")
def _(bench: Bench) -> None:
    numbered = [(b"P%d:\x9b" % number, number) for number in range(1, 9)]
    for specification, number in [(b"P:\x9b", 1), (b"P:NAME\x9b", 1), *numbered]:
        bench.fresh()
        bench.open(specification, WRITE)
        bench.same(number, bench.state.blocks[0][0].number)
    for malformed in (b"P0:", b"P9:", b"P12:", b"P\x9b"):
        bench.open(malformed, WRITE, iocb=1, status=0x82)


# diskettes: one with a file, and what is on it

NAME = b"HELLO   TXT"
HELLO_PLACE, ENTRY_PLACE, FREE_PLACE = 3 * 128, 360 * 128, 359 * 128 + 3
"""Where on a diskette sector 4 is, entry 0 and the free count."""
LINK_PLACE = HELLO_PLACE + 125
"""Where the file number, the link and the data count of sector 4 are."""


def _entry(name: bytes, first: int, *, count: int = 1, flag: int = 0x42) -> bytes:
    """An entry of a directory."""
    return bytes([flag]) + wire.word(count) + wire.word(first) + name


def _sector(file: int, link: int, data: bytes, count: int | None = None) -> bytes:
    """A sector of a file: its characters, its file's number, the next sector, and how many characters it says."""
    return data.ljust(125, b"\0") + bytes([file << 2 | link >> 8, link & 0xFF, len(data) if count is None else count])


def _diskette(entries: Sequence[bytes], sectors: dict[int, bytes], free: int = 706) -> bytes:
    """A diskette with these entries and sectors; the map says that sector 4 alone has a file."""
    bits = b"\x07" + b"\xff" * 44 + b"\x00\x7f" + b"\xff" * 43
    whole = {360: (b"\x02\xc3\x02" + wire.word(free)).ljust(10, b"\0") + bits}
    listed = b"".join(entries)
    whole |= {361 + place: listed[128 * place : 128 * (place + 1)] for place in range(8)}
    whole |= sectors
    return b"".join(whole.get(number, b"").ljust(128, b"\0") for number in range(1, 721))


HELLO = _diskette([_entry(NAME, 4)], {4: _sector(0, 0, b"HI\x9b")})
"""A diskette with one file, HELLO.TXT, of three characters in sector 4."""


@case("manual, Device/Filename Specification", "its examples C:, D2:BDAT, D:HOLD and K: open, each its device and number")
def _(bench: Bench) -> None:
    bench.lend_diskette(_diskette([_entry(b"HOLD       ", 4)], {}))
    bench.lend_diskette(_diskette([_entry(b"BDAT       ", 4)], {}), 2)
    for iocb, (specification, device, number) in enumerate(
        ((b"C:\x9b", "C", 1), (b"D2:BDAT\x9b", "D", 2), (b"D:HOLD\x9b", "D", 1), (b"K:\x9b", "K", 1))
    ):
        bench.open(specification, READ, iocb=iocb)
        block = bench.state.blocks[0][iocb]
        bench.same((True, device, number, READ), (block.is_open, block.device, block.number, block.aux1))


@case("manual, I/O Example (Figure 5-3)", "its steps: D1:TESTER on IOCB #3, records of at most 80 to the end, CLOSE")
def _(bench: Bench) -> None:
    lines = [b"FIRST\x9b", b"x" * 79 + b"\x9b", b"LAST\x9b"]
    bench.lend_diskette(_diskette([_entry(b"TESTER     ", 4)], {4: _sector(0, 0, b"".join(lines))}))
    bench.open(b"D1:TESTER\x9b", READ, iocb=3)
    for line, status in zip(lines, (OK, OK, LAST_CHARACTER)):
        bench.get_record(80, line, status, iocb=3)
    bench.get_record(80, b"", 0x88, iocb=3)
    bench.same(CallReply(OK, 0, 0), bench.call(Command.CLOSE, iocb=3))
    bench.same(False, bench.state.blocks[0][3].is_open)


# the manual: keyboard handler


@case("manual, Keyboard Handler, OPEN", "a read-only device; number and filename are ignored; GET STATUS is $01")
def _(bench: Bench) -> None:
    bench.open(b"K:", WRITE, status=0x84)
    bench.open(b"K4:NAME\x9b", READ)
    bench.put(b"A", 0, 0x87)
    bench.same(CallReply(OK, 0, 0), bench.call(Command.GET_STATUS))


@case("manual, Keyboard Handler, CAPS/LOWR", "caps lock at power-up; unlock, [CTRL] lock, caps lock: letters alone")
def _(bench: Bench) -> None:
    bench.keyboard()
    for lock_key, letter in ((None, 0x41), (CAPS, 0x61), (CONTROL | CAPS, 0x01), (SHIFT | CAPS, 0x41)):
        if lock_key is not None:
            bench.key(lock_key, None)
        bench.key(0x3F, letter)
        bench.key(0x1F, 0x31)
        bench.key(SHIFT | 0x3F, 0x41)
        bench.key(CONTROL | 0x3F, 0x01)


@case("manual, Keyboard Handler, ATARI key", "it inverts bit 7 of data, not of the editing keys, until pressed again")
def _(bench: Bench) -> None:
    bench.keyboard()
    bench.key(INVERSE_KEY, None)
    for code, character in ((0x3F, 0xC1), (0x1F, 0xB1), (0x21, 0xA0), (CONTROL | 0x3F, 0x81)):
        bench.key(code, character)
    editing = {0x0C: EOL, 0x1C: ESCAPE, 0x2C: 0x7F, 0x34: BACKSPACE, SHIFT | 0x2C: 0x9F, SHIFT | 0x37: 0x9D}
    editing |= {CONTROL | code: each for code, each in ((0x0E, UP), (0x0F, DOWN), (0x06, LEFT), (0x07, RIGHT))}
    editing |= {CONTROL | code: each for code, each in ((0x1E, BELL), (0x2C, 0x9E), (0x34, 0xFE), (0x37, 0xFF))}
    for code, character in editing.items():
        bench.key(code, character)
    bench.key(INVERSE_KEY, None)
    bench.key(0x3F, 0x41)


@case("manual, Keyboard Handler", "ignored: [CTRL] 4 to 9, 0, 1, / and all keys with [SHIFT] and [CTRL]")
def _(bench: Bench) -> None:
    bench.keyboard()
    for code in (0x18, 0x1D, 0x1B, 0x33, 0x35, 0x30, 0x32, 0x1F, 0x26):
        bench.key(CONTROL | code, None)
    for code in range(CONTROL | SHIFT, 0x100):
        bench.key(code, None)
    bench.key(0x3F, 0x41)


@case("manual, Keyboard Handler", "[CTRL] 3 returns end-of-file status")
def _(bench: Bench) -> None:
    bench.keyboard()
    bench.key(CONTROL | 0x1A, None)
    bench.press(CONTROL | 0x1A)
    bench.get_record(80, b"", 0x88)


@case("manual, Keyboard Handler, Theory of Operation", "one key is kept, with or without a read; $FF is empty")
def _(bench: Bench) -> None:
    bench.same(0xFF, bench.state.key)
    bench.press(0x00)
    bench.press(0x3F)
    bench.same(0x3F, bench.state.key)
    bench.keyboard()
    bench.get(1, b"A")
    bench.same(0xFF, bench.state.key)
    bench.get(1, b"", 0x88)


FIGURE_5_4 = """
00 L 6C 4C 0C  01 J 6A 4A 0A  02 ; 3B 3A 7B  05 K 6B 4B 0B  06 + 2B 5C 1E  07 * 2A 5E 1F  08 O 6F 4F 0F
0A P 70 50 10  0B U 75 55 15  0C RET .. .. 9B  0D I 69 49 09  0E - .. 5F 1C  0F = .. 7C 1D  10 V 76 56 16
12 C 63 43 03  15 B 62 42 02  16 X 78 58 18  17 Z 7A 5A 1A  18 4 34 24 --  1A 3 33 23 --  1B 6 36 26 --
1C ESC .. 1B 1B  1D 5 35 25 --  1E 2 32 22 FD  1F 1 31 21 --
20 , 2C .. 00  21 SPACE 20 20 20  22 . 2E 5D 60  23 N .. 4E 0E  25 M .. 4D 0D  26 / 2F 3F --  28 R 72 52 12
2A E 65 45 05  2B Y 79 59 19  2C TAB 7F 9F 9E  2D T 74 54 14  2E W 77 57 17  2F Q 71 51 11  30 9 39 28 --
32 0 30 29 --  33 7 37 27 --  34 BACKS 7E .. FE  35 8 38 40 --  36 < .. 7D 7D  37 > 3E 9D FF  38 F 66 46 06
39 H 68 48 08  3A D 64 44 04  3D G 67 47 07  3E S 73 53 13  3F A 61 41 01
"""
"""Key code, key cap, lower case, [SHIFT], [CTRL]: -- no character, as [CTRL] 3 (end of file); .. misread."""


@case("manual, Figure 5-4", "key code to ATASCII: every entry that the scan has legibly")
def _(bench: Bench) -> None:
    bench.keyboard()
    bench.key(CAPS, None)
    words = FIGURE_5_4.split()
    for at in range(0, len(words), 5):
        code = int(words[at], 16)
        for block, entry in zip((0, SHIFT, CONTROL), words[at + 2 : at + 5]):
            if entry != "..":
                bench.key(block | code, None if entry == "--" else int(entry, 16))


@case("01-scope, key table", "all 192 codes without a lock: a character, or none and $88")
def _(bench: Bench) -> None:
    for code, entry in enumerate(keys.TABLE):
        bench.fresh()
        bench.keyboard()
        bench.key(CAPS, None)
        bench.key(code, None if 0x80 <= entry <= 0x85 else entry)


# the manual: display handler

MODES = {3: (40, 24, 4), 4: (80, 48, 2), 5: (80, 48, 4), 6: (160, 96, 2), 7: (160, 96, 4), 8: (320, 192, 2)}
"""Columns, rows and colours, by 01-scope."""


@case("01-scope, table of modes", "S: columns, then rows, then $8D; each mode's own")
def _(bench: Bench) -> None:
    for mode, (columns, rows, _) in MODES.items():
        bench.fresh()
        bench.open(b"S:", WRITE, mode)
        bench.same((mode, 0, 0), (bench.state.mode, *bench.cursor))
        bench.put(b"\x01" * (columns - 1))
        bench.same((0, columns - 1), bench.cursor)
        bench.put(b"\x01")
        bench.same((1, 0), bench.cursor)
        bench.put(bytes([EOL] * (rows - 1)))
        bench.same((rows, 0), bench.cursor)
        bench.put(b"\x01", 0, 0x8D)


@case("01-scope, table of modes", "E: mode 0 of 40 by 24 takes 256 colours, which are characters")
def _(bench: Bench) -> None:
    bench.editor()
    state = bench.state
    bench.same((0, bytes([BLANK]) * 960, b"\x00"), (state.mode, state.screen[:960], state.screen[960:961]))
    data = bytes(byte for byte in range(256) if byte not in CONTROL_CODES)
    bench.put(data)
    for row in range(7):
        bench.row(row, data[38 * row : 38 * (row + 1)])


@case("manual, Figures 5-6 and 5-7", "PUT takes the low bits, 2 in modes 3, 5, 7 and 1 in 4, 6, 8; GET has zeros above")
def _(bench: Bench) -> None:
    for mode, bits in ((3, 2), (4, 1), (5, 2), (6, 1), (7, 2), (8, 1)):
        bench.fresh()
        bench.open(b"S:", WRITE, mode)
        data = bytes(byte for byte in range(256) if byte not in (CLEAR, EOL))
        bench.put(data)
        bench.open(b"S:", READ | KEEP, mode, iocb=1)
        bench.same(CallReply(OK, len(data), 0), bench.call(Command.GET_CHARACTERS, length=len(data), iocb=1))
        bench.same(bytes(byte & (1 << bits) - 1 for byte in data), bench.fetch(len(data)))


@case("manual, Display Handler, NOTE", "in all modes $9B is an EOL and $7D clears the screen, home position (0,0)")
def _(bench: Bench) -> None:
    for mode, (columns, _, _) in MODES.items():
        bench.fresh()
        bench.open(b"S:", WRITE, mode)
        bench.put(b"\x01\x9b\x01")
        bench.same((1, 1), bench.cursor)
        bench.same((1, 0, 1), (bench.state.screen[0], bench.state.screen[1], bench.state.screen[columns]))
        bench.put(bytes([CLEAR]))
        bench.same((0, 0), bench.cursor)
        bench.same(bytes(columns + 1), bench.state.screen[: columns + 1])


@case("manual, Display Handler, GET and PUT", "the cursor moves on with each byte and ignores the margins")
def _(bench: Bench) -> None:
    bench.open(b"S:", READ | WRITE, 3)
    bench.put(bytes(place % 4 for place in range(41)))
    bench.same((1, 1), bench.cursor)
    bench.open(b"S:", READ | KEEP, 3, iocb=1)
    bench.get(41, bytes(place % 4 for place in range(41)))
    bench.same((1, 1), bench.cursor)


@case("manual, Display Handler, OPEN", "C = 1 inhibits the screen clear, C = 0 does not; number, filename ignored")
def _(bench: Bench) -> None:
    bench.open(b"S:", WRITE, 5)
    bench.put(b"\x03\x02")
    bench.open(b"S7:NAME\x9b", READ | KEEP, 5, iocb=1)
    bench.same((b"\x03\x02", 0, 0), (bench.state.screen[:2], *bench.cursor))
    bench.open(b"S:", READ, 5, iocb=2)
    bench.same(bytes(2), bench.state.screen[:2])


@case("manual, Display Handler, error statuses", "$84 special command, $8D cursor out of range, $91 mode above 11")
def _(bench: Bench) -> None:
    for mode in range(12, 256):
        bench.open(b"S:", READ | WRITE, mode, status=0x91)
    bench.open(b"S:", READ | WRITE, 3)
    bench.same(CallReply(0x84, 0, 0), bench.call(0x0E))
    bench.put(bytes(960))
    bench.put(b"\x01", 0, 0x8D)
    bench.get(1, b"", 0x8D)
    bench.same(CallReply(OK, 0, 0), bench.call(Command.GET_STATUS))


@case("manual, FILL (ATACHR)", "the last character is the last data read or written")
def _(bench: Bench) -> None:
    bench.open(b"S:", READ | WRITE, 3)
    bench.put(b"\x05\x06")
    bench.same(6, bench.state.last)
    bench.open(b"S:", READ | KEEP, 3, iocb=1)
    bench.get(1, b"\x01")
    bench.same(1, bench.state.last)


@case("01-scope, Not built now", "modes 0, 1, 2, 9, 10, 11 and split screens are $91, DRAW and FILL are $84")
def _(bench: Bench) -> None:
    for mode in (0, 1, 2, 9, 10, 11):
        bench.open(b"S:", READ | WRITE, mode, status=0x91)
    bench.open(b"S:", READ | WRITE | 0x10, 3, status=0x91)
    bench.open(b"S:", READ | WRITE, 3)
    for command in (0x11, 0x12):
        bench.same(CallReply(0x84, 0, 0), bench.call(command))


@case("01-scope, S", "each mode's last cell: a byte is got back modulo the colours; the next PUT and GET are $8D")
def _(bench: Bench) -> None:
    for mode, (columns, rows, colours) in MODES.items():
        for byte in (0xFC, 0xFD, 0xFE, 0xFF):
            bench.fresh()
            bench.open(b"S:", READ | WRITE, mode)
            bench.put(bytes([EOL] * (rows - 1)) + bytes(columns - 1))
            bench.same((rows - 1, columns - 1), bench.cursor)
            bench.put(bytes([byte]))
            _past_the_last_row(bench, rows)
            bench.same(CallReply(OK, 0, 0), bench.call(Command.CLOSE))
            bench.open(b"S:", READ | WRITE | KEEP, mode)
            bench.put(bytes([EOL] * (rows - 1)))
            bench.get(columns - 1, bytes(columns - 1))
            bench.get(1, bytes([byte % colours]))
            _past_the_last_row(bench, rows)


def _past_the_last_row(bench: Bench, rows: int) -> None:
    """All but $7D are $8D there, and change nothing."""
    screen = bench.state.screen
    bench.put(b"\x01", 0, 0x8D)
    bench.put(bytes([EOL]), 0, 0x8D)
    bench.get(1, b"", 0x8D)
    bench.same((screen, rows, 0), (bench.state.screen, *bench.cursor))


@case("01-scope, S", "$7D past the last row clears; a record whose EOL is past it is $8D, and its characters count")
def _(bench: Bench) -> None:
    for mode, (columns, rows, _) in MODES.items():
        bench.fresh()
        bench.open(b"S:", WRITE, mode)
        bench.put(bytes([EOL] * (rows - 1)))
        bench.put(b"\x01" * columns, columns, 0x8D, command=Command.PUT_RECORD)
        bench.same(b"\x01" * columns, bench.state.screen[columns * (rows - 1) : columns * rows])
        bench.put(bytes([CLEAR]))
        bench.same((bytes(columns * rows), 0, 0), (bench.state.screen[: columns * rows], *bench.cursor))


@case("01-scope, S", "OPEN zeroes a mode's cells to the last, or keeps them; the first cell past the mode stays")
def _(bench: Bench) -> None:
    for mode in (3, 4, 5, 6, 7):
        columns, rows, _ = MODES[mode]
        end = columns * rows
        for aux1, last in ((WRITE, 0), (WRITE | KEEP, 1)):
            bench.fresh()
            # Mode 8 has 320 columns, and each smaller mode ends with one of its rows.
            bench.open(b"S:", WRITE, 8)
            bench.put(bytes([EOL] * (end // 320 - 1)) + bytes(319) + b"\x01\x01")
            bench.open(b"S:", aux1, mode, iocb=1)
            bench.same(bytes([last, 1]), bench.state.screen[end - 1 : end + 1])
    # Kept cells are taken modulo the colours: $FF in column 39 of E's row 22, blanks elsewhere.
    bench.fresh()
    bench.editor()
    bench.put(bytes([UP, LEFT, ESCAPE, 0xFF]))
    bench.row(22, bytes(37 * [BLANK]) + b"\xff")
    bench.open(b"S:", WRITE | KEEP, 3, iocb=1)
    bench.same(bytes(919) + b"\x03" + bytes(41), bench.state.screen[:961])


# the manual: screen editor


@case("manual, Text Mode 0", "margins 2 and 39: a character past the right one goes to the left of the next row")
def _(bench: Bench) -> None:
    bench.editor()
    bench.same((0, 2), bench.cursor)
    bench.put(b"A" * 37)
    bench.same((0, 39), bench.cursor)
    bench.put(b"BC")
    bench.row(0, b"A" * 37 + b"B")
    bench.row(1, b"C")
    bench.same((1, 3), bench.cursor)


@case("manual, Text Mode 0", "a line at the bottom that extends past the right margin, or ends, scrolls the screen")
def _(bench: Bench) -> None:
    for last in (b"Z" * 38, b"Z\x9b"):
        bench.fresh()
        bench.editor()
        bench.put(b"A\x9bB\x9b" + b"\x9b" * 21)
        bench.same((23, 2), bench.cursor)
        bench.row(0, b"A")
        bench.put(last)
        bench.same((23, 2), bench.cursor)
        bench.row(0, b"B")
        bench.row(22, last.rstrip(b"\x9b"))
        bench.row(23, b"")


@case("manual, Screen Editor", "trailing blanks are never returned, blanks between are; many reads may take a line")
def _(bench: Bench) -> None:
    bench.editor()
    bench.put(b"A  B   \x9b" + bytes([UP]))
    for expected in (b"A", b"  ", b"B", b"\x9b"):
        bench.get(len(expected), expected)
    bench.same((1, 2), bench.cursor)


@case("manual, Screen Editor, GET", "a forced read takes the cursor's line from its start, the cursor goes to the next")
def _(bench: Bench) -> None:
    bench.editor()
    bench.put(b"AB\x9bCDE")
    bench.same((1, 5), bench.cursor)
    bench.get_record(80, b"CDE\x9b")
    bench.same((2, 2), bench.cursor)


@case("manual, Screen Editor, GET", "a read of the last line scrolls the screen")
def _(bench: Bench) -> None:
    bench.editor()
    bench.put(b"A\x9bB" + b"\x9b" * 22 + b"Z")
    bench.get_record(80, b"Z\x9b")
    bench.same((23, 2), bench.cursor)
    bench.row(0, b"B")
    bench.row(22, b"Z")
    bench.row(23, b"")


@case("manual, Screen Editor, PUT", "sixteen of the 256 characters are control codes, all others are displayed")
def _(bench: Bench) -> None:
    for byte in range(256):
        bench.fresh()
        bench.editor()
        bench.put(bytes([byte]))
        if byte in CONTROL_CODES:
            bench.same(bytes([BLANK]) * 960, bench.state.screen[:960])
        else:
            bench.row(0, bytes([byte]))
            bench.same((0, 3), bench.cursor)


@case("manual, CLEAR", "$7D clears all data; the home position is at the left margin")
def _(bench: Bench) -> None:
    bench.editor()
    bench.put(b"A\x9bB\x9bC" + bytes([CLEAR]))
    bench.same((bytes([BLANK]) * 960, 0, 2), (bench.state.screen[:960], *bench.cursor))


def _moves(bench: Bench, *moves: tuple[int, int, int]) -> None:
    """Control codes, each with the row and column where the cursor is then."""
    for code, row, column in moves:
        bench.put(bytes([code]))
        bench.same((row, column), bench.cursor)
    bench.same(bytes([BLANK]) * 960, bench.state.screen[:960])


@case("manual, CURSOR UP", "$1C: up by one line, from the top line to the bottom line")
def _(bench: Bench) -> None:
    bench.editor()
    _moves(bench, (RIGHT, 0, 3), (UP, 23, 3), (UP, 22, 3))


@case("manual, CURSOR DOWN", "$1D: down by one line, from the bottom line to the top line")
def _(bench: Bench) -> None:
    bench.editor()
    _moves(bench, (RIGHT, 0, 3), *((DOWN, row, 3) for row in range(1, 24)), (DOWN, 0, 3))


@case("manual, CURSOR LEFT", "$1E: left by one column, from the left margin to the right margin of the line")
def _(bench: Bench) -> None:
    bench.editor()
    _moves(bench, (DOWN, 1, 2), (LEFT, 1, 39), (LEFT, 1, 38))


@case("manual, CURSOR RIGHT", "$1F: right by one column, from the right margin to the left margin of the line")
def _(bench: Bench) -> None:
    bench.editor()
    _moves(bench, (DOWN, 1, 2), *((RIGHT, 1, column) for column in range(3, 40)), (RIGHT, 1, 2))


@case("manual, BACKSPACE", "$7E: left by one column and blank there, never past the beginning of the line")
def _(bench: Bench) -> None:
    bench.editor()
    bench.put(b"AB" + bytes([BACKSPACE]))
    bench.row(0, b"A")
    bench.same((0, 3), bench.cursor)
    bench.put(bytes([BACKSPACE] * 3))
    bench.row(0, b"")
    bench.same((0, 2), bench.cursor)


@case("manual, ESCAPE", "$1B: the next character is displayed as data; [ESC][ESC] displays the second")
def _(bench: Bench) -> None:
    data = bytes(byte for byte in range(256) if byte != EOL)
    bench.editor()
    bench.put(bytes([ESCAPE, ESCAPE]))
    bench.row(0, bytes([ESCAPE]))
    bench.put(bytes([CLEAR]))
    bench.put(b"".join(bytes([ESCAPE, byte]) for byte in data))
    for row in range(7):
        bench.row(row, data[38 * row : 38 * (row + 1)])


@case("manual, ESCAPE", "an EOL after it is an EOL all the same")
def _(bench: Bench) -> None:
    bench.editor()
    bench.put(b"A" + bytes([ESCAPE, EOL]) + b"B")
    bench.row(0, b"A")
    bench.row(1, b"B")


@case("manual, BELL", "$FD: the display is not modified")
def _(bench: Bench) -> None:
    bench.editor()
    bench.put(b"A" + bytes([BELL]))
    bench.row(0, b"A")
    bench.same((0, 3), bench.cursor)


@case("01-scope, E", "TAB, SET TAB, CLEAR TAB, INSERT and DELETE of lines and characters do nothing")
def _(bench: Bench) -> None:
    bench.editor()
    bench.put(b"AB\x9bCD\x9b" + bytes([UP, RIGHT]))
    for code in (0x7F, 0x9F, 0x9E, 0x9D, 0x9C, 0xFF, 0xFE):
        bench.put(bytes([code]))
        bench.same((1, 3), bench.cursor)
        for row, expected in enumerate((b"AB", b"CD", b"")):
            bench.row(row, expected)


@case("manual, END OF LINE", "$9B: to the beginning of the next line; on the bottom line the screen scrolls")
def _(bench: Bench) -> None:
    bench.editor()
    bench.put(b"A\x9b" + b"\x9b" * 22)
    bench.same((23, 2), bench.cursor)
    bench.row(0, b"A")
    bench.put(b"B\x9b")
    bench.same((23, 2), bench.cursor)
    bench.row(0, b"")
    bench.row(22, b"B")


@case("manual, Screen Editor, OPEN and GET STATUS", "number and filename are ignored; GET STATUS is $01")
def _(bench: Bench) -> None:
    bench.open(b"E3:NAME\x9b", EDITOR)
    bench.same(CallReply(OK, 0, 0), bench.call(Command.GET_STATUS))


# the manual: printer handler


@case("manual, Printer Handler", "a write-only device; number and filename are ignored; GET STATUS is $01")
def _(bench: Bench) -> None:
    bench.open(b"P:", READ, status=0x84)
    bench.open(b"P2:NAME\x9b", WRITE)
    bench.get(1, b"", 0x83)
    bench.put_record(b"TEN BOXES")
    bench.same(CallReply(OK, 0, 0), bench.call(Command.GET_STATUS))
    bench.paper(b"TEN BOXES\x9b")


@case("manual, Printer Handler, print option", "AUX2 $4E, $53, $57 or any other value gives no error status")
def _(bench: Bench) -> None:
    for mode in range(256):
        bench.open(b"P:", WRITE, mode)
        bench.put(b"A")
        bench.same(CallReply(OK, 0, 0), bench.call(Command.CLOSE))
    bench.paper(b"A" * 256)


# 02-change-requests, Ask 1, and the manual: cassette handler

TAPE = "02-change-requests, Ask 1"
HEAD = script.TAPE
"""Where in a dump of the tape its mark, record and place are."""
END_RECORD = bytes.fromhex("55 55 FE") + bytes(128) + b"\xa9"
AB_RECORD = bytes.fromhex("55 55 FA 41 42 9B") + bytes(124) + bytes.fromhex("03 C7")
"""The partial record of AB and an EOL."""


def _record(control: int, data: bytes = b"", count: int | None = None) -> bytes:
    """A record with its checksum; a partial one with its count, right or not."""
    body = bytes([0x55, 0x55, control]) + data.ljust(CHARACTERS, b"\0")
    if control == PARTIAL:
        body = body[: RECORD - 2] + bytes([len(data) if count is None else count])
    return body + bytes([checksum(body)])


def _ask(bench: Bench, port: int, message: str, reply: str, ticks: int = 1) -> None:
    """A message, its reply, and how many ticks it takes."""
    bench.same(bytes.fromhex(reply), bench.message(bytes.fromhex(message), port))
    bench.same((message, ticks), (message, 1 + bench.ticks))


def _open_tape(bench: Bench, port: int, iocb: int, aux1: int) -> None:
    """LOAD of C: at 0 and OPEN, both $01."""
    _ask(bench, port, "11 04 00 00 00 43 3A", "91 01 00 01")
    _ask(bench, port, f"10 09 00 {iocb:02X} 03 00 00 00 00 {aux1:02X} 00 00", "90 04 00 01 00 00 00")


def _write_ab(bench: Bench) -> None:
    """Port 0 opens C with W and puts the record AB."""
    bench.lend_tape()
    _open_tape(bench, 0, 0, WRITE)
    _ask(bench, 0, "11 04 00 10 00 41 42", "91 01 00 01")
    _ask(bench, 0, "10 09 00 00 09 10 00 02 00 00 00 00", "90 04 00 01 02 00 00", 4)


def _close_ab(bench: Bench) -> None:
    """And closes it."""
    _write_ab(bench)
    _ask(bench, 0, "10 09 00 00 0C 00 00 00 00 00 00 00", "90 04 00 01 00 00 00")


@case(TAPE, "OPEN with W, PUT RECORD AB: count 2, 41 42 9B are pending and the tape is untouched")
def _(bench: Bench) -> None:
    _write_ab(bench)
    bench.same(bytes(33_000) + bytes.fromhex("02 00 00 03 41 42 9B") + bytes(125), bench.tape)


@case(TAPE, "CLOSE after writing: a partial record with the count 3 and checksum $C7, then the end record")
def _(bench: Bench) -> None:
    _close_ab(bench)
    bench.same(AB_RECORD + END_RECORD + bytes(32_736) + bytes(132), bench.tape)


def _read_two(bench: Bench) -> None:
    """Then port 1 opens C with R and gets two characters."""
    _close_ab(bench)
    _open_tape(bench, 1, 2, READ)
    _ask(bench, 1, "10 09 00 02 07 10 00 02 00 00 00 00", "90 04 00 01 02 00 00", 3)


@case(TAPE, "the other port reads it: after two characters the head is at record 0, place 2")
def _(bench: Bench) -> None:
    _read_two(bench)
    bench.same(bytes.fromhex("01 00 00 02"), bench.tape[HEAD : HEAD + 4])
    _ask(bench, 1, "12 04 00 10 00 02 00", "92 03 00 01 41 42")


@case(TAPE, "while the other port has it open: OPEN with R and W is $84, with R alone $81, GET STATUS with W $81")
def _(bench: Bench) -> None:
    _read_two(bench)
    _ask(bench, 0, "10 09 00 00 03 00 00 00 00 0C 00 00", "90 04 00 84 00 00 00")
    _ask(bench, 0, "10 09 00 00 03 00 00 00 00 04 00 00", "90 04 00 81 00 00 00")
    _ask(bench, 0, "10 09 00 00 0D 00 00 00 00 08 00 00", "90 04 00 81 00 00 00")
    bench.same(AB_RECORD + END_RECORD, bench.tape[: 2 * RECORD])


@case(TAPE, "closed by the other port: SPECIAL with W is $84, and record 0 is the end record")
def _(bench: Bench) -> None:
    _read_two(bench)
    _ask(bench, 1, "10 09 00 02 0C 00 00 00 00 00 00 00", "90 04 00 01 00 00 00")
    _ask(bench, 0, "10 09 00 00 0E 00 00 00 00 08 00 00", "90 04 00 84 00 00 00")
    bench.same(END_RECORD, bench.tape[:RECORD])


@case(TAPE, "a tape of zeros: the checksum is right, the control byte is not, $8F each time")
def _(bench: Bench) -> None:
    bench.lend_tape()
    _open_tape(bench, 0, 0, READ)
    for _ in range(2):
        _ask(bench, 0, "10 09 00 00 07 00 00 01 00 00 00 00", "90 04 00 8F 00 00 00", 2)
    bench.same(bytes(33_000) + bytes([1]) + bytes(131), bench.tape)


@case(TAPE, "full: 31,872 characters fit, the next is $90; CLOSE writes the end record into the last place")
def _(bench: Bench) -> None:
    bench.lend_tape()
    _open_tape(bench, 0, 0, WRITE)
    _ask(bench, 0, "10 09 00 00 0B 00 00 00 40 00 00 00", "90 04 00 01 00 40 00", 16_385)
    _ask(bench, 0, "10 09 00 00 0B 00 00 81 3C 00 00 00", "90 04 00 90 80 3C 00", 15_490)
    bench.same(bytes.fromhex("02 F9 00 00"), bench.tape[HEAD : HEAD + 4])
    _ask(bench, 0, "10 09 00 00 0C 00 00 00 00 00 00 00", "90 04 00 01 00 00 00")
    bench.same(END_RECORD, bench.tape[32_868:33_000])


@case(TAPE, "full: $90 also for a character by A and for a record's added EOL, and nothing changes")
def _(bench: Bench) -> None:
    bench.lend_tape()
    bench.open(b"C:", WRITE)
    data = bytes(place % 251 for place in range(AREA - BUFFER))
    bench.put(data)
    bench.put(data[: 31_872 - len(data) - 1])
    bench.put(b"Z", 1, 0x90, command=Command.PUT_RECORD)
    before = bench.tape
    bench.put(b"Y", 0, 0x90)
    bench.same(CallReply(0x90, 0, 0x59), bench.call(Command.PUT_CHARACTERS, a=0x59))
    bench.same(before, bench.tape)


@case(TAPE, "248 full records and a partial one: the end record is the last")
def _(bench: Bench) -> None:
    bench.lend_tape()
    bench.open(b"C:", WRITE)
    for _ in range(2):
        bench.put(b"a" * 15_872)
    bench.put(b"b")
    bench.same(CallReply(OK, 0, 0), bench.call(Command.CLOSE))
    full = _record(FULL, b"a" * CHARACTERS)
    bench.same(248 * full + _record(PARTIAL, b"b") + END_RECORD + bytes(132), bench.tape)


@case(TAPE, "GET STATUS or SPECIAL with W on a closed block overwrites record 0; with R or neither the tape stays")
def _(bench: Bench) -> None:
    for command, status in ((Command.GET_STATUS, OK), (0x0E, 0x84), (0xFF, 0x84)):
        for aux1, first in ((WRITE, END_RECORD), (READ, AB_RECORD), (0, AB_RECORD), (READ | WRITE, AB_RECORD)):
            bench.lend_tape(AB_RECORD + AB_RECORD)
            bench.open(b"C:", aux1, status=0x84 if aux1 == READ | WRITE else status, command=command)
            bench.same(first + AB_RECORD + bytes(32_736) + bytes(132), bench.tape)
            bench.same(False, bench.state.blocks[0][0].is_open)


def _at_once(bench: Bench, *devices: bytes) -> None:
    """One port's PUT is at work at a device; the other's at another starts
    and ends. Each of the two is the first once."""
    bench.lend_tape()
    for pair in (devices, devices[::-1]):
        bench.fresh()
        for port, device in enumerate(pair):
            bench.same(bytes.fromhex("91 01 00 01"), bench.message(wire.load(SPECIFICATION, device), port))
            opening = wire.call(0, Command.OPEN, SPECIFICATION, aux1=WRITE)
            bench.same(bytes.fromhex("90 04 00 01 00 00 00"), bench.message(opening, port))
        bench.same(0, bench.begin(wire.call(0, Command.PUT_CHARACTERS, BUFFER, 300), 0))
        put = bench.message(wire.call(0, Command.PUT_CHARACTERS, BUFFER, 200), 1)
        bench.same((bytes.fromhex("90 04 00 01 C8 00 00"), 200), (put, bench.ticks))
        bench.same((2, 0), bench.state.phases)
        bench.same(bytes.fromhex("90 04 00 01 2C 01 00"), bench.reply(0))


@case(TAPE, "tape and console are two groups: neither port waits")
def _(bench: Bench) -> None:
    _at_once(bench, b"C:", b"E:")


@case(TAPE, "tape and printer are two groups: neither port waits")
def _(bench: Bench) -> None:
    _at_once(bench, b"C:", b"P:")


@case(TAPE, "console and printer are two groups: neither port waits")
def _(bench: Bench) -> None:
    _at_once(bench, b"E:", b"P:")


@case(TAPE, "the tape is one group: an OPEN waits for the other port's PUT, and is $81 then")
def _(bench: Bench) -> None:
    bench.lend_tape()
    for port, aux1 in ((0, READ), (1, READ | WRITE)):
        bench.fresh()
        _open_tape(bench, 0, 0, WRITE)
        _ask(bench, 1, "11 04 00 00 00 43 3A", "91 01 00 01")
        bench.same(0, bench.begin(wire.call(0, Command.PUT_CHARACTERS, BUFFER, 300), 0))
        bench.same(GROUP_HELD, bench.begin(wire.call(0, Command.OPEN, SPECIFICATION, aux1=aux1), 1))
        bench.same(bytes.fromhex("90 04 00 01 2C 01 00"), bench.reply(0))
        bench.same(bytes([0x90, 4, 0, 0x84 if port else 0x81, 0, 0, 0]), bench.reply(1))


@case(TAPE, "the same port's other block: $81 as well; C, C1 to C8 are one tape, C9 is $82")
def _(bench: Bench) -> None:
    bench.lend_tape()
    bench.open(b"C:", READ)
    for number in range(1, 9):
        bench.open(b"C%d:" % number, READ, iocb=1, status=0x81)
        bench.open(b"C%d:" % number, READ, iocb=0, status=0x81)
    bench.open(b"C9:", READ, iocb=1, status=0x82)
    bench.same(CallReply(OK, 0, 0), bench.call(Command.CLOSE))
    bench.open(b"C8:NAME\x9b", READ, iocb=1)
    block = bench.state.blocks[0][1]
    bench.same((True, "C", 8, READ), (block.is_open, block.device, block.number, block.aux1))


@case(TAPE, "AUX1, all 256 values: R and W at once are $84, the others open; with neither CLOSE writes nothing")
def _(bench: Bench) -> None:
    bench.lend_tape(AB_RECORD)
    for aux1 in range(256):
        both = aux1 & (READ | WRITE) == READ | WRITE
        bench.open(b"C:", aux1, status=0x84 if both else OK)
        mark = 0 if both else {READ: 1, WRITE: 2, 0: 3}[aux1 & (READ | WRITE)]
        bench.same(bytes([mark, 0, 0, 0]) + bytes(128), bench.tape[HEAD:])
        bench.same(AB_RECORD, bench.tape[:RECORD])
        if not aux1 & WRITE:
            bench.same(CallReply(OK, 0, 0), bench.call(Command.CLOSE))
        bench.same(AB_RECORD + bytes(32_868), bench.tape[:HEAD])
        bench.fresh()


@case(TAPE, "reading without R is $83, writing without W is $87: reading, writing, and open with neither")
def _(bench: Bench) -> None:
    bench.lend_tape(AB_RECORD + END_RECORD)
    for aux1 in (READ, WRITE, 0):
        bench.fresh()
        bench.open(b"C:", aux1)
        if not aux1 & READ:
            bench.get(1, b"", 0x83)
        if not aux1 & WRITE:
            bench.put(b"A", 0, 0x87)
        bench.same(AB_RECORD + END_RECORD, bench.tape[: 2 * RECORD])


@case(TAPE, "a full record is written with its 128th character, and the next begins")
def _(bench: Bench) -> None:
    data = bytes(range(0x40, 0x40 + 127))
    bench.lend_tape()
    bench.open(b"C:", WRITE)
    bench.put(data)
    bench.same(bytes(33_000) + bytes([2, 0, 0, 127]) + data + b"\0", bench.tape)
    bench.put(b"Z")
    bench.same(_record(FULL, data + b"Z") + bytes(32_868) + bytes([2, 1, 0, 0]) + bytes(128), bench.tape)


@case(TAPE, "CLOSE of what is opened for writing and not written: the end record alone; what is behind it stays")
def _(bench: Bench) -> None:
    bench.lend_tape(AB_RECORD + AB_RECORD)
    bench.open(b"C:", WRITE)
    bench.same(CallReply(OK, 0, 0), bench.call(Command.CLOSE))
    bench.same(END_RECORD + AB_RECORD + bytes(32_736 + 132), bench.tape)


@case(TAPE, "the checksum: 128 characters $FF make $A7, each carry out of eight bits added back")
def _(bench: Bench) -> None:
    bench.lend_tape()
    bench.open(b"C:", WRITE)
    bench.put(b"\xff" * 128)
    bench.same(bytes.fromhex("55 55 FC") + b"\xff" * 128 + b"\xa7", bench.tape[:RECORD])


@case(TAPE, "a bad checksum, control byte or partial count (0, above 127) reads as $8F each time, and nothing moves")
def _(bench: Bench) -> None:
    good = _record(FULL, b"A" * CHARACTERS)
    wrong = [record[:-1] + bytes([record[-1] ^ 0xFF]) for record in (good, AB_RECORD, END_RECORD)]
    controls = [_record(control, b"A") for control in (0x00, 0x55, 0x7C, 0xF8, 0xF9, 0xFB, 0xFD, 0xFF)]
    counts = [_record(PARTIAL, b"A", count) for count in (0, 128, 129, 255)]
    for bad in (*wrong, *controls, *counts):
        bench.fresh()
        bench.lend_tape(good + bad + END_RECORD)
        bench.open(b"C:", READ)
        bench.get(200, b"A" * CHARACTERS, 0x8F)
        before = bench.tape
        bench.same(bytes([1, 1, 0, 0]), before[HEAD : HEAD + 4])
        bench.same(CallReply(0x8F, 0, 0x5A), bench.call(Command.GET_CHARACTERS, a=0x5A))
        bench.same(before, bench.tape)


@case(TAPE, "counts 1 and 127; the two $55 and an end record's data are not judged; $88 again and again")
def _(bench: Bench) -> None:
    last = bytearray(_record(END, b"not zero"))
    other = bytearray(_record(FULL, b"B" * CHARACTERS))
    for record in (last, other):
        record[0] = record[1] = 0xAA
        record[131] = checksum(bytes(record))
    bench.lend_tape(_record(PARTIAL, b"A") + bytes(other) + _record(PARTIAL, b"C" * 127) + bytes(last))
    bench.open(b"C:", READ)
    bench.get(300, b"A" + b"B" * 128 + b"C" * 127, 0x88)
    bench.get(300, b"", 0x88)
    bench.same(bytes([1, 3, 0, 0]), bench.tape[HEAD : HEAD + 4])


@case(TAPE, "a tape that runs out is $88: GET RECORD over 250 full records without EOL, 32,001 ticks after the start")
def _(bench: Bench) -> None:
    bench.lend_tape(RECORDS * _record(FULL, b"A" * CHARACTERS))
    bench.open(b"C:", READ)
    reply = bench.call(Command.GET_RECORD, length=1)
    bench.same((CallReply(0x88, 1, 0), 32_001), (reply, bench.ticks))
    bench.same(bytes([1, 250, 0, 0]), bench.tape[HEAD : HEAD + 4])


@case(TAPE, "a record is judged at each character, as it lies: it goes bad, is good again, and has fewer than were read")
def _(bench: Bench) -> None:
    bench.lend_tape(AB_RECORD + END_RECORD)
    bench.open(b"C:", READ)
    bench.get(2, b"AB")
    bench.lend_tape(AB_RECORD[:-1] + b"\0" + END_RECORD)
    bench.get(1, b"", 0x8F)
    bench.same(bytes([1, 0, 0, 2]), bench.tape[HEAD : HEAD + 4])
    bench.lend_tape(_record(PARTIAL, b"xyzw") + END_RECORD)
    bench.get(1, b"z")
    bench.lend_tape(_record(PARTIAL, b"AB\x9b") + _record(PARTIAL, b"C") + END_RECORD)
    bench.get(2, b"C", 0x88)
    bench.same(bytes([1, 2, 0, 0]), bench.tape[HEAD : HEAD + 4])


@case(TAPE, "fresh start in the middle of writing: closed, nothing pending, no end record; the tape's bytes stay")
def _(bench: Bench) -> None:
    bench.lend_tape(AB_RECORD + END_RECORD)
    bench.open(b"C:", WRITE)
    bench.put(b"A" * 130)
    bench.fresh()
    bench.same(_record(FULL, b"A" * CHARACTERS) + END_RECORD + bytes(32_736) + bytes(132), bench.tape)


@case("manual, Cassette Handler", "EOL causes no special action; CIO's records begin and end in any of the tape's")
def _(bench: Bench) -> None:
    data = b"A" * 126 + b"\x9bBC\x9b\x9bD"
    bench.lend_tape()
    bench.open(b"C:", WRITE)
    bench.put(data)
    bench.same(CallReply(OK, 0, 0), bench.call(Command.CLOSE))
    bench.open(b"C:", READ)
    bench.get_record(200, b"A" * 126 + b"\x9b")
    bench.get_record(200, b"BC\x9b")
    bench.get_record(200, b"\x9b")
    bench.get_record(200, b"D", 0x88)


@case("manual, Cassette Handler", "number and filename are ignored; GET STATUS only sets $01; SPECIAL is $84")
def _(bench: Bench) -> None:
    for aux1 in (READ, WRITE, 0):
        bench.lend_tape(AB_RECORD + END_RECORD)
        bench.fresh()
        bench.open(b"C3:NAME\x9b", aux1)
        before = bench.tape
        bench.same(CallReply(OK, 0, 0), bench.call(Command.GET_STATUS, aux1=WRITE))
        bench.same(CallReply(0x84, 0, 0), bench.call(0x0E, aux1=WRITE))
        bench.same(before, bench.tape)


# 02-change-requests, Ask 3: the screen ends as before

SCROLLING = "02-change-requests, Ask 3"
LETTERS = bytes(range(ord("A"), ord("Y")))
"""A letter for each row: A to X."""


@case(SCROLLING, "A to X, an EOL behind each: 49 ticks, B to X in rows 0 to 22, row 23 blank, cursor (23, 2)")
def _(bench: Bench) -> None:
    bench.editor()
    bench.put(b"".join(bytes([letter]) + b"\x9b" for letter in LETTERS))
    bench.same(49, 1 + bench.ticks)
    for row, letter in enumerate(LETTERS[1:]):
        bench.row(row, bytes([letter]))
    bench.row(23, b"")
    bench.same((23, 2), bench.cursor)


@case(SCROLLING, "whole rows of any bytes move, by an EOL, by column 39 and by a read; cells past mode 0 stay")
def _(bench: Bench) -> None:
    old = bytes((7 * cell + cell // 40) % 251 for cell in range(script.SCREEN))
    text = 24 * 40
    blank = bytes([BLANK])
    for row, data in ((23, b"\x9b"), (23, b"A" * 38), (23, None), (22, b"\x9b")):
        bench.fresh()
        bench.editor()
        bench.put(b"\x9b" * row)
        screen = bytearray(old)
        if data is None:  # all that a read of the last line can give is the EOL
            screen[text - 38 : text] = 38 * blank
        bench.write_screen(bytes(screen))
        if data is None:
            bench.get(1, b"\x9b")
        else:
            bench.put(data)
            screen[40 * row + 2 : 40 * row + 2 + len(data.rstrip(b"\x9b"))] = data.rstrip(b"\x9b")
        if row == 23:
            screen[:text] = screen[40:text] + 40 * blank
        bench.same(bytes(screen), bench.state.screen)


# 02-change-requests, Ask 7: the last character before the end

WARNING = "02-change-requests, Ask 7"
BAD_RECORDS = (
    bytes(RECORD),
    END_RECORD[:-1] + b"\0",
    AB_RECORD[:-1] + b"\0",
    _record(0xFF),
    _record(PARTIAL, b"A", 0),
    _record(PARTIAL, b"A", 128),
)
"""What reads as $8F: blank; a bad checksum, of an end record too; a bad control byte; a bad count."""


def _reading(bench: Bench, *records: bytes) -> None:
    """A new OPEN of a tape with these records."""
    bench.fresh()
    bench.lend_tape(b"".join(records))
    bench.open(b"C:", READ)


@case(WARNING, "AB and an EOL, then the end: GET RECORD n 10 and n 3 are $03, count 3, 4 ticks; then $88")
def _(bench: Bench) -> None:
    for length in (10, 3):
        _reading(bench, AB_RECORD, END_RECORD)
        bench.get_record(length, b"AB\x9b", LAST_CHARACTER, ticks=4)
        bench.get_record(length, b"", 0x88, ticks=2)


@case(WARNING, "a cut record still ends with $89: GET RECORD n 2 is $89, 2; n 1 is $89, 1; 4 ticks; then $88")
def _(bench: Bench) -> None:
    for length, expected in ((2, b"AB"), (1, b"A")):
        _reading(bench, AB_RECORD, END_RECORD)
        bench.get_record(length, expected, 0x89, ticks=4)
        bench.get_record(length, b"", 0x88, ticks=2)


@case(WARNING, "GET CHARACTERS n 3 is $03, 3, 4 ticks; n 4 goes on to the end: $88, 3, 5 ticks")
def _(bench: Bench) -> None:
    for length, status, ticks in ((3, LAST_CHARACTER, 4), (4, 0x88, 5)):
        _reading(bench, AB_RECORD, END_RECORD)
        bench.get(length, b"AB\x9b", status, ticks=ticks)
        bench.get(length, b"", 0x88, ticks=2)


@case(WARNING, "GET CHARACTERS n 2 is $01, 2, and again n 2 is $88, 1, the last character stored: 3 ticks each")
def _(bench: Bench) -> None:
    _reading(bench, AB_RECORD, END_RECORD)
    bench.get(2, b"AB", ticks=3)
    bench.get(2, b"\x9b", 0x88, ticks=3)


@case(WARNING, "length 0: $03 with the character in A, count 0; the next is $88, and A is the request's")
def _(bench: Bench) -> None:
    bench.lend_tape(AB_RECORD + END_RECORD)
    _open_tape(bench, 0, 0, READ)
    _ask(bench, 0, "10 09 00 00 07 00 00 02 00 00 00 00", "90 04 00 01 02 00 00", 3)
    _ask(bench, 0, "10 09 00 00 07 00 00 00 00 00 00 5A", "90 04 00 03 00 00 9B", 2)
    _ask(bench, 0, "10 09 00 00 07 00 00 00 00 00 00 5A", "90 04 00 88 00 00 5A", 2)


@case(WARNING, "length 0 has no record rule: $03 without an EOL; n 3 leaves A the request's, with $03 too")
def _(bench: Bench) -> None:
    _reading(bench, _record(PARTIAL, b"A"), END_RECORD)
    bench.same(CallReply(LAST_CHARACTER, 0, 0x41), bench.call(Command.GET_RECORD, AREA, a=0x5A))
    for command in (Command.GET_RECORD, Command.GET_CHARACTERS):
        _reading(bench, AB_RECORD, END_RECORD)
        bench.same(CallReply(LAST_CHARACTER, 3, 0x5A), bench.call(command, length=3, a=0x5A))


@case(WARNING, "the next would give $8F: the character before a bad record, a bad end record too, comes with $01")
def _(bench: Bench) -> None:
    for bad in BAD_RECORDS:
        _reading(bench, AB_RECORD, bad, END_RECORD)
        bench.get(3, b"AB\x9b", ticks=4)
        bench.get(1, b"", 0x8F, ticks=2)
        _reading(bench, AB_RECORD, bad, END_RECORD)
        bench.get_record(3, b"AB\x9b", ticks=4)
        _reading(bench, _record(PARTIAL, b"A"), bad, END_RECORD)
        bench.same(CallReply(OK, 0, 0x41), bench.call(Command.GET_CHARACTERS, a=0x5A))
        bench.same(CallReply(0x8F, 0, 0x5A), bench.call(Command.GET_CHARACTERS, a=0x5A))


@case(WARNING, "no EOL before the end: GET RECORD goes on to $88, whether all is stored (n 2, n 10) or not (n 1)")
def _(bench: Bench) -> None:
    for length, expected in ((2, b"AB"), (10, b"AB"), (1, b"A")):
        _reading(bench, _record(PARTIAL, b"AB"), END_RECORD)
        bench.get_record(length, expected, 0x88, ticks=4)
    _reading(bench, _record(PARTIAL, b"AB"), END_RECORD)
    bench.get(2, b"AB", LAST_CHARACTER, ticks=3)


@case(WARNING, "a tape that runs out: of 250 full records the 32,000th character has $03, the 31,999th has not")
def _(bench: Bench) -> None:
    _reading(bench, *RECORDS * [_record(FULL, b"A" * CHARACTERS)])
    for length in (16_000, 15_998):
        bench.same(CallReply(OK, length, 0), bench.call(Command.GET_CHARACTERS, length=length))
    for status in (OK, LAST_CHARACTER):
        bench.same(CallReply(status, 0, 0x41), bench.call(Command.GET_CHARACTERS))
    bench.same(CallReply(0x88, 0, 0x5A), bench.call(Command.GET_CHARACTERS, a=0x5A))
    bench.same(bytes([1, 250, 0, 0]), bench.tape[HEAD : HEAD + 4])


@case(WARNING, "a record's last character has $03 before the end alone: not before a full record or a partial one")
def _(bench: Bench) -> None:
    full, least, most = _record(FULL, b"F" * 128), _record(PARTIAL, b"L"), _record(PARTIAL, b"M" * 127)
    last = _record(END, b"not zero")
    for records, reads in (
        ((full, least, full, END_RECORD), ((128, b"F", OK), (1, b"L", OK), (128, b"F", LAST_CHARACTER))),
        ((most, full, least, last, full), ((127, b"M", OK), (128, b"F", OK), (1, b"L", LAST_CHARACTER))),
        ((least, least, most, END_RECORD), ((1, b"L", OK), (1, b"L", OK), (127, b"M", LAST_CHARACTER))),
    ):
        _reading(bench, *records)
        for length, character, status in reads:
            bench.get(length, length * character, status, ticks=1 + length)
        bench.get(1, b"", 0x88)


@case(WARNING, "judged on the tape as it lies: an end that has gone is not remembered, one that comes is seen")
def _(bench: Bench) -> None:
    _reading(bench, AB_RECORD, END_RECORD)
    bench.get(3, b"AB\x9b", LAST_CHARACTER)
    bench.same(bytes([1, 1, 0, 0]) + bytes(128), bench.tape[HEAD:])
    bench.lend_tape(AB_RECORD + AB_RECORD)
    bench.get(2, b"AB")
    bench.same(bytes([1, 1, 0, 2]) + bytes(128), bench.tape[HEAD:])
    bench.lend_tape(AB_RECORD + AB_RECORD + END_RECORD)
    bench.get(1, b"\x9b", LAST_CHARACTER)


@case(WARNING, "only a read gives it: GET STATUS is $01 before and behind the end; an empty file's first read is $88")
def _(bench: Bench) -> None:
    _reading(bench, END_RECORD)
    bench.same(CallReply(OK, 0, 0), bench.call(Command.GET_STATUS))
    bench.get(1, b"", 0x88)
    _reading(bench, AB_RECORD, END_RECORD)
    bench.get(3, b"AB\x9b", LAST_CHARACTER)
    bench.same(CallReply(OK, 0, 0), bench.call(Command.GET_STATUS))
    bench.same(CallReply(OK, 0, 0), bench.call(Command.CLOSE))


@case(WARNING, "other devices never give it: K's only key is $01 and the next read $88, S's last cell $01 and then $8D")
def _(bench: Bench) -> None:
    bench.keyboard()
    bench.press(0x3F)
    bench.get(1, b"A")
    bench.get(1, b"", 0x88)
    bench.open(b"S:", READ, 3, iocb=1)
    for status, count in ((OK, 960), (0x8D, 0)):
        bench.same(CallReply(status, count, 0), bench.call(Command.GET_CHARACTERS, length=960, iocb=1))


# 02-change-requests, Ask 12, and the manual: disk file manager

DISK = "02-change-requests, Ask 12"
FILE_MANAGER = "manual, Disk File Manager"
GET_TEN = "10 09 00 {:02X} 05 20 00 0A 00 00 00 00"
"""GET RECORD of at most ten to 32, on a block."""
ALL = b"*.*\x9b"


def _specify(bench: Bench, port: int, iocb: int, aux1: int, specification: bytes) -> None:
    """LOAD of a specification at 0 and OPEN, both $01."""
    bench.same(bytes.fromhex("91 01 00 01"), bench.message(wire.load(SPECIFICATION, specification), port))
    opening = wire.call(iocb, Command.OPEN, SPECIFICATION, aux1=aux1)
    bench.same((specification, bytes.fromhex("90 04 00 01 00 00 00")), (specification, bench.message(opening, port)))


def _file(bench: Bench, *sectors: bytes, first: int = 4) -> None:
    """A new OPEN of HELLO.TXT, which has these sectors from 4 on."""
    bench.fresh()
    bench.lend_diskette(_diskette([_entry(NAME, first)], dict(enumerate(sectors, 4))))
    bench.open(b"D:HELLO.TXT\x9b", READ)


def _listed(bench: Bench, pattern: bytes, *names: bytes, iocb: int = 7) -> None:
    """The names of the directory that a pattern lists, each of one sector and not locked; 706 sectors are free."""
    bench.open(b"D:" + pattern + b"\x9b", DIRECTORY, iocb=iocb)
    expected = b"".join(b"  " + name + b" 001\x9b" for name in names) + b"706 FREE SECTORS\x9b"
    bench.get(len(expected), expected, LAST_CHARACTER, iocb=iocb)
    bench.same(CallReply(OK, 0, 0), bench.call(Command.CLOSE, iocb=iocb))


@case(DISK, "HELLO.TXT of three characters: GET RECORD n 10 is $03, count 3, 4 ticks; then $88, 2 ticks")
def _(bench: Bench) -> None:
    bench.lend_diskette(HELLO)
    _specify(bench, 0, 0, READ, b"D:HELLO.TXT\x9b")
    _ask(bench, 0, GET_TEN.format(0), "90 04 00 03 03 00 00", 4)
    _ask(bench, 0, "12 04 00 20 00 03 00", "92 04 00 01 48 49 9B")
    _ask(bench, 0, GET_TEN.format(0), "90 04 00 88 00 00 00", 2)


@case(DISK, "its directory: a record of 18 characters, $01; the free sectors, 17 with $03; then $88")
def _(bench: Bench) -> None:
    bench.lend_diskette(HELLO)
    _specify(bench, 0, 1, DIRECTORY, b"D1:*.*\x9b")
    _ask(bench, 0, "10 09 00 01 05 20 00 28 00 00 00 00", "90 04 00 01 12 00 00", 19)
    listed = "20 20 48 45 4C 4C 4F 20 20 20 54 58 54 20 30 30 31 9B"
    _ask(bench, 0, "12 04 00 20 00 12 00", f"92 13 00 01 {listed}")
    _ask(bench, 0, "10 09 00 01 05 20 00 28 00 00 00 00", "90 04 00 03 11 00 00", 18)
    _ask(bench, 0, "12 04 00 20 00 11 00", "92 12 00 01 37 30 36 20 46 52 45 45 20 53 45 43 54 4F 52 53 9B")
    _ask(bench, 0, "10 09 00 01 07 20 00 01 00 00 00 00", "90 04 00 88 00 00 00", 2)


@case(DISK, "GET STATUS of a file: $01, and $A7 once its entry is locked, on a closed block and on an open one")
def _(bench: Bench) -> None:
    bench.lend_diskette(HELLO)
    _specify(bench, 0, 0, READ, b"D:HELLO.TXT\x9b")
    _ask(bench, 0, "10 09 00 02 0D 00 00 00 00 04 00 00", "90 04 00 01 00 00 00")
    bench.write_diskette(ENTRY_PLACE, b"\x62")
    _ask(bench, 0, "10 09 00 02 0D 00 00 00 00 04 00 00", "90 04 00 A7 00 00 00")
    _ask(bench, 0, "10 09 00 00 0D 00 00 00 00 00 00 00", "90 04 00 A7 00 00 00")
    bench.get(3, b"HI\x9b", LAST_CHARACTER)


@case(DISK, "a full sector linked to itself: GET RECORD n 1 is $A4, count 1, 89,876 ticks after the start")
def _(bench: Bench) -> None:
    bench.lend_diskette(HELLO)
    bench.write_diskette(LINK_PLACE, bytes.fromhex("00 04 7D"))
    bench.write_diskette(HELLO_PLACE + 2, b"\x4c")
    _specify(bench, 0, 2, READ, b"D:*.*\x9b")
    _ask(bench, 0, "10 09 00 02 05 20 00 01 00 00 00 00", "90 04 00 A4 01 00 00", 89_877)


@case(DISK, "OPEN with R: H*.T?T and HELLO.TXTY open; HELLO and * are $AA; a dot more, small letters and - $A5; D5 is $82")
def _(bench: Bench) -> None:
    bench.lend_diskette(HELLO)
    bench.lend_diskette(drive=2)
    for specification, status in (
        (b"D:H*.T?T", OK),
        (b"D:HELLO", 0xAA),
        (b"D:*", 0xAA),
        (b"D:HELLO.TXTY", OK),
        (b"D:HELLO.TXT.", 0xA5),
        (b"D:hello.txt", 0xA5),
        (b"D:ABCDEFGHIJ-", 0xA5),
        (b"D2:*.*", 0xAA),
        (b"D5:*.*", 0x82),
    ):
        bench.fresh()
        bench.open(specification + b"\x9b", READ, status=status)
        bench.same(status == OK, bench.state.blocks[0][0].is_open)
    bench.open(b"D:-", WRITE, status=0x84)


@case(DISK, "the area's last bytes: D:A and D4 are $B0, D5 is $82, D:- is $A5; a name whose end is the last byte opens")
def _(bench: Bench) -> None:
    bench.lend_diskette(HELLO)
    for specification, status in (
        (b"D", 0xB0),
        (b"D4", 0xB0),
        (b"D5", 0x82),
        (b"D:", 0xB0),
        (b"D:A", 0xB0),
        (b"D:HELLO.TXT", 0xB0),
        (b"D:HELLO.TXTANDMORE", 0xB0),
        (b"D:-", 0xA5),
        (b"D:HELLO.TXT.", 0xA5),
        (b"D:NONE\x9b", 0xAA),
        (b"D:HELLO.TXT\x9b", OK),
    ):
        bench.load(specification, AREA - len(specification))
        reply = bench.call(Command.OPEN, AREA - len(specification), aux1=READ)
        bench.same((specification, CallReply(status, 0, 0)), (specification, reply))


@case(DISK, "every byte in a name: only A to Z, 0 to 9, *, ? and one dot are none of $A5; EOL and a blank end it")
def _(bench: Bench) -> None:
    bench.lend_diskette(HELLO)
    good = b"ABCDEFGHIJKLMNOPQRSTUVWXYZ0123456789*?."
    for byte in range(256):
        # In the name, behind its eighth place, and behind the third of the extension.
        for name in (b"Q%cQ", b"QQQQQQQQQ%c", b"Q.QQQQ%c"):
            is_dot = byte == 0x2E and b"." in name
            status = 0xA5 if byte not in good + b"\x9b " or is_dot else 0xAA
            bench.open(b"D:" + name % byte + b"\x9b", READ, status=status)
    for end in (b"\x9b", b" "):
        bench.open(b"D:HELLO.TXT" + end + b"-.-", READ)
        bench.same(CallReply(OK, 0, 0), bench.call(Command.CLOSE))


@case(DISK, "a link above 719 is $A4 to the read that meets it: count 3, 5 ticks, and again; OPEN does not look")
def _(bench: Bench) -> None:
    for link in (720, 721, 1_023):
        _file(bench, _sector(0, link, b"HI\x9b"))
        bench.get(4, b"HI\x9b", 0xA4, ticks=5)
        for _ in range(2):
            bench.get(1, b"", 0xA4, ticks=2)
    for first in (720, 1_024, 65_535):
        _file(bench, first=first)
        bench.same(CallReply(0xA4, 0, 0x5A), bench.call(Command.GET_CHARACTERS, a=0x5A))


@case(DISK, "a wrong file number or a data count above 125 is $A4 to the read that meets it; 125 is good")
def _(bench: Bench) -> None:
    for bad in (_sector(1, 0, b"C"), _sector(63, 0, b"C"), _sector(0, 0, b"C", 126), _sector(0, 0, b"C", 255)):
        _file(bench, _sector(0, 5, b"AB"), bad)
        bench.get(2, b"AB", ticks=3)
        bench.get(1, b"", 0xA4, ticks=2)
        _file(bench, bad)
        bench.get(1, b"", 0xA4, ticks=2)
    _file(bench, _sector(0, 5, b"A" * 125), _sector(0, 0, b"B" * 125))
    bench.get(250, b"A" * 125 + b"B" * 125, LAST_CHARACTER, ticks=251)


@case(DISK, "the last entry's file has number 63, in byte 125 with the link's two high bits")
def _(bench: Bench) -> None:
    entries = [_entry(b"GONE       ", 4, flag=0x80)] * 63 + [_entry(NAME, 719)]
    bench.lend_diskette(_diskette(entries, {719: _sector(63, 4, b"A"), 4: _sector(63, 515, b"B"), 515: _sector(63, 0, b"C")}))
    bench.open(b"D:HELLO.TXT\x9b", READ)
    bench.get(3, b"ABC", LAST_CHARACTER, ticks=4)


@case(DISK, "a ring of one sector: with count 0 $A4 in 2 ticks; with count 1 GET CHARACTERS n 720 is $A4, count 719")
def _(bench: Bench) -> None:
    _file(bench, _sector(0, 4, b""))
    bench.get(1, b"", 0xA4, ticks=2)
    _file(bench, _sector(0, 4, b"A"))
    bench.get(720, b"A" * 719, 0xA4, ticks=721)
    bench.get(1, b"", 0xA4, ticks=2)


def _longest(bench: Bench, last: int) -> None:
    """A file of all sectors, 1 to 719, the map and the directory too, without an EOL; the last has this link."""
    sectors = {number: _sector(0, number + 1, b"A" * 125) for number in range(1, 719)}
    sectors[361] = _sector(0, 362, _entry(NAME, 1), 125)
    sectors[719] = _sector(0, last, b"A" * 125)
    bench.fresh()
    bench.lend_diskette(_diskette([], sectors))
    bench.open(b"D:HELLO.TXT\x9b", READ)


@case(DISK, "719 full sectors: GET RECORD n 1 is $88, count 1, 89,876 ticks after the start; in a ring $A4")
def _(bench: Bench) -> None:
    for last, status in ((0, 0x88), (1, 0xA4), (719, 0xA4)):
        _longest(bench, last)
        reply = bench.call(Command.GET_RECORD, length=1)
        bench.same((CallReply(status, 1, 0), 89_876), (reply, bench.ticks))


@case(DISK, "719 full sectors: the 89,875th character has $03, the one before it has not; in a ring none has")
def _(bench: Bench) -> None:
    for last, status, after in ((0, LAST_CHARACTER, 0x88), (1, OK, 0xA4)):
        _longest(bench, last)
        for length in (*[15_000] * 5, 14_873):
            bench.same(CallReply(OK, length, 0), bench.call(Command.GET_CHARACTERS, length=length))
        for expected in (OK, status):
            bench.same(CallReply(expected, 0, 0x41), bench.call(Command.GET_CHARACTERS))
        bench.same(CallReply(after, 0, 0x5A), bench.call(Command.GET_CHARACTERS, a=0x5A))


@case(DISK, "empty sectors are passed in the same tick: between characters, before the first, and 718 in a row")
def _(bench: Bench) -> None:
    empty = _sector(0, 5, b"")
    _file(bench, empty, _sector(0, 6, b"AB"), _sector(0, 7, b""), _sector(0, 8, b""), _sector(0, 0, b"C"))
    bench.get(3, b"ABC", LAST_CHARACTER, ticks=4)
    sectors = {number: _sector(0, number + 1, b"") for number in range(1, 719)}
    sectors[361] = _sector(0, 362, _entry(NAME, 1), 0)
    sectors[719] = _sector(0, 0, b"Z")
    bench.fresh()
    bench.lend_diskette(_diskette([], sectors))
    bench.open(b"D:HELLO.TXT\x9b", READ)
    bench.get(2, b"Z", 0x88, ticks=3)


@case(DISK, "$03 also where only empty sectors follow; $01 where the next read gives $A4, behind empty sectors too")
def _(bench: Bench) -> None:
    for behind, status, after in (
        ([_sector(0, 0, b"")], LAST_CHARACTER, 0x88),
        ([_sector(0, 6, b""), _sector(0, 0, b"")], LAST_CHARACTER, 0x88),
        ([_sector(0, 720, b"")], OK, 0xA4),
        ([_sector(0, 5, b"")], OK, 0xA4),
        ([_sector(0, 6, b""), _sector(1, 0, b"")], OK, 0xA4),
        ([_sector(0, 0, b"", 126)], OK, 0xA4),
    ):
        _file(bench, _sector(0, 5, b"AB"), *behind)
        bench.get(2, b"AB", status, ticks=3)
        bench.get(1, b"", after, ticks=2)


@case(DISK, "empty files: first sector 0, or sectors without characters: the first read is $88, again and again")
def _(bench: Bench) -> None:
    for sectors, first in (([], 0), ([_sector(0, 0, b"")], 4), ([_sector(0, 5, b""), _sector(0, 0, b"")], 4)):
        _file(bench, *sectors, first=first)
        for _ in range(2):
            bench.get(1, b"", 0x88, ticks=2)


@case(DISK, "length 0: the character in A, the last with $03; n 3 leaves A the request's; a cut record is $89")
def _(bench: Bench) -> None:
    _file(bench, _sector(0, 0, b"HI\x9b"))
    for character, status in zip(b"HI\x9b", (OK, OK, LAST_CHARACTER)):
        bench.same(CallReply(status, 0, character), bench.call(Command.GET_RECORD, AREA, a=0x5A))
    bench.same(CallReply(0x88, 0, 0x5A), bench.call(Command.GET_RECORD, AREA, a=0x5A))
    _file(bench, _sector(0, 0, b"HI\x9b"))
    bench.same(CallReply(LAST_CHARACTER, 3, 0x5A), bench.call(Command.GET_CHARACTERS, length=3, a=0x5A))
    _file(bench, _sector(0, 0, b"HI\x9b"))
    bench.get_record(1, b"H", 0x89, ticks=4)


@case(DISK, "flags: $40 without $80 is a file, whatever else; others are passed over; 0 ends the directory")
def _(bench: Bench) -> None:
    for flag in range(256):
        bench.fresh()
        second = _entry(b"SECOND     ", 5)
        bench.lend_diskette(_diskette([_entry(NAME, 4, flag=flag), second], {4: _sector(0, 0, b"1"), 5: _sector(1, 0, b"2")}))
        in_use = flag & 0xC0 == 0x40
        bench.open(b"D:HELLO.TXT\x9b", READ, status=OK if in_use else 0xAA)
        bench.open(b"D:*.*\x9b", READ, iocb=1, status=OK if flag else 0xAA)
        if flag:
            bench.get(1, b"1" if in_use else b"2", LAST_CHARACTER, iocb=1)
        bench.open(b"D:*.*\x9b", DIRECTORY, iocb=2)
        first = (b"* " if flag & 0x20 else b"  ") + NAME + b" 001\x9b" if in_use else b""
        expected = first + (b"  SECOND      001\x9b" if flag else b"") + b"706 FREE SECTORS\x9b"
        bench.get(len(expected), expected, LAST_CHARACTER, iocb=2)


@case(DISK, "the directory lists every match once, in order, past deleted entries; all 64; without a match the free ones")
def _(bench: Bench) -> None:
    entries = [_entry(b"FILE%02d  DAT" % number, 4, flag=0x80 if number % 3 == 1 else 0x42) for number in range(64)]
    bench.lend_diskette(_diskette(entries, {}))
    there = [b"FILE%02d  DAT" % number for number in range(64) if number % 3 != 1]
    _listed(bench, b"*.*", *there)
    _listed(bench, b"FILE?2.D*", *(name for name in there if name[5:6] == b"2"))
    _listed(bench, b"FILE63.DAT", b"FILE63  DAT")
    _listed(bench, b"FILE61.DAT")
    bench.lend_diskette(_diskette([_entry(b"FILE%02d  DAT" % number, 4) for number in range(64)], {}))
    _listed(bench, b"*.DAT", *(b"FILE%02d  DAT" % number for number in range(64)))


@case(DISK, "counts are three digits modulo 1,000; the free count is sector 360's, and not the map's")
def _(bench: Bench) -> None:
    for number, digits in ((0, b"000"), (7, b"007"), (999, b"999"), (1_000, b"000"), (1_707, b"707"), (65_535, b"535")):
        bench.fresh()
        bench.lend_diskette(_diskette([_entry(NAME, 4, count=number, flag=0x60)], {}, free=number))
        bench.open(b"D:*.*\x9b", DIRECTORY)
        bench.get_record(40, b"* " + NAME + b" " + digits + b"\x9b")
        bench.get_record(40, digits + b" FREE SECTORS\x9b", LAST_CHARACTER)
    bench.fresh()
    bench.lend_diskette()
    bench.open(b"D:*.*\x9b", DIRECTORY)
    bench.get_record(40, b"000 FREE SECTORS\x9b", LAST_CHARACTER, ticks=18)


@case(DISK, "bytes of a name stand as they lie, an EOL too; only ? and * match what no name may have")
def _(bench: Bench) -> None:
    strange = bytes.fromhex("00 9B FF 61 2A 3F 2E 20 C1 9B 7F")
    bench.lend_diskette(_diskette([_entry(strange, 4)], {4: _sector(0, 0, b"A")}))
    bench.open(b"D:????????.???\x9b", DIRECTORY)
    expected = b"  " + strange + b" 001\x9b706 FREE SECTORS\x9b"
    bench.get(len(expected), expected, LAST_CHARACTER, ticks=1 + len(expected))
    bench.open(b"D:*.*\x9b", READ, iocb=1)
    bench.get(1, b"A", LAST_CHARACTER, iocb=1)
    bench.open(b"D:\x9b", READ, iocb=2, status=0xAA)


@case(DISK, "a name is filled with blanks, and so is the extension; past eight or three it is ignored, behind * too")
def _(bench: Bench) -> None:
    names = (b"A          ", b"AB         ", b"ABCDEFGH   ", b"ABCDEFGHXYZ", b"           ", b"        XYZ", b"A       X  ")
    bench.lend_diskette(_diskette([_entry(name, 4) for name in names], {}))
    for pattern, expected in (
        (b"A", [0]),
        (b"A.", [0]),
        (b"A?", [0, 1]),
        (b"A*", [0, 1, 2]),
        (b"A*ZZZ", [0, 1, 2]),
        (b"*", [0, 1, 2, 4]),
        (b"", [4]),
        (b".", [4]),
        (b".XYZ", [5]),
        (b".*", [4, 5]),
        (b"*.X", [6]),
        (b"*.X*", [3, 5, 6]),
        (b"*.??", [0, 1, 2, 4, 6]),
        (b"????????.???", [0, 1, 2, 3, 4, 5, 6]),
        (b"ABCDEFGH", [2]),
        (b"ABCDEFGHI", [2]),
        (b"ABCDEFGHIJKLMNOP.XYZABC", [3]),
        (b"ABCDEFGH?", [2]),
        (b"ABCDEFG*.*", [2, 3]),
        (b"*.*Z", [0, 1, 2, 3, 4, 5, 6]),
        (b"B*", []),
    ):
        _listed(bench, pattern, *(names[place] for place in expected))


@case(DISK, "the first match opens, in the directory's order")
def _(bench: Bench) -> None:
    names = (b"STOCK   OLD", b"STOCK   DAT", b"STOCK   NEW")
    entries = [_entry(name, 4 + number) for number, name in enumerate(names)]
    bench.lend_diskette(_diskette(entries, {4 + number: _sector(number, 0, b"%d" % number) for number in range(3)}))
    for specification, data in ((b"D:S*.*", b"0"), (b"D:STOCK.?A?", b"1"), (b"D:*.N*", b"2"), (b"D:STOCK.D*", b"1")):
        bench.fresh()
        bench.open(specification + b"\x9b", READ)
        bench.get(1, data, LAST_CHARACTER)


@case(DISK, "four drives, each its own diskette; D is D1; 5 to 8 are $82, and so is what is no digit and no colon")
def _(bench: Bench) -> None:
    for drive in range(1, 5):
        entries = [_entry(NAME, 4, count=10 * drive)]
        bench.lend_diskette(_diskette(entries, {4: _sector(0, 0, b"%d" % drive)}, free=drive), drive)
    for iocb, (letter, data) in enumerate(((b"D", b"1"), (b"D1", b"1"), (b"D2", b"2"), (b"D3", b"3"), (b"D4", b"4"))):
        bench.open(letter + b":HELLO.TXT\x9b", READ, iocb=iocb)
        bench.get(1, data, LAST_CHARACTER, iocb=iocb)
        number = int(letter[1:] or b"1")
        bench.same(script.Block(True, "D", number, READ), bench.state.blocks[0][iocb])
        bench.open(letter + b":*.*\x9b", DIRECTORY, iocb=7)
        bench.get(35, b"  " + NAME + b" 0%d0\x9b00%d FREE SECTORS\x9b" % (number, number), LAST_CHARACTER, iocb=7)
        bench.same(CallReply(OK, 0, 0), bench.call(Command.CLOSE, iocb=7))
    for specification in (b"D0:", b"D5:", b"D6:", b"D7:", b"D8:", b"D9:", b"DD:", b"D12:", b"D-", b"D\x9b"):
        bench.open(specification + ALL, READ, iocb=7, status=0x82)
    for drive in range(2, 5):
        bench.lend_diskette(drive=drive)


@case(DISK, "AUX1, all 256 values: W is $84, exactly $06 the directory, the others a file; without R a read is $83")
def _(bench: Bench) -> None:
    bench.lend_diskette(HELLO)
    for aux1 in range(256):
        bench.open(b"D:HELLO.TXT\x9b", aux1, status=0x84 if aux1 & WRITE else OK)
        if aux1 & WRITE:
            bench.same(False, bench.state.blocks[0][0].is_open)
            continue
        bench.same(script.Block(True, "D", 1, aux1), bench.state.blocks[0][0])
        if not aux1 & READ:
            bench.get(1, b"", 0x83)
        elif aux1 == DIRECTORY:
            bench.get(4, b"  HE")
        else:
            bench.get(3, b"HI\x9b", LAST_CHARACTER)
        bench.put(b"A", 0, 0x87)
        bench.same(CallReply(OK, 0, 0), bench.call(Command.CLOSE))


@case(DISK, "the order of an OPEN: $86, $81, $82 and $B0, then $84, $A5, $AA; a directory needs no match")
def _(bench: Bench) -> None:
    bench.lend_diskette(HELLO)
    bench.open(b"D5:-\x9b", WRITE, iocb=8, status=0x86)
    bench.open(b"D5:-\x9b", WRITE, status=0x82)
    bench.open(b"D:-\x9b", WRITE, status=0x84)
    bench.open(b"D:NONE-\x9b", READ, status=0xA5)
    bench.open(b"D:NONE-\x9b", DIRECTORY, status=0xA5)
    bench.open(b"D:NONE\x9b", READ, status=0xAA)
    bench.open(b"D:NONE\x9b", 0, status=0xAA)
    bench.open(b"D:NONE\x9b", DIRECTORY)
    bench.open(b"D5:-\x9b", WRITE, status=0x81)
    bench.get(17, b"706 FREE SECTORS\x9b", LAST_CHARACTER)
    bench.load(b"D:NONE", AREA - 6)
    bench.same(CallReply(0xB0, 0, 0), bench.call(Command.OPEN, AREA - 6, aux1=WRITE, iocb=1))


@case(DISK, "GET STATUS and SPECIAL on a closed block: OPEN's refusals stand; else $01, of a locked file $A7; SPECIAL $84")
def _(bench: Bench) -> None:
    locked = _entry(b"LOCKED     ", 4, flag=0x62)
    bench.lend_diskette(_diskette([_entry(NAME, 4), locked], {}))
    for specification, aux1, status, special in (
        (b"D:HELLO.TXT", READ, OK, 0x84),
        (b"D:HELLO.TXT", 0, OK, 0x84),
        (b"D:LOCKED", READ, 0xA7, 0x84),
        (b"D:LOCKED", 0, 0xA7, 0x84),
        (b"D:L*", READ, 0xA7, 0x84),
        (b"D:LOCKED", DIRECTORY, OK, 0x84),
        (b"D:NONE", DIRECTORY, OK, 0x84),
        (b"D:NONE", READ, 0xAA, 0xAA),
        (b"D:LOCKED", WRITE, 0x84, 0x84),
        (b"D:-", READ, 0xA5, 0xA5),
        (b"D:-", WRITE, 0x84, 0x84),
        (b"D5:LOCKED", READ, 0x82, 0x82),
    ):
        for command, expected in ((Command.GET_STATUS, status), (0x0E, special), (0xFF, special)):
            bench.open(specification + b"\x9b", aux1, status=expected, command=command)
            bench.same(False, bench.state.blocks[0][0].is_open)


@case(DISK, "GET STATUS on an open file: its entry as it lies, $01, $A7, or $AA where it is gone; a directory's is $01")
def _(bench: Bench) -> None:
    bench.lend_diskette(HELLO)
    bench.open(b"D:HELLO.TXT\x9b", READ)
    bench.open(b"D:*.*\x9b", DIRECTORY, iocb=1)
    for flag, status in ((0x42, OK), (0x62, 0xA7), (0x60, 0xA7), (0x80, 0xAA), (0xE2, 0xAA), (0x00, 0xAA), (0x40, OK)):
        bench.write_diskette(ENTRY_PLACE, bytes([flag]))
        bench.same(CallReply(status, 0, 0), bench.call(Command.GET_STATUS))
        bench.same(CallReply(0x84, 0, 0), bench.call(0x0E))
        bench.same(CallReply(OK, 0, 0), bench.call(Command.GET_STATUS, iocb=1))
        bench.same(CallReply(0x84, 0, 0), bench.call(0x0E, iocb=1))
    bench.write_diskette(ENTRY_PLACE, b"\x80")
    bench.get(3, b"HI\x9b", LAST_CHARACTER)
    bench.same(CallReply(OK, 0, 0), bench.call(Command.CLOSE))


@case(DISK, "each block has its own place: eight at one file and two directories, on both ports, none moves another")
def _(bench: Bench) -> None:
    bench.lend_diskette(_diskette([_entry(NAME, 4)], {4: _sector(0, 5, b"ABCD"), 5: _sector(0, 0, b"EFGH")}))
    for iocb in range(6):
        bench.open(b"D:HELLO.TXT\x9b", READ, iocb=iocb)
    for iocb in (6, 7):
        bench.open(b"D:*.*\x9b", DIRECTORY, iocb=iocb)
    _specify(bench, 1, 0, READ, b"D:HELLO.TXT\x9b")
    for iocb in range(1, 6):
        bench.get(iocb, b"ABCDEFGH"[:iocb], iocb=iocb)
    bench.get(7, b"  HELLO", iocb=6)
    bench.get(2, b"  ", iocb=7)
    for iocb in range(6):
        bench.get(8 - iocb, b"ABCDEFGH"[iocb:], LAST_CHARACTER, iocb=iocb)
    bench.get(11, b"   TXT 001\x9b", iocb=6)
    bench.get(5, b"HELLO", iocb=7)
    got = bench.message(wire.call(0, Command.GET_CHARACTERS, BUFFER, 8), 1)
    bench.same(bytes.fromhex("90 04 00 03 08 00 00"), got)


@case(DISK, "a CLOSE and another OPEN on the block begin anew; CLOSE changes no place of another block")
def _(bench: Bench) -> None:
    bench.lend_diskette(HELLO)
    bench.open(b"D:HELLO.TXT\x9b", READ)
    bench.open(b"D:HELLO.TXT\x9b", READ, iocb=1)
    bench.get(1, b"H", iocb=1)
    for length in (1, 2, 3):
        bench.get(length, b"HI\x9b"[:length], LAST_CHARACTER if length == 3 else OK)
        bench.same(CallReply(OK, 0, 0), bench.call(Command.CLOSE))
        bench.open(b"D:HELLO.TXT\x9b", READ)
    bench.get(2, b"I\x9b", LAST_CHARACTER, iocb=1)


@case(DISK, "the pattern is kept: what becomes of the name in the area, and of the other files, changes no listing")
def _(bench: Bench) -> None:
    entries = [_entry(b"A       DAT", 4), _entry(b"B       DAT", 4), _entry(b"C       TXT", 4), _entry(b"D       DAT", 4)]
    bench.lend_diskette(_diskette(entries, {}))
    bench.open(b"D:*.DAT\x9b", DIRECTORY)
    bench.get_record(40, b"  A       DAT 001\x9b")
    bench.load(b"D:*.TXT\x9b", SPECIFICATION)
    bench.open(b"D:C.TXT\x9b", READ, iocb=1)
    bench.get_record(40, b"  B       DAT 001\x9b")
    bench.get_record(40, b"  D       DAT 001\x9b")
    bench.get_record(40, b"706 FREE SECTORS\x9b", LAST_CHARACTER)


@case(DISK, "sectors, entries and links are read as they lie when they are needed: no copy of one is kept")
def _(bench: Bench) -> None:
    _file(bench, _sector(0, 0, b"HI\x9b"), _sector(0, 0, b"J"))
    bench.get(1, b"H")
    bench.write_diskette(HELLO_PLACE + 1, b"E")
    bench.write_diskette(LINK_PLACE, bytes.fromhex("00 05 02"))
    bench.get(2, b"EJ", LAST_CHARACTER, ticks=3)
    # The place is at the end of sector 5; now it has more, and then a place behind its count.
    bench.write_diskette(HELLO_PLACE + 128, b"JKLM")
    bench.write_diskette(LINK_PLACE + 128, bytes.fromhex("00 00 04"))
    bench.get(2, b"KL")
    bench.write_diskette(LINK_PLACE + 128, bytes.fromhex("00 06 01"))
    bench.write_diskette(HELLO_PLACE + 256, _sector(0, 0, b"N"))
    bench.get(1, b"N", LAST_CHARACTER)
    bench.open(b"D:*.*\x9b", DIRECTORY, iocb=1)
    bench.get(4, b"  HE", iocb=1)
    bench.write_diskette(ENTRY_PLACE + 7, b"NRY")
    bench.write_diskette(FREE_PLACE, wire.word(5))
    expected = b"NRY   TXT 001\x9b005 FREE SECTORS\x9b"
    bench.get(len(expected), expected, LAST_CHARACTER, iocb=1)


@case(DISK, "the disk is one group: port 1 on D1 waits while port 0 runs on D2, for OPEN, its $84 and $A5, GET and CLOSE")
def _(bench: Bench) -> None:
    ring = _diskette([_entry(NAME, 4)], {4: _sector(0, 4, b"A" * 125)})
    for drive in (1, 2):
        bench.lend_diskette(ring, drive)
    for name, message, status in (
        (b"HELLO.TXT", wire.call(1, Command.OPEN, SPECIFICATION, aux1=READ), OK),
        (b"HELLO.TXT", wire.call(1, Command.OPEN, SPECIFICATION, aux1=WRITE), 0x84),
        (b"-", wire.call(1, Command.OPEN, SPECIFICATION, aux1=READ), 0xA5),
        (b"NONE", wire.call(1, Command.OPEN, SPECIFICATION, aux1=READ), 0xAA),
        (b"NONE", wire.call(1, Command.GET_STATUS, SPECIFICATION, aux1=READ), 0xAA),
        (b"", wire.call(0, Command.GET_STATUS), OK),
        (b"", wire.call(0, 0x0E), 0x84),
        (b"", wire.call(0, Command.GET_CHARACTERS), OK),
        (b"", wire.call(0, Command.CLOSE), OK),
    ):
        bench.fresh()
        _specify(bench, 1, 0, READ, b"D:HELLO.TXT\x9b")
        loaded = bench.message(wire.load(SPECIFICATION, b"D:" + name + b"\x9b"), 1)
        bench.same(bytes.fromhex("91 01 00 01"), loaded)
        _specify(bench, 0, 0, READ, b"D2:HELLO.TXT\x9b")
        bench.same(0, bench.begin(wire.call(0, Command.GET_CHARACTERS, BUFFER, 300), 0))
        bench.same((message, GROUP_HELD), (message, bench.begin(message, 1)))
        bench.same(bytes.fromhex("90 04 00 01 2C 01 00"), bench.reply(0))
        bench.same(status, bench.reply(1)[3])
    bench.lend_diskette(drive=2)


@case(DISK, "what is refused before the group does not wait: D5 is $82, a closed block $85, without R $83, $B0")
def _(bench: Bench) -> None:
    bench.lend_diskette(_diskette([_entry(NAME, 4)], {4: _sector(0, 4, b"A" * 125)}))
    _specify(bench, 0, 0, READ, b"D:HELLO.TXT\x9b")
    _specify(bench, 1, 0, 0, b"D:HELLO.TXT\x9b")
    _specify(bench, 1, 2, READ, b"D:HELLO.TXT\x9b")
    bench.same(bytes.fromhex("91 01 00 01"), bench.message(wire.load(SPECIFICATION, b"D5:-"), 1))
    bench.same(0, bench.begin(wire.call(0, Command.GET_CHARACTERS, BUFFER, 300), 0))
    for message, status in (
        (wire.call(1, Command.OPEN, SPECIFICATION, aux1=READ), 0x82),
        (wire.call(1, Command.GET_CHARACTERS, BUFFER, 1), 0x85),
        (wire.call(0, Command.GET_CHARACTERS, BUFFER, 1), 0x83),
        (wire.call(2, Command.PUT_CHARACTERS, BUFFER, 1), 0x87),
        (wire.call(2, Command.GET_CHARACTERS, AREA - 1, 2), 0xB0),
        (wire.call(2, Command.OPEN, SPECIFICATION, aux1=READ), 0x81),
        (wire.call(1, Command.CLOSE), OK),
    ):
        bench.same((message, status), (message, bench.message(message, 1)[3]))
    bench.same(bytes.fromhex("90 04 00 01 2C 01 00"), bench.reply(0))


@case(DISK, "disk and console, printer, tape are four groups: neither port waits, whichever is the first")
def _(bench: Bench) -> None:
    bench.lend_tape()
    bench.lend_diskette(_diskette([_entry(NAME, 4)], {4: _sector(0, 4, b"A" * 125)}))
    for other in (b"E:", b"P:", b"C:"):
        reading = (b"D:HELLO.TXT\x9b", READ, Command.GET_CHARACTERS)
        writing = (other, WRITE, Command.PUT_CHARACTERS)
        for pair in ((reading, writing), (writing, reading)):
            bench.fresh()
            for port, (specification, aux1, _) in enumerate(pair):
                _specify(bench, port, 0, aux1, specification)
            bench.same(0, bench.begin(wire.call(0, pair[0][2], BUFFER, 300), 0))
            moved = bench.message(wire.call(0, pair[1][2], BUFFER, 200), 1)
            bench.same((bytes.fromhex("90 04 00 01 C8 00 00"), 200), (moved, bench.ticks))
            bench.same((2, 0), bench.state.phases)
            bench.same(bytes.fromhex("90 04 00 01 2C 01 00"), bench.reply(0))


@case(DISK, "a name is read in the port's own area; a key is taken while a request is at the disk")
def _(bench: Bench) -> None:
    bench.lend_diskette(HELLO)
    bench.same(bytes.fromhex("91 01 00 01"), bench.message(wire.load(SPECIFICATION, b"D:NONE\x9b"), 0))
    _specify(bench, 1, 0, READ, b"D:HELLO.TXT\x9b")
    opening = wire.call(0, Command.OPEN, SPECIFICATION, aux1=READ)
    bench.same(0xAA, bench.message(opening, 0)[3])
    bench.same(0, bench.begin(wire.call(0, Command.GET_CHARACTERS, BUFFER, 3), 1))
    bench.press(0x3F)
    bench.same(bytes.fromhex("90 04 00 03 03 00 00"), bench.reply(1))


@case(DISK, "fresh start: blocks closed, the diskettes' bytes as they were")
def _(bench: Bench) -> None:
    bench.lend_diskette(HELLO)
    bench.open(b"D:HELLO.TXT\x9b", READ)
    bench.get(2, b"HI")
    bench.fresh()
    bench.same(False, bench.state.blocks[0][0].is_open)
    bench.get(1, b"", 0x85)
    bench.open(b"D:HELLO.TXT\x9b", READ)
    bench.get(3, b"HI\x9b", LAST_CHARACTER)


@case(FILE_MANAGER, "its valid names D1:GAME.SRC, D:MANUAL6, D:.WHY, D3:FILE. and D4:BRIDGE.002 open")
def _(bench: Bench) -> None:
    for drive, names in (
        (1, (b"GAME    SRC", b"MANUAL6    ", b"        WHY")),
        (3, (b"FILE       ",)),
        (4, (b"BRIDGE  002",)),
    ):
        sectors = {4 + number: _sector(number, 0, name) for number, name in enumerate(names)}
        bench.lend_diskette(_diskette([_entry(name, 4 + number) for number, name in enumerate(names)], sectors), drive)
    for iocb, (specification, name) in enumerate(
        (
            (b"D1:GAME.SRC", b"GAME    SRC"),
            (b"D:MANUAL6", b"MANUAL6    "),
            (b"D:.WHY", b"        WHY"),
            (b"D3:FILE.", b"FILE       "),
            (b"D4:BRIDGE.002", b"BRIDGE  002"),
        )
    ):
        bench.open(specification + b"\x9b", READ, iocb=iocb)
        bench.get(11, name, LAST_CHARACTER, iocb=iocb)
    for drive in (3, 4):
        bench.lend_diskette(drive=drive)


@case(FILE_MANAGER, "WH? matches WHO, WHY, WH4 and not WHAT; WH* these and WHATEVER; *.SRC, BASIC.*, *.*, H*.?")
def _(bench: Bench) -> None:
    names = (
        b"WHO        ",
        b"WHY        ",
        b"WH4        ",
        b"WHAT       ",
        b"WHATEVER   ",
        b"GAME    SRC",
        b"BASIC   SRC",
        b"BASIC      ",
        b"HOLD    1  ",
        b"H          ",
        b"HOLD    12 ",
    )
    bench.lend_diskette(_diskette([_entry(name, 4) for name in names], {}))
    for pattern, expected in (
        (b"WH?", (0, 1, 2)),
        (b"WH*", (0, 1, 2, 3, 4)),
        (b"*.SRC", (5, 6)),
        (b"BASIC.*", (6, 7)),
        (b"*.*", range(11)),
        (b"H*.?", (8, 9)),
    ):
        _listed(bench, pattern, *(names[place] for place in expected))


@case(FILE_MANAGER, "no ATASCII control character has a special significance: all 256 bytes are read as they lie")
def _(bench: Bench) -> None:
    data = bytes(range(256))
    _file(bench, _sector(0, 5, data[:125]), _sector(0, 6, data[125:250]), _sector(0, 0, data[250:]))
    bench.get(256, data, LAST_CHARACTER, ticks=257)


# 02-change-requests, Ask 13: diskette doctor

DOCTOR = "02-change-requests, Ask 13"
SOUND = "00 00 00"
"""What the doctor answers of a sound diskette."""
MAP_PLACE = 128 * 359
"""Sector 360."""


def _healed(bench: Bench, expected: str, which: int = 0) -> None:
    """The doctor's answer and list; asked again it finds nothing."""
    bench.same(bytes.fromhex(expected), bench.doctor(which))
    bench.same(bytes.fromhex(SOUND), bench.doctor(which))


@case(DOCTOR, "HELLO.TXT is sound; a link to 361 is cut and the count set right; first sector 2 makes the flag $80")
def _(bench: Bench) -> None:
    bench.lend_diskette(HELLO)
    bench.same(bytes.fromhex(SOUND), bench.doctor())
    bench.write_diskette(LINK_PLACE, bytes.fromhex("01 69"))
    bench.write_diskette(ENTRY_PLACE + 1, b"\x02")
    _healed(bench, "00 03 00 04 00 7D 01 00 04 00 7E 69 00 69 01 01 02 01")
    bench.write_diskette(ENTRY_PLACE + 3, b"\x02")
    _healed(bench, "00 03 00 69 01 00 42 80 68 01 03 C2 C3 68 01 0A 07 0F")


@case(DOCTOR, "a second entry in use with first sector 4 is one change: sector 361 place 16, $42 to $80")
def _(bench: Bench) -> None:
    bench.lend_diskette(HELLO)
    bench.write_diskette(ENTRY_PLACE + 16, _entry(b"OTHER      ", 4))
    _healed(bench, "00 01 00 69 01 10 42 80")


@case(DOCTOR, "first sector 0 is an empty file, which is kept: its count, 1, becomes 0; sector 4 is free")
def _(bench: Bench) -> None:
    bench.lend_diskette(HELLO)
    bench.write_diskette(ENTRY_PLACE + 3, b"\x00")
    _healed(bench, "00 03 00 69 01 01 01 00 68 01 03 C2 C3 68 01 0A 07 0F")


@case(DOCTOR, "an image of zeros: 91 changes, the free count 707 and 89 bytes of the map; sector 0's bit stays")
def _(bench: Bench) -> None:
    bench.lend_diskette()
    expected = bytes.fromhex("00 5B 00 68 01 03 00 C3 68 01 04 00 02")
    for place, byte in enumerate(b"\x0f" + b"\xff" * 44 + b"\x00\x7f" + b"\xff" * 43, 10):
        if byte:
            expected += bytes([0x68, 0x01, place, 0x00, byte])
    _healed(bench, expected.hex())
    bench.lend_diskette()
    bench.write_diskette(MAP_PLACE + 10, b"\x80")
    bench.same(bytes.fromhex("68 01 0A 80 8F"), bench.doctor()[13:18])


@case(DOCTOR, "what a file is cut before: 720, reserved, its own sector, an earlier file's, another number, count 126")
def _(bench: Bench) -> None:
    names = (NAME, b"OTHER      ")
    for link, sectors in (
        (720, {}),
        (1_023, {}),
        (1, {1: _sector(1, 0, b"B")}),
        (360, {}),
        (368, {}),
        (5, {}),
        (4, {}),
        (6, {6: _sector(2, 0, b"B")}),
        (6, {6: _sector(1, 0, b"B", 126)}),
    ):
        held = {4: _sector(0, 0, b"A"), 5: _sector(1, link, b"B"), **sectors}
        lent = bytearray(_diskette([_entry(name, 4 + number) for number, name in enumerate(names)], held))
        lent[MAP_PLACE + 3], lent[MAP_PLACE + 10] = 0xC1, 0x03
        bench.lend_diskette(bytes(lent))
        expected = bytes([5, 0, 125, 4 + link // 256, 4]) if link > 255 else b""
        expected += bytes([5, 0, 126, link % 256, 0]) if link % 256 else b""
        _healed(bench, (b"\0" + (len(expected) // 5).to_bytes(2, "little") + expected).hex())


@case(DOCTOR, "348 changes: 64 files each cut by both bytes of its link and its count, and all of sector 360's")
def _(bench: Bench) -> None:
    """The files have sectors 4 to 67, each linked to 1,023; the map is what no byte of the right one is."""
    entries = [_entry(b"FILE%-7d" % number, 4 + number, count=0xFFFF) for number in range(64)]
    lent = bytearray(_diskette(entries, {4 + number: _sector(number, 1_023, b"A") for number in range(64)}))
    right = bytearray(90)
    for number in (*range(68, 360), *range(369, 720)):
        right[number // 8] |= 0x80 >> number % 8
    free = 719 - 12 - 64
    lent[MAP_PLACE + 3 : MAP_PLACE + 5] = bytes([free % 256 ^ 0xFF, free // 256 ^ 0xFF])
    lent[MAP_PLACE + 10 : MAP_PLACE + 100] = bytes(byte ^ 0x55 for byte in right)
    bench.lend_diskette(bytes(lent))
    expected = b"\0\x5c\x01"
    for number in range(64):
        sector = bytes([4 + number, 0])
        expected += sector + bytes([125, 4 * number + 3, 4 * number]) + sector + bytes([126, 0xFF, 0])
        entry, place = bytes([0x69 + number // 8, 0x01]), 16 * (number % 8)
        expected += entry + bytes([place + 1, 0xFF, 1]) + entry + bytes([place + 2, 0xFF, 0])
    for place, byte in ((3, free % 256), (4, free // 256)):
        expected += bytes([0x68, 0x01, place, byte ^ 0xFF, byte])
    for place, byte in enumerate(right, 10):
        expected += bytes([0x68, 0x01, place, byte ^ 0x55, byte])
    _healed(bench, expected.hex())


@case(DOCTOR, "entries behind the end are not walked, deleted ones claim nothing, locked ones are walked")
def _(bench: Bench) -> None:
    flags = (0x80, 0x62, 0x00, 0x42)
    entries = [_entry(b"FILE%d      " % number, 4, flag=flag) for number, flag in enumerate(flags)]
    bench.lend_diskette(_diskette(entries, {4: _sector(1, 0, b"A")}))
    bench.same(bytes.fromhex(SOUND), bench.doctor())
    bench.write_diskette(ENTRY_PLACE + 16 + 3, b"\x05")
    _healed(bench, "00 03 00 69 01 10 62 80 68 01 03 C2 C3 68 01 0A 07 0F")


@case(DOCTOR, "each of the four diskettes is its own; from 4 on there is none: 01 00 00, and nothing is changed")
def _(bench: Bench) -> None:
    for drive in range(1, script.DRIVES + 1):
        bench.lend_diskette(HELLO, drive)
        bench.write_diskette(ENTRY_PLACE + 1, bytes([1 + drive]), drive)
    for which in (4, 5, 255):
        bench.same(bytes.fromhex("01 00 00"), bench.doctor(which))
    for which in (2, 0, 3, 1):
        _healed(bench, f"00 01 00 69 01 01 {2 + which:02X} 01", which)
    for drive in range(2, script.DRIVES + 1):
        bench.lend_diskette(drive=drive)
