"""The call script of ``play``: its ops as bytes and as readable text.

The readable form has one op a line; ``#`` begins a comment::

    fresh                    F
    take 0 11 05 00          T, once for each byte (hexadecimal)
    tick 0                   K
    tick 0 x 300             X: up to 300 ticks
    give 0                   G
    give 0 x 4               G, four times
    press 3F                 P (hexadecimal)
    lend area 100            L: area, screen, paper, state, tape, images, or
                             their numbers, 0 to 4 and 6
    write tape 132 55 55     W: any of these but state, from a place on (the
                             bytes hexadecimal)
    dump                     D
    dump tape                C: the tape, and where its head stands
    doctor 0                 R: repairs a diskette, 0 to 3 (D1 to D4)
    raw 54 00                bytes as they are (no op, or one that is cut)
"""

from __future__ import annotations

from collections.abc import Callable, Iterator, Sequence
from dataclasses import dataclass
from enum import IntEnum
from itertools import groupby
from typing import Union

from .text import counted

AREA = 16_384
SCREEN = 61_440
PAPER = 4_096
TAPE = 33_000
PENDING = 128
"""The bytes of a tape's dump for pending characters."""
IMAGE = 92_160
"""The bytes of a diskette: 720 sectors of 128."""
DRIVES = 4
IMAGES = DRIVES * IMAGE
CHANGE = 5
"""The bytes of a change that the doctor lists: sector (2), place, old, new."""


class Buffer(IntEnum):
    """The lent buffers, by the number that a script has for each."""

    AREA = 0
    SCREEN = 1
    PAPER = 2
    STATE = 3
    TAPE = 4
    IMAGES = 6


WRITTEN = tuple(buffer for buffer in Buffer if buffer is not Buffer.STATE)
"""The buffers that W writes into; into another it writes nothing."""
MARKS = ("closed", "reading", "writing", "open with neither R nor W")
"""How the tape is open, by its mark."""
PHASES = ("gathering", "ready", "running", "replying")
ANSWERS = (
    "done",
    "port above 1",
    "a lent buffer has another length",
    "damaged state",
    "byte offered while not gathering",
    "no reply byte to give",
    "key pressed while a request holds the console",
    "tick, nothing ready or running",
    "tick, ready, group held by the other port",
)
DOCTOR_ANSWERS = ("done", "no such diskette")
"""The doctor's own answers: it is no call."""
NUMBERS = (
    ("used", 2),
    ("mode", 1),
    ("row", 1),
    ("column", 2),
    ("last", 1),
    ("escape", 1),
    ("read column", 1),
    ("key", 1),
    ("lock", 1),
    ("inverse", 1),
)
"""The numbers of a dump after area, screen and paper: name, bytes."""
DUMP = 2 * AREA + SCREEN + PAPER + sum(length for _, length in NUMBERS) + 2 * 8 * 4 + 2
"""The bytes of a dump."""
TAPE_DUMP = TAPE + 4 + PENDING
"""The bytes of a tape's dump: the tape, its mark, record (2) and place, and
the pending characters."""
TAKES = 16
"""The most bytes of a take on one line."""


class ScriptError(ValueError):
    """A line that is no op."""


@dataclass(frozen=True)
class Fresh:
    """Fresh start."""

    output = 1

    def encode(self) -> bytes:
        return b"F"


@dataclass(frozen=True)
class Take:
    """Take a byte."""

    port: int
    byte: int
    output = 1

    def encode(self) -> bytes:
        return bytes([ord("T"), self.port, self.byte])


@dataclass(frozen=True)
class Tick:
    """Tick a port."""

    port: int
    output = 1

    def encode(self) -> bytes:
        return bytes([ord("K"), self.port])


@dataclass(frozen=True)
class Give:
    """Give the next reply byte."""

    port: int
    output = 2

    def encode(self) -> bytes:
        return bytes([ord("G"), self.port])


@dataclass(frozen=True)
class Press:
    """Press a key."""

    code: int
    output = 1

    def encode(self) -> bytes:
        return bytes([ord("P"), self.code])


@dataclass(frozen=True)
class Ticks:
    """Tick up to ``count`` times, while the port runs on."""

    port: int
    count: int
    output = 3

    def encode(self) -> bytes:
        return bytes([ord("X"), self.port]) + self.count.to_bytes(2, "little")


@dataclass(frozen=True)
class Lend:
    """Lend a buffer cut to ``length`` from now on."""

    buffer: int
    length: int
    output = 0

    def encode(self) -> bytes:
        return bytes([ord("L"), self.buffer]) + self.length.to_bytes(3, "little")


@dataclass(frozen=True)
class Write:
    """Write bytes into a buffer from ``at`` on, cut at its end: no call."""

    buffer: int
    at: int
    data: bytes
    output = 0

    def encode(self) -> bytes:
        numbers = self.at.to_bytes(3, "little") + len(self.data).to_bytes(2, "little")
        return bytes([ord("W"), self.buffer]) + numbers + self.data


@dataclass(frozen=True)
class Dump:
    """Dump all but the tape and the diskettes."""

    output = DUMP

    def encode(self) -> bytes:
        return b"D"


@dataclass(frozen=True)
class DumpTape:
    """Dump the tape."""

    output = TAPE_DUMP

    def encode(self) -> bytes:
        return b"C"


@dataclass(frozen=True)
class Doctor:
    """Repair a diskette: no call. Written are the answer and how many changes
    there are (2), and behind these the changes."""

    image: int
    output = 3

    def encode(self) -> bytes:
        return bytes([ord("R"), self.image])


@dataclass(frozen=True)
class Raw:
    """Bytes that are no op, or a cut one: the run ends here."""

    data: bytes
    output = 0

    def encode(self) -> bytes:
        return self.data


Op = Union[Fresh, Take, Tick, Give, Press, Ticks, Lend, Write, Dump, DumpTape, Doctor, Raw]


def written(op: Op, output: bytes) -> int:
    """How many bytes are written for an op, by those that it begins with."""
    if isinstance(op, Doctor) and len(output) >= op.output:
        return op.output + CHANGE * int.from_bytes(output[1:3], "little")
    return op.output


def pieces(ops: Sequence[Op], output: bytes) -> list[bytes]:
    """What was written for each op, of what was written for all; where that
    ends early, what there is."""
    found = []
    at = 0
    for op in ops:
        end = at + written(op, output[at : at + op.output])
        found.append(output[at:end])
        at = end
    return found


def to_bytes(ops: Sequence[Op]) -> bytes:
    """The script of some ops."""
    return b"".join(op.encode() for op in ops)


def from_bytes(script: bytes) -> list[Op]:
    """The ops of a script; what ends its run is the last, as ``Raw``."""
    lengths = {b"F": 1, b"T": 3, b"K": 2, b"G": 2, b"P": 2, b"X": 4, b"L": 5, b"W": 7, b"D": 1, b"C": 1, b"R": 2}
    ops: list[Op] = []
    at = 0
    while at < len(script):
        letter = script[at : at + 1]
        length = lengths.get(letter, 0)
        if letter == b"W":
            length += int.from_bytes(script[at + 5 : at + 7], "little")
        if length == 0 or at + length > len(script):
            ops.append(Raw(script[at:]))
            break
        ops.append(_op(letter, script[at + 1 : at + length]))
        at += length
    return ops


def _op(letter: bytes, operands: bytes) -> Op:
    if letter == b"F":
        return Fresh()
    if letter == b"D":
        return Dump()
    if letter == b"C":
        return DumpTape()
    if letter == b"W":
        return Write(operands[0], int.from_bytes(operands[1:4], "little"), operands[6:])
    first, rest = operands[0], int.from_bytes(operands[1:], "little")
    if letter == b"T":
        return Take(first, rest)
    if letter == b"K":
        return Tick(first)
    if letter == b"G":
        return Give(first)
    if letter == b"P":
        return Press(first)
    if letter == b"X":
        return Ticks(first, rest)
    if letter == b"R":
        return Doctor(first)
    return Lend(first, rest)


# readable text


def parse(text: str) -> list[Op]:
    """Reads the readable form; the error names the line, the field in it and
    what the field may be."""
    script = b""
    for number, line in enumerate(text.splitlines(), 1):
        words = line.split("#")[0].split()
        if words:
            try:
                script += to_bytes(_line_ops(words))
            except ScriptError as error:
                raise ScriptError(f"line {number}: {error}") from None
    return from_bytes(script)


FORMS = {
    "fresh": "fresh",
    "take": "take PORT BYTES",
    "tick": "tick PORT [x N]",
    "give": "give PORT [x N]",
    "press": "press CODE",
    "lend": "lend BUFFER LENGTH",
    "write": "write BUFFER AT BYTES",
    "dump": "dump [tape]",
    "doctor": "doctor N",
    "raw": "raw BYTES",
}
"""The form of each op's line."""


def _number(field: str, word: str, most: int) -> int:
    if not (word.isascii() and word.isdigit()):
        raise ScriptError(f"{field} {word}: not a number")
    if int(word) > most:
        raise ScriptError(f"{field} {word}: at most {most}")
    return int(word)


def _byte(field: str, word: str) -> int:
    if any(digit not in "0123456789abcdefABCDEF" for digit in word):
        raise ScriptError(f"{field} {word}: not hexadecimal")
    if int(word, 16) > 0xFF:
        raise ScriptError(f"{field} {word}: at most FF")
    return int(word, 16)


def _buffer(word: str, among: Sequence[Buffer] = tuple(Buffer)) -> Buffer:
    for buffer in among:
        if word in (_name(buffer), str(int(buffer))):
            return buffer
    names = ", ".join(f"{int(buffer)} {_name(buffer)}" for buffer in among)
    raise ScriptError(f"buffer {word}: there is none; the buffers are {names}")


def _name(buffer: int) -> str:
    return Buffer(buffer).name.lower()


def _line_ops(words: list[str]) -> list[Op]:
    name, operands = words[0], words[1:]
    if name not in FORMS:
        raise ScriptError(f"not an op: {' '.join(words)}")
    if name == "fresh" and not operands:
        return [Fresh()]
    if name == "dump" and not operands:
        return [Dump()]
    if name == "dump" and operands == ["tape"]:
        return [DumpTape()]
    if name == "take" and len(operands) > 1:
        port = _number("port", operands[0], 255)
        return [Take(port, _byte("byte", word)) for word in operands[1:]]
    if name in ("tick", "give") and (len(operands) == 1 or len(operands) == 3 and operands[1] == "x"):
        port = _number("port", operands[0], 255)
        if len(operands) == 1:
            return [Tick(port) if name == "tick" else Give(port)]
        count = _number("count", operands[2], 0xFFFF)
        return [Ticks(port, count)] if name == "tick" else [Give(port)] * count
    if name == "press" and len(operands) == 1:
        return [Press(_byte("code", operands[0]))]
    if name == "lend" and len(operands) == 2:
        return [Lend(_buffer(operands[0]), _number("length", operands[1], 0xFFFFFF))]
    if name == "write" and len(operands) > 1:
        buffer, at = _buffer(operands[0], WRITTEN), _number("place", operands[1], 0xFFFFFF)
        if len(operands) - 2 > 0xFFFF:
            raise ScriptError(f"{len(operands) - 2} bytes: at most {0xFFFF}")
        return [Write(buffer, at, bytes(_byte("byte", word) for word in operands[2:]))]
    if name == "doctor" and len(operands) == 1:
        return [Doctor(_number("diskette", operands[0], 255))]
    if name == "raw" and operands:
        return [Raw(bytes(_byte("byte", word) for word in operands))]
    raise ScriptError(f"{' '.join(words)}: not of the form {FORMS[name]}")


def to_text(ops: Sequence[Op]) -> str:
    """Ops in readable form."""
    return "".join(f"{line}\n" for line, _ in _lines(ops))


def _lines(ops: Sequence[Op]) -> Iterator[tuple[str, Sequence[Op]]]:
    """The lines of a text, each with its ops."""
    at = 0
    while at < len(ops):
        op = ops[at]
        end = at + 1
        if isinstance(op, Take):
            taken = [op.byte]
            while end < len(ops) and end - at < TAKES:
                other = ops[end]
                if not isinstance(other, Take) or other.port != op.port:
                    break
                taken.append(other.byte)
                end += 1
            line = f"take {op.port} {_hexadecimal(bytes(taken))}"
        elif isinstance(op, Give):
            while end < len(ops) and ops[end] == op:
                end += 1
            line = f"give {op.port}" if end == at + 1 else f"give {op.port} x {end - at}"
        else:
            line = _line(op)
        yield line, ops[at:end]
        at = end


def _line(op: Op) -> str:
    if isinstance(op, Fresh):
        return "fresh"
    if isinstance(op, Take):
        return f"take {op.port} {op.byte:02X}"
    if isinstance(op, Tick):
        return f"tick {op.port}"
    if isinstance(op, Give):
        return f"give {op.port}"
    if isinstance(op, Press):
        return f"press {op.code:02X}"
    if isinstance(op, Ticks):
        return f"tick {op.port} x {op.count}"
    if isinstance(op, Lend) and op.buffer in tuple(Buffer):
        return f"lend {_name(op.buffer)} {op.length}"
    if isinstance(op, Write) and op.buffer in WRITTEN:
        return f"write {_name(op.buffer)} {op.at} {_hexadecimal(op.data)}".rstrip()
    if isinstance(op, Dump):
        return "dump"
    if isinstance(op, DumpTape):
        return "dump tape"
    if isinstance(op, Doctor):
        return f"doctor {op.image}"
    return f"raw {_hexadecimal(op.encode())}"


def _hexadecimal(data: bytes) -> str:
    return data.hex(" ").upper()


# answers


@dataclass(frozen=True)
class Block:
    """A control block of a dump."""

    is_open: bool
    device: str
    number: int
    aux1: int


@dataclass(frozen=True)
class State:
    """What a dump tells."""

    areas: tuple[bytes, bytes]
    screen: bytes
    paper: bytes
    """The whole paper; ``used`` bytes of it are printed."""
    used: int
    mode: int
    row: int
    column: int
    last: int
    escape: bool
    read_column: int | None
    key: int
    lock: int
    inverse: int
    blocks: tuple[tuple[Block, ...], tuple[Block, ...]]
    phases: tuple[int, int]


@dataclass(frozen=True)
class Tape:
    """What a dump of the tape tells."""

    data: bytes
    mark: int
    """0 closed, 1 reading, 2 writing, 3 open with neither R nor W."""
    record: int
    """The record that holds or takes the next character."""
    place: int
    """The next character's place in it; in writing, the number pending."""
    pending: bytes
    """The characters put that are not on the tape."""


@dataclass(frozen=True)
class Change:
    """A byte of a diskette that the doctor has changed."""

    sector: int
    """From 1 on."""
    place: int
    """In the sector, from 0 on."""
    old: int
    new: int


def read_changes(output: bytes) -> list[Change]:
    """Reads what ``doctor`` wrote; ``ValueError`` if it did not repair."""
    if len(output) < Doctor.output or len(output) != written(Doctor(0), output) or output[0] != 0:
        raise ValueError(f"no list of changes: {_hexadecimal(output[:Doctor.output])}")
    return [
        Change(int.from_bytes(output[at : at + 2], "little"), *output[at + 2 : at + CHANGE])
        for at in range(Doctor.output, len(output), CHANGE)
    ]


def read_tape(output: bytes) -> Tape:
    """Reads what ``dump tape`` wrote."""
    if len(output) != TAPE_DUMP:
        raise ValueError(f"a tape's dump has {TAPE_DUMP} bytes, not {len(output)}")
    mark, record, place = output[TAPE], int.from_bytes(output[TAPE + 1 : TAPE + 3], "little"), output[TAPE + 3]
    pending = output[TAPE + 4 : TAPE + 4 + place] if mark == MARKS.index("writing") else b""
    return Tape(output[:TAPE], mark, record, place, pending)


def read_dump(output: bytes) -> State:
    """Reads what ``dump`` wrote."""
    if len(output) != DUMP:
        raise ValueError(f"a dump has {DUMP} bytes, not {len(output)}")
    places = (AREA, 2 * AREA, 2 * AREA + SCREEN, 2 * AREA + SCREEN + PAPER)
    number, at = _numbers(output, places[3])
    blocks = [
        Block(output[place] == 1, chr(output[place + 1]) if output[place + 1] else "", *output[place + 2 : place + 4])
        for place in range(at, at + 64, 4)
    ]
    return State(
        areas=(output[: places[0]], output[places[0] : places[1]]),
        screen=output[places[1] : places[2]],
        paper=output[places[2] : places[3]],
        used=number["used"],
        mode=number["mode"],
        row=number["row"],
        column=number["column"],
        last=number["last"],
        escape=number["escape"] == 1,
        read_column=None if number["read column"] == 255 else number["read column"],
        key=number["key"],
        lock=number["lock"],
        inverse=number["inverse"],
        blocks=(tuple(blocks[:8]), tuple(blocks[8:])),
        phases=(output[at + 64], output[at + 65]),
    )


def _numbers(output: bytes, at: int) -> tuple[dict[str, int], int]:
    numbers = {}
    for name, length in NUMBERS:
        numbers[name] = int.from_bytes(output[at : at + length], "little")
        at += length
    return numbers, at


def answer_text(answer: int) -> str:
    """An answer with its meaning."""
    return f"{answer} {ANSWERS[answer] if answer < len(ANSWERS) else 'no such answer'}"


def describe(op: Op, output: bytes) -> str:
    """What was written for one op, in words. Cut output says so."""
    if len(output) < written(op, output):
        return f"the output ends after {_hexadecimal(output)}" if output else "the output ends"
    if isinstance(op, Give):
        return f"{answer_text(output[0])}, byte {output[1]:02X}"
    if isinstance(op, Ticks):
        return f"ticks {int.from_bytes(output[:2], 'little')}, last {answer_text(output[2])}"
    if isinstance(op, (Lend, Write, Raw)):
        return "nothing"
    if isinstance(op, Dump):
        return _describe_dump(output)
    if isinstance(op, DumpTape):
        return _describe_tape(read_tape(output))
    if isinstance(op, Doctor):
        return _describe_doctor(output)
    return answer_text(output[0])


def _describe_dump(output: bytes) -> str:
    """A dump's numbers and open blocks on one line; its buffers are left out."""
    numbers, at = _numbers(output, 2 * AREA + SCREEN + PAPER)
    parts = [f"{name} {value}" for name, value in numbers.items()]
    for place in range(16):
        block = output[at + 4 * place : at + 4 * place + 4]
        if any(block):
            parts.append(f"port {place // 8} block {place % 8} {chr(block[1])}{block[2]}: AUX1 {block[3]:02X}")
    for port in (0, 1):
        phase = output[at + 64 + port]
        parts.append(f"port {port} {PHASES[phase] if phase < len(PHASES) else 'in no phase'}")
    return ", ".join(parts)


def _describe_tape(tape: Tape) -> str:
    """The numbers of a tape's dump on one line."""
    mark = MARKS[tape.mark] if tape.mark < len(MARKS) else "no such mark"
    return f"mark {tape.mark} {mark}, record {tape.record}, place {tape.place}"


def _describe_doctor(output: bytes) -> str:
    """The doctor's answer, and how many changes there are."""
    answer, number = output[0], int.from_bytes(output[1:3], "little")
    said = DOCTOR_ANSWERS[answer] if answer < len(DOCTOR_ANSWERS) else "no such answer"
    return f"{answer} {said}, {counted(number, 'change')}"


def _changes_shown(output: bytes) -> list[str]:
    if output[:1] != b"\0":
        return []
    return [f"  sector {each.sector} place {each.place}: {each.old:02X} to {each.new:02X}" for each in read_changes(output)]


def format_answers(
    ops: Sequence[Op], output: bytes, shown: Callable[[Union[State, Tape]], list[str]] = lambda dump: []
) -> list[str]:
    """The lines of a script, each with what was written for it; after a dump
    the lines that show it, and after a doctor its changes."""
    lines = []
    rest = iter(pieces(ops, output))
    for line, of_line in _lines(ops):
        those = [(op, next(rest)) for op in of_line]
        lines.append(f"{line}: {_together(those)}" if of_line[0].output else line)
        op, piece = those[0]
        if len(piece) < written(op, piece):
            continue
        if isinstance(op, Dump):
            lines += shown(read_dump(piece))
        if isinstance(op, DumpTape):
            lines += shown(read_tape(piece))
        if isinstance(op, Doctor):
            lines += _changes_shown(piece)
    return lines


def _together(those: list[tuple[Op, bytes]]) -> str:
    """The answers of one line: bytes given in a row, equal answers once."""
    if len(those) > 1 and all(isinstance(op, Give) and len(piece) == 2 and piece[0] == 0 for op, piece in those):
        return f"{answer_text(0)}, bytes {_hexadecimal(bytes(piece[1] for _, piece in those))}"
    answers = [describe(op, piece) for op, piece in those]
    runs = [(words, len(list(equal))) for words, equal in groupby(answers)]
    return "; ".join(words if times == 1 else f"{words} (x {times})" for words, times in runs)
