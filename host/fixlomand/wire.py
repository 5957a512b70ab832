"""Messages made and replies read: LOAD, FETCH and CALL.

A message is one field: a tag, a length of two bytes (low byte first), and
the value. A reply has the same form.
"""

from __future__ import annotations

from dataclasses import dataclass
from enum import IntEnum
from typing import Union

from .errors import BadReply

EOL = 0x9B
"""The end of a record."""
AREA = 16_384
"""The bytes of a port's area."""
PIECE = 256
"""The most bytes of one LOAD or FETCH."""


class Tag(IntEnum):
    """Tags of messages; a reply's is $80 more, a refused field's is $FF."""

    CALL = 0x10
    LOAD = 0x11
    FETCH = 0x12


REPLY = 0x80
REFUSED = 0xFF


class Command(IntEnum):
    """Commands of CALL; what is above GET_STATUS is SPECIAL."""

    OPEN = 0x03
    GET_RECORD = 0x05
    GET_CHARACTERS = 0x07
    PUT_RECORD = 0x09
    PUT_CHARACTERS = 0x0B
    CLOSE = 0x0C
    GET_STATUS = 0x0D


READ = 0x04
"""AUX1: R."""
WRITE = 0x08
"""AUX1: W."""
FORCED = 0x01
"""AUX1 of E: forced read, needed with R."""
KEEP = 0x20
"""AUX1 of S: the cells are kept, each modulo the colours."""
DIRECTORY = 0x06
"""AUX1 of D, the whole of it: the directory is opened, and no file."""

SUCCESS = 0x01
"""The status of success."""
LAST_CHARACTER = 0x03
"""The status of a read from C or D whose last character is the last of all:
the next read would give $88. It is below $80, and refuses nothing."""


def word(number: int) -> bytes:
    """A two-byte number, low byte first."""
    if not 0 <= number <= 0xFFFF:
        raise ValueError(f"not a two-byte number: {number}")
    return number.to_bytes(2, "little")


def field(tag: int, value: bytes) -> bytes:
    """A field of any tag and value."""
    return bytes([tag]) + word(len(value)) + value


def load(address: int, data: bytes) -> bytes:
    """LOAD 1 to 256 bytes into the area."""
    if not 1 <= len(data) <= PIECE:
        raise ValueError(f"LOAD takes 1 to {PIECE} bytes, not {len(data)}")
    return field(Tag.LOAD, word(address) + data)


def fetch(address: int, count: int) -> bytes:
    """FETCH bytes from the area; the stick gives 1 to 256."""
    return field(Tag.FETCH, word(address) + word(count))


def call(
    iocb: int, command: int, address: int = 0, length: int = 0, aux1: int = 0, aux2: int = 0, a: int = 0
) -> bytes:
    """CALL a command on a control block."""
    return field(Tag.CALL, bytes([iocb, command]) + word(address) + word(length) + bytes([aux1, aux2, a]))


def whole(message: bytes) -> bool:
    """Whether the bytes are one field, no more and no less."""
    return len(message) >= 3 and len(message) == 3 + int.from_bytes(message[1:3], "little")


def name(message: bytes) -> str:
    """What a whole message asks for."""
    tag = message[0]
    if tag == Tag.CALL and len(message) == 12:
        command = message[4]
        known = [each.name.replace("_", " ") for each in Command if each == command]
        return known[0] if known else f"command ${command:02X}"
    return Tag(tag).name if tag in list(Tag) else f"tag ${tag:02X}"


def closes(message: bytes) -> bool:
    """Whether a whole message may close a block: GET STATUS and SPECIAL close
    what they have opened."""
    return message[0] == Tag.CALL and len(message) == 12 and message[4] >= Command.CLOSE


# what finds a port's place, whatever it has taken before

ZEROS = tuple(1 << power for power in range(9))
"""The growing pieces of zeros, 511 in all, that end every message which does
something; a longer one is a wrong length, whose value is dropped."""
LONG_END = bytes(sum(ZEROS)) + b"\x01" * (0xFFFF - sum(ZEROS)) + bytes(257)
"""Ends a message of any length. What is left of the bytes $01 are messages
of an unknown tag and of 257 bytes, few where zeros would be thousands; the
zeros after them end the last one."""
BOUNDARY = bytes.fromhex("00 00 01 00 00 00 FB 00") + bytes(251)
"""Unknown tags that end together, whether none, one or two zeros were taken
before them."""


def marked(mark: int) -> bytes:
    """A CALL that does nothing and never waits: its IOCB is refused."""
    return call(0xFF, 0, a=mark)


def marked_reply(mark: int) -> bytes:
    """The reply to ``marked``, as bytes: it has the mark."""
    return field(REPLY + Tag.CALL, bytes([0x86, 0, 0, mark]))


@dataclass(frozen=True)
class CallReply:
    """The reply to CALL."""

    status: int
    count: int
    a: int


@dataclass(frozen=True)
class LoadReply:
    """The reply to LOAD."""

    status: int


@dataclass(frozen=True)
class FetchReply:
    """The reply to FETCH; there are bytes only beside status $01."""

    status: int
    data: bytes


@dataclass(frozen=True)
class Refusal:
    """The reply to an unknown tag ($92) or a wrong length ($84)."""

    status: int


Reply = Union[CallReply, LoadReply, FetchReply, Refusal]


def reply_of(tag: int, value: bytes) -> Reply:
    """The reply that a field is."""
    if tag == REPLY + Tag.CALL and len(value) == 4:
        return CallReply(value[0], int.from_bytes(value[1:3], "little"), value[3])
    if tag == REPLY + Tag.LOAD and len(value) == 1:
        return LoadReply(value[0])
    if tag == REPLY + Tag.FETCH and (len(value) == 1 or 2 <= len(value) <= 1 + PIECE and value[0] == SUCCESS):
        return FetchReply(value[0], value[1:])
    if tag == REFUSED and len(value) == 1:
        return Refusal(value[0])
    raise BadReply(f"no reply: tag ${tag:02X}, {len(value)} bytes")


def answers(message: bytes, reply: Reply) -> bool:
    """Whether a reply can be that to a whole message."""
    tag, length = message[0], len(message) - 3
    if tag == Tag.CALL and length == 9:
        return isinstance(reply, CallReply)
    if tag == Tag.LOAD and 3 <= length <= 2 + PIECE:
        return isinstance(reply, LoadReply)
    if tag == Tag.FETCH and length == 4:
        count = int.from_bytes(message[5:7], "little")
        return isinstance(reply, FetchReply) and len(reply.data) == (count if reply.status == SUCCESS else 0)
    return reply == Refusal(0x84 if tag in list(Tag) else 0x92)


class ReplyReader:
    """Reads replies from bytes that come in pieces of any size."""

    def __init__(self) -> None:
        self._bytes = bytearray()

    @property
    def needed(self) -> int:
        """How many bytes are missing for certain: never 0."""
        have = len(self._bytes)
        return 3 - have if have < 3 else max(1, self._length() - have)

    def feed(self, data: bytes) -> list[Reply]:
        """Takes bytes; gives the replies that they complete."""
        self._bytes += data
        replies = []
        while len(self._bytes) >= 3 and len(self._bytes) >= self._length():
            whole = bytes(self._bytes[: self._length()])
            del self._bytes[: len(whole)]
            replies.append(reply_of(whole[0], whole[3:]))
        return replies

    def _length(self) -> int:
        return 3 + int.from_bytes(self._bytes[1:3], "little")
