"""Files in the sense of CIO, over any byte stream.

    stick = Stick(stream)
    with stick.open("P:", WRITE) as printer:
        printer.put_record(b"ten boxes of nails")

A stream has ``read(n)`` and ``write(data)``: a serial port, a
pseudo-terminal opened unbuffered, or a port of ``play``. ``read`` gives 1 to
n bytes. Without a ``fileno`` to wait for, no bytes (an end, or a timeout of
the stream's own) raise ``StreamEnded``.
"""

from __future__ import annotations

import os
from collections.abc import Iterator
from types import TracebackType

from . import wire
from .directory import Directory, DirectoryEntry
from .directory import parse as directory_of
from .errors import BadReply, EndOfFile, StatusError, StickError, StreamEnded, check
from .line import ByteStream, Limit, Line
from .wire import (
    AREA,
    DIRECTORY,
    EOL,
    FORCED,
    KEEP,
    LAST_CHARACTER,
    PIECE,
    READ,
    WRITE,
    CallReply,
    Command,
    FetchReply,
    LoadReply,
    Refusal,
)

__all__ = [
    "DIRECTORY",
    "EOL",
    "FORCED",
    "KEEP",
    "READ",
    "WRITE",
    "ByteStream",
    "Directory",
    "DirectoryEntry",
    "File",
    "Stick",
]

BLOCKS = 8
SPECIFICATION = 0
"""Where in the area specifications go."""
BUFFER = 16
"""Where in the area the buffer of transfers begins; it fills the rest."""
BUFFER_LENGTH = AREA - BUFFER
PATIENCE = 30.0
"""How long a reply is awaited, in seconds, unless another time is asked for."""
QUIET = 0.02
"""Seconds without a byte after which a line is quiet."""
BUSY = 1.0
"""Seconds without a byte after which an unfinished message is taken to be a
long one, and no request that is still at work."""


def _bytes(data: bytes) -> bytes:
    if isinstance(data, str):
        raise TypeError(f"bytes are wanted, not a str: b{data!r}")
    return data


class Stick:
    """One port of a stick. It has the port for itself.

    ``patience`` is how many seconds each reply is awaited, and each finding
    of the place; then ``TimedOut`` is raised. A stick finds its place when it
    is made, unless it is ``in_step``; a stream without ``fileno`` is, if
    nothing is said. ``close_all`` closes what earlier hosts left open.
    """

    def __init__(
        self,
        stream: ByteStream,
        patience: float = PATIENCE,
        *,
        in_step: bool | None = None,
        close_all: bool = False,
    ) -> None:
        self.patience = patience
        self._line = Line(stream)
        self._reader = wire.ReplyReader()
        self._files: dict[int, File] = {}
        # Blocks whose OPEN was sent and its reply not read: nobody knows.
        self._doubtful: set[int] = set()
        self._in_step = not self._line.can_look if in_step is None else in_step
        # Whether the last finding of the place came to nothing.
        self._lost = False
        if not self._in_step:
            self.find_place()
        if close_all:
            self.close_all()

    # messages

    def request(self, message: bytes) -> wire.Reply:
        """Sends a message and reads its reply. After a fault on the way the
        place is found before the next one is sent."""
        if not wire.whole(message):
            raise ValueError("a message is one whole field")
        if not self._in_step or self._line.waiting:
            self.find_place()
        limit = Limit(f"the reply to {wire.name(message)}", self.patience)
        self._in_step = False
        if self._line.write(message, limit):
            raise BadReply("a reply came before the message was sent")
        replies: list[wire.Reply] = []
        while not replies:
            replies = self._reader.feed(self._line.read(self._reader.needed, limit))
        if len(replies) > 1 or not wire.answers(message, replies[0]):
            raise BadReply(f"{wire.name(message)} was answered by {replies[0]}")
        self._in_step = True
        if isinstance(replies[0], Refusal):
            check(replies[0].status)
        return replies[0]

    def find_place(self) -> None:
        """Gets in step with the port, whatever was sent and read before.

        What is waiting is read; zeros end an unfinished message, and unknown
        tags lead to a boundary; there a marked reply shows that all before it
        has been read. An unfinished message is done with zeros for its rest.
        """
        self._in_step, self._lost = False, True
        self._reader = wire.ReplyReader()
        limit = Limit("the reply to a marked CALL", self.patience)
        while self._line.look(QUIET):
            limit.left()
        if not (self._line.can_look and self._end_by_zeros(limit) and self._settle(limit, BUSY)):
            self._line.write(wire.LONG_END, limit)
            self._settle(limit, self.patience)
        self._in_step, self._lost = True, False

    def _end_by_zeros(self, limit: Limit) -> bool:
        """Sends zeros, piece by piece, until something is heard."""
        for size in wire.ZEROS:
            if self._line.write(bytes(size), limit) or self._line.look(QUIET):
                return True
        return bool(self._line.look(min(BUSY, limit.left())))

    def _settle(self, limit: Limit, silence: float) -> bool:
        """Goes to a boundary and reads up to the reply that is marked; false
        if nothing is heard for so long."""
        marks = [1 + byte % 255 for byte in os.urandom(2)]
        expected = b"".join(map(wire.marked_reply, marks))
        came = self._line.write(wire.BOUNDARY + b"".join(map(wire.marked, marks)), limit)
        while not came.endswith(expected):
            left = limit.left()
            data = self._line.look(min(silence, left)) if self._line.can_look else self._line.read(1, limit)
            if not data and silence < left:
                return False
            came = came[-len(expected) :] + data
        return True

    def load(self, address: int, data: bytes) -> None:
        """Writes bytes into the port's area, in pieces."""
        data = _bytes(data)
        for at in range(0, len(data), PIECE):
            reply = self.request(wire.load(address + at, data[at : at + PIECE]))
            assert isinstance(reply, LoadReply)
            check(reply.status)

    def fetch(self, address: int, count: int) -> bytes:
        """Reads bytes of the port's area, in pieces."""
        data = b""
        while len(data) < count:
            reply = self.request(wire.fetch(address + len(data), min(PIECE, count - len(data))))
            assert isinstance(reply, FetchReply)
            check(reply.status)
            data += reply.data
        return data

    def call(
        self, iocb: int, command: int, address: int = 0, length: int = 0, aux1: int = 0, aux2: int = 0, a: int = 0
    ) -> CallReply:
        """A CALL; a status from $80 raises its exception, one below it is the
        reply's."""
        reply = self.request(wire.call(iocb, command, address, length, aux1, aux2, a))
        assert isinstance(reply, CallReply)
        check(reply.status, reply.count, reply.a)
        return reply

    # files

    def open(self, specification: str | bytes, aux1: int, aux2: int = 0) -> File:
        """Opens a device ("E:", "P2:", "C:") or a file of a diskette
        ("D:STOCK.DAT", "D2:S*.*": the first that matches) on the first block
        that is free here.

        ``aux1`` is made of READ, WRITE, FORCED and KEEP, or is DIRECTORY;
        ``aux2`` is the mode of S. A block that an earlier host left open
        raises ``AlreadyOpen``: ``close_all`` frees them.
        """
        iocb = self._free_block()
        self._load_specification(specification)
        self._doubtful.add(iocb)
        try:
            self.call(iocb, Command.OPEN, SPECIFICATION, 0, aux1, aux2)
        except StatusError:
            self._doubtful.discard(iocb)
            raise
        self._files[iocb] = File(self, iocb)
        self._doubtful.discard(iocb)
        return self._files[iocb]

    def status(self, specification: str | bytes, aux1: int = 0, aux2: int = 0) -> int:
        """GET STATUS of a device that is not open: it is opened for it, with
        all that an open does, and closed: of C with WRITE that overwrites the
        tape's first record. The status is $01 or raised, of a locked file as
        ``FileLocked``."""
        iocb = self._free_block()
        self._load_specification(specification)
        return self.call(iocb, Command.GET_STATUS, SPECIFICATION, 0, aux1, aux2).status

    def directory(self, specification: str | bytes = "D:*.*") -> Directory:
        """The files of a diskette whose names match, and how many sectors are
        free; none may match."""
        with self.open(specification, DIRECTORY) as file:
            data = file.get_rest()
        try:
            return directory_of(data)
        except ValueError as error:
            self._in_step = False
            raise BadReply(str(error)) from None

    def close_all(self) -> None:
        """Closes all blocks of the port, whoever opened them."""
        self._files.clear()
        for iocb in range(BLOCKS):
            self.call(iocb, Command.CLOSE)
        self._doubtful.clear()

    def _free_block(self) -> int:
        free = [iocb for iocb in range(BLOCKS) if iocb not in self._files]
        if not free:
            raise StickError(f"all {BLOCKS} control blocks are open")
        if free[0] in self._doubtful:
            self.call(free[0], Command.CLOSE)
            self._doubtful.discard(free[0])
        return free[0]

    def _load_specification(self, specification: str | bytes) -> None:
        data = specification.encode("ascii") if isinstance(specification, str) else specification
        if not 1 <= len(data) < BUFFER - SPECIFICATION:
            raise ValueError(f"a specification has 1 to {BUFFER - SPECIFICATION - 1} bytes")
        # An EOL after it, so that nothing left over is taken for a part of it.
        self.load(SPECIFICATION, data + bytes([EOL]))

    def _forget(self, file: File) -> None:
        if self._files.get(file.iocb) is file:
            del self._files[file.iocb]


class File:
    """An open control block. It closes itself at the end of a ``with``.

    A ``for`` over it reads its characters to the end of file, one by one.
    """

    def __init__(self, stick: Stick, iocb: int) -> None:
        self._stick = stick
        self.iocb = iocb
        self.at_end = False
        """Whether the last read came with $03: it gave the last character,
        and one more would raise ``EndOfFile``. A device that does not warn
        never sets it."""

    def put_characters(self, data: bytes) -> int:
        """Writes all bytes; how many."""
        data = _bytes(data)
        done = 0
        while done < len(data):
            done += self._put(Command.PUT_CHARACTERS, data[done : done + BUFFER_LENGTH], done)
        return done

    def put_record(self, data: bytes) -> int:
        """Writes a record: up to and with the first EOL, else with one added.
        How many bytes of the data; an added EOL is not counted."""
        data = _bytes(data)
        end = data.find(EOL)
        record = data if end < 0 else data[: end + 1]
        if not record:
            # A length of 0 would send A alone: so A is the EOL.
            self._stick.call(self.iocb, Command.PUT_RECORD, a=EOL)
            return 0
        done = 0
        while len(record) - done > BUFFER_LENGTH:
            done += self._put(Command.PUT_CHARACTERS, record[done : done + BUFFER_LENGTH], done)
        return done + self._put(Command.PUT_RECORD, record[done:], done)

    def put_character(self, byte: int) -> None:
        """Writes one byte by A, past the area."""
        self._stick.call(self.iocb, Command.PUT_CHARACTERS, a=byte)

    def get_characters(self, count: int) -> bytes:
        """Reads so many bytes; fewer are a refusal, ``EndOfFile`` too, and
        then its ``data``."""
        data = b""
        while len(data) < count:
            data += self._get(Command.GET_CHARACTERS, min(BUFFER_LENGTH, count - len(data)), data)
        return data

    def get_record(self, limit: int = 256) -> bytes:
        """Reads a record with its EOL. One of more than ``limit`` bytes
        raises ``RecordCut``, its beginning in ``data``; the rest is gone."""
        if not 1 <= limit <= BUFFER_LENGTH:
            raise ValueError(f"a record is read with a limit of 1 to {BUFFER_LENGTH}")
        return self._get(Command.GET_RECORD, limit, b"")

    def get_character(self) -> int:
        """Reads one byte by A, past the area."""
        return self._read(Command.GET_CHARACTERS).a

    def get_rest(self) -> bytes:
        """Reads to the end of file; E has none. What another refusal left is
        its ``data``."""
        data = b""
        while not self.at_end:
            try:
                data += self._get(Command.GET_CHARACTERS, BUFFER_LENGTH, data)
            except EndOfFile as end:
                return end.data
        return data

    def records(self, limit: int = 256) -> Iterator[bytes]:
        """The records to the end of file, each read when it is asked for; the
        last one may lack its EOL. One of more than ``limit`` bytes raises
        ``RecordCut``, and ``EndOfFile`` if it is the last and lacks its EOL:
        of one that fills the limit nobody knows whether it was longer."""
        while not self.at_end:
            try:
                record = self.get_record(limit)
            except EndOfFile as end:
                if end.count == limit:
                    raise
                if end.data:
                    yield end.data
                return
            yield record

    def __iter__(self) -> Iterator[int]:
        while not self.at_end:
            try:
                character = self.get_character()
            except EndOfFile:
                return
            yield character

    def status(self) -> int:
        """GET STATUS: $01, or raised."""
        return self._stick.call(self.iocb, Command.GET_STATUS).status

    def close(self) -> None:
        """Closes the block; once more does nothing."""
        if self._stick._files.get(self.iocb) is self:
            self._stick.call(self.iocb, Command.CLOSE)
            self._stick._forget(self)

    def __enter__(self) -> File:
        return self

    def __exit__(
        self, kind: type[BaseException] | None, error: BaseException | None, trace: TracebackType | None
    ) -> None:
        # After a lost stream there is nobody to close it with.
        if isinstance(error, (StreamEnded, OSError)) or (error is not None and self._stick._lost):
            return
        try:
            self.close()
        except (StickError, OSError):
            if error is None:
                raise

    def _put(self, command: Command, data: bytes, before: int) -> int:
        self._stick.load(BUFFER, data)
        try:
            return self._stick.call(self.iocb, command, BUFFER, len(data)).count
        except StatusError as error:
            error.count += before
            raise

    def _read(self, command: Command, address: int = 0, length: int = 0) -> CallReply:
        # Whatever comes of it, what the read before it said is over.
        self.at_end = False
        reply = self._stick.call(self.iocb, command, address, length)
        self.at_end = reply.status == LAST_CHARACTER
        return reply

    def _get(self, command: Command, count: int, before: bytes) -> bytes:
        try:
            stored = self._read(command, BUFFER, count).count
        except StatusError as error:
            error.data = before + self._stick.fetch(BUFFER, error.count)
            error.count = len(error.data)
            raise
        return self._stick.fetch(BUFFER, stored)
