"""What may go wrong: an exception for each status from $80, named after what
it says, and those of the line."""

from __future__ import annotations

from typing import ClassVar


class StickError(Exception):
    """Anything that goes wrong between a host and the stick."""


class StreamEnded(StickError):
    """The byte stream ended, or its own time was over, before a reply did."""


class TimedOut(StickError):
    """Something did not come in time: ``awaited`` says what, ``seconds`` for
    how long it was awaited."""

    def __init__(self, awaited: str, seconds: float) -> None:
        super().__init__(f"{awaited} did not come in {seconds:g} s")
        self.awaited = awaited
        self.seconds = seconds


class BadReply(StickError):
    """The bytes read are no reply to what was asked."""


class StatusError(StickError):
    """A reply with a status from $80.

    ``status`` is the number, ``count`` the bytes that were moved before it,
    ``a`` the reply's A, and ``data`` what a read had stored by then.
    """

    number: ClassVar[int | None] = None
    meaning: ClassVar[str] = "a status that the stick does not have"

    def __init__(self, status: int, count: int = 0, a: int = 0, data: bytes = b"") -> None:
        super().__init__(f"${status:02X}: {self.meaning}")
        self.status = status
        self.count = count
        self.a = a
        self.data = data


class AlreadyOpen(StatusError):
    number = 0x81
    meaning = "OPEN on an open block, or of C while any block has it open"


class UnknownDevice(StatusError):
    number = 0x82
    meaning = "unknown device, or malformed specification"


class NotReadable(StatusError):
    number = 0x83
    meaning = "reading without R"


class BadCommand(StatusError):
    number = 0x84
    meaning = "bad command, SPECIAL, AUX1 not offered, FETCH count or field length"


class NotOpen(StatusError):
    number = 0x85
    meaning = "transfer on a closed block"


class BadIocb(StatusError):
    number = 0x86
    meaning = "IOCB above 7"


class NotWritable(StatusError):
    number = 0x87
    meaning = "writing without W"


class EndOfFile(StatusError):
    number = 0x88
    meaning = "end of file from K, C or D"


class RecordCut(StatusError):
    number = 0x89
    meaning = "record cut"


class CursorPastLastRow(StatusError):
    number = 0x8D
    meaning = "S cursor past the last row"


class Checksum(StatusError):
    number = 0x8F
    meaning = "data frame checksum error: a bad record on the tape"


class PaperFull(StatusError):
    number = 0x90
    meaning = "paper or tape full"


class ScreenMode(StatusError):
    number = 0x91
    meaning = "screen mode"


class UnknownTag(StatusError):
    number = 0x92
    meaning = "unknown tag"


class BadChain(StatusError):
    number = 0xA4
    meaning = "a bad link, file number or data count in a file's sectors, or a ring of them"


class BadFileName(StatusError):
    number = 0xA5
    meaning = "a byte that a file name has not: only A to Z, 0 to 9, *, ? and one dot"


class FileLocked(StatusError):
    number = 0xA7
    meaning = "GET STATUS of a locked file, which can be read all the same"


class FileNotFound(StatusError):
    number = 0xAA
    meaning = "no file of this name on the diskette"


class PastArea(StatusError):
    number = 0xB0
    meaning = "buffer or specification past the area"


BY_STATUS: dict[int, type[StatusError]] = {
    error.number: error for error in StatusError.__subclasses__() if error.number is not None
}


def check(status: int, count: int = 0, a: int = 0) -> None:
    """Raises the exception of a status from $80."""
    if status >= 0x80:
        raise BY_STATUS.get(status, StatusError)(status, count, a)
