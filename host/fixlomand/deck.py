"""Tapes in files, and the tape of a running ``play``.

A file whose name ends in ``.cas`` is a CAS file, any other a TAPE: the 33,000
bytes of a tape as they lie.
"""

from __future__ import annotations

import os
from collections.abc import Sequence
from dataclasses import dataclass

from . import cas, files, script, tape
from .errors import StickError
from .play import Player
from .tape import RECORD, Record
from .text import counted

CLOSED, WRITING = script.MARKS.index("closed"), script.MARKS.index("writing")


@dataclass(frozen=True)
class Recorded:
    """What a file holds: its records, and of a CAS file where each is from."""

    records: list[Record]
    taken: list[cas.Taken]


def is_cas(file: str) -> bool:
    """Whether a file is a CAS file, by its name."""
    return file.lower().endswith(".cas")


def read_cas(file: str) -> Recorded:
    """Reads a CAS file, whatever its name."""
    try:
        taken = cas.parse(files.read(file))
    except cas.Refused as refused:
        raise StickError(f"{file}: {refused}") from None
    return Recorded([each.record for each in taken], taken)


def read(file: str) -> Recorded:
    """Reads a TAPE or a CAS file."""
    if is_cas(file):
        return read_cas(file)
    data = files.read(file)
    if len(data) != script.TAPE:
        hint = "; a CAS file's name ends in .cas" if data[:4] == b"FUJI" else ""
        raise StickError(f"{file}: a TAPE has {script.TAPE} bytes, and this file {len(data)}{hint}")
    return Recorded(tape.records_of(data), [])


def check_room(file: str, taken: Sequence[cas.Taken]) -> None:
    """What is taken of a CAS file must fit a tape."""
    try:
        cas.check_room(taken)
    except cas.Refused as refused:
        raise StickError(f"{file}: {refused}") from None


def through_the_end(records: Sequence[Record]) -> Sequence[Record]:
    """The records through the last end record; all if there is none."""
    ends = [place for place, record in enumerate(records) if record.is_end]
    return records[: ends[-1] + 1] if ends else records


def write(file: str, data: bytes) -> None:
    """Writes a tape as a TAPE or as a CAS file."""
    files.write(file, cas.encode(through_the_end(tape.records_of(data))) if is_cas(file) else data)


def lend(player: Player, records: Sequence[Record]) -> None:
    """Puts records on the tape of a new ``play``, which is blank."""
    tape_buffer = script.Buffer.TAPE
    player.do(*(script.Write(tape_buffer, RECORD * place, record.data) for place, record in enumerate(records)))


class Deck:
    """The tape of a running ``play`` with the file that keeps it, or none."""

    def __init__(self, file: str | None) -> None:
        """Reads the file, if there is one; else the tape is blank."""
        self.file = file
        self.is_new = file is not None and not os.path.exists(file)
        self.fault = ""
        """Why the file has not what the tape has, if so."""
        self.left = script.Tape(bytes(script.TAPE), CLOSED, 0, 0, b"")
        """The tape when it was taken out."""
        recorded = Recorded([], [])
        if file is not None:
            files.check_directory(file)
            if not self.is_new:
                recorded = read(file)
                check_room(file, recorded.taken)
        self._records = recorded.records
        self._kept = None if self.is_new else tape.tape_of(recorded.records)

    def put_in(self, player: Player) -> None:
        """Gives the tape to a new ``play``."""
        lend(player, self._records)

    def keep(self, player: Player) -> bool:
        """After a CLOSE: writes the file if the tape was written; whether it
        was. A tape that is open now was not closed by it."""
        if self.file is None:
            return False
        now = player.tape()
        return now.mark == CLOSED and self._write(now.data)

    def take_out(self, player: Player) -> None:
        """At the end: writes the file if the tape has changed."""
        self.left = player.tape()
        self._write(self.left.data)

    def _write(self, data: bytes) -> bool:
        if self.file is None or data == self._kept:
            return False
        try:
            write(self.file, data)
        except StickError as error:
            self.fault = str(error)
        else:
            self.fault, self._kept = "", data
        return True

    def words(self) -> list[str]:
        """What became of the tape that was taken out."""
        lines = []
        summary = tape.summary(tape.records_of(self.left.data))
        if self.file is not None and not self.fault:
            lines.append(f"the tape is {self.file}: {summary}")
        elif self.file is None and any(self.left.data):
            lines.append(f"the tape, {summary}, is gone with the stick (--tape FILE keeps one)")
        if self.left.mark == WRITING:
            pending = counted(self.left.place, "pending character")
            are = "is" if self.left.place == 1 else "are"
            lines.append(f"the tape is still open for writing: its end record is missing, {pending} {are} not on it")
        return lines
