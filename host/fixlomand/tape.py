"""A tape as people see it: its records, its files, and where the head stands.

A record is 132 bytes: $55, $55, a control byte, 128 data bytes, a checksum.
Here records are named and counted; what a host reads of them is for the core
to say.
"""

from __future__ import annotations

from collections.abc import Sequence
from dataclasses import dataclass

from . import screen
from .script import MARKS, TAPE, Tape
from .text import counted

RECORD = 132
RECORDS = TAPE // RECORD
CHARACTERS = 128
"""The data bytes of a record."""
FULL, PARTIAL, END = 0xFC, 0xFA, 0xFE
KINDS = {FULL: "full", PARTIAL: "partial", END: "end"}
"""The kinds of records, by the control byte."""
MOST_CHARACTERS = (RECORDS - 1) * CHARACTERS
"""What fits a tape: 249 full records; the last place is the end record's."""


def checksum(record: bytes) -> int:
    """The sum of the first 131 bytes, each carry out of eight bits added back."""
    total = 0
    for byte in record[: RECORD - 1]:
        total += byte
        if total > 0xFF:
            total -= 0xFF
    return total


@dataclass(frozen=True)
class Record:
    """132 bytes of a tape."""

    data: bytes

    @property
    def control(self) -> int:
        """The control byte."""
        return self.data[2]

    @property
    def count(self) -> int:
        """How many characters it says it has; of no kind, none."""
        return {FULL: CHARACTERS, PARTIAL: self.data[RECORD - 2]}.get(self.control, 0)

    @property
    def characters(self) -> bytes:
        """Its characters; of more than a partial record holds, what is there."""
        return self.data[3 : 3 + min(self.count, CHARACTERS - (self.control == PARTIAL))]

    @property
    def is_right(self) -> bool:
        """Whether the checksum is right."""
        return self.data[RECORD - 1] == checksum(self.data)

    @property
    def fault(self) -> str:
        """Why a read of it gives $8F; nothing if it does not."""
        if not self.is_right:
            return f"checksum ${self.data[RECORD - 1]:02X}, not ${checksum(self.data):02X}"
        if self.control not in KINDS:
            return f"control byte ${self.control:02X}, not $FC, $FA or $FE"
        if self.control == PARTIAL and not 0 < self.count < CHARACTERS:
            return f"a partial record's count {self.count}, not 1 to 127"
        return ""

    @property
    def is_end(self) -> bool:
        """Whether a file ends here."""
        return self.control == END and not self.fault

    @property
    def is_blank(self) -> bool:
        """Whether nothing was ever written here."""
        return not any(self.data)


@dataclass(frozen=True)
class File:
    """The records of a tape from one end record to the next."""

    first: int
    last: int
    is_ended: bool
    """Whether the last is an end record."""

    def __len__(self) -> int:
        return self.last - self.first + 1


def records_of(data: bytes) -> list[Record]:
    """The records of a tape, without the blank ones behind the last."""
    records = [Record(data[at : at + RECORD]) for at in range(0, len(data), RECORD)]
    while records and records[-1].is_blank:
        records.pop()
    return records


def tape_of(records: Sequence[Record]) -> bytes:
    """A tape that begins with these records; behind them it is blank."""
    return b"".join(record.data for record in records).ljust(TAPE, b"\0")


def files_of(records: Sequence[Record]) -> list[File]:
    """The files of some records. Blank records before a file are none of it."""
    files = []
    first = None
    for place, record in enumerate(records):
        if first is None and not record.is_blank:
            first = place
        if first is not None and record.is_end:
            files.append(File(first, place, True))
            first = None
    if first is not None:
        files.append(File(first, len(records) - 1, False))
    return files


# in words


def span(first: int, last: int) -> str:
    """Some records by their numbers."""
    return f"record {first}" if first == last else f"records {first} to {last}"


def summary(records: Sequence[Record]) -> str:
    """How much there is."""
    if not records:
        return "blank"
    return f"{counted(len(records), 'record')} in {counted(len(files_of(records)), 'file')}"


def record_words(record: Record) -> str:
    """A record's kind, count and checksum, and how it reads if it is bad."""
    if record.is_blank:
        return "blank, reads as $8F"
    parts = [KINDS.get(record.control, f"control byte ${record.control:02X}")]
    if record.control in (FULL, PARTIAL):
        parts.append(counted(record.count, "character"))
    parts.append("checksum right" if record.is_right else "checksum wrong")
    if record.fault:
        parts.append(f"reads as $8F ({record.fault})")
    return ", ".join(parts)


def text_lines(characters: bytes) -> list[str]:
    """Characters as text: an EOL ends a line, inverse is left out."""
    lines = ["".join(map(screen.character, line)) for line in characters.split(b"\x9b")]
    return lines if lines[-1] else lines[:-1]


def listed(records: Sequence[Record], beside: Sequence[str] = ()) -> list[str]:
    """Each record with its text, and where files begin and end. What stands
    beside a record is put behind its words."""
    files = files_of(records)
    lines = []
    for place, record in enumerate(records):
        for number, file in enumerate(files, 1):
            if file.first == place:
                lines.append(f"file {number}")
        words = record_words(record)
        for number, file in enumerate(files, 1):
            if file.last == place:
                characters = sum(each.count for each in records[file.first : place + 1] if not each.fault)
                end = f"file {number} ends" if file.is_ended else f"file {number} has no end record"
                words += f": {end}, {counted(characters, 'character')}"
        lines.append(f"  record {place}: {words}" + (f"; {beside[place]}" if beside else ""))
        lines += [f"    |{line}" for line in text_lines(record.characters)]
    return lines


def head_words(tape: Tape) -> str:
    """How the tape is open, and where its head stands."""
    mark = MARKS[tape.mark] if tape.mark < len(MARKS) else f"mark {tape.mark}"
    if mark == "reading":
        return f"reading, the head at record {tape.record}, place {tape.place}"
    if mark == "writing":
        return f"writing, the head at record {tape.record}, {tape.place} pending"
    return mark


def words(tape: Tape) -> str:
    """How much is on a tape, how it is open, and where its head stands."""
    return f"{summary(records_of(tape.data))}, {head_words(tape)}"


def shown(tape: Tape) -> list[str]:
    """The tape of a dump under its name: its records, and the pending
    characters."""
    lines = [f"tape, {words(tape)}", *listed(records_of(tape.data))]
    if tape.pending:
        lines += ["  pending", *(f"    |{line}" for line in text_lines(tape.pending))]
    return [f"  {line}" for line in lines]
