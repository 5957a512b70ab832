"""What a host reads of a diskette's directory: a record for each file, and one
for the free sectors.

A record of a file has 18 characters: "*" if it is locked, else a blank; a
blank; eight of the name and three of the extension; a blank; three digits, the
sectors; EOL. The last record has 17: three digits and " FREE SECTORS", EOL. A
name's bytes stand as they lie, an EOL among them too, so that records are told
apart by their length.
"""

from __future__ import annotations

from collections.abc import Iterator
from dataclasses import dataclass

RECORD = 18
FREE = b" FREE SECTORS\x9b"
LAST_RECORD = 3 + len(FREE)
LOCKED = b"*"


@dataclass(frozen=True)
class DirectoryEntry:
    """A file in a directory."""

    locked: bool
    name: str
    """Up to eight characters, without the blanks behind it; each is the
    byte of its number."""
    extension: str
    """Up to three."""
    sectors: int
    """How many sectors it has, modulo 1,000."""

    @property
    def filename(self) -> str:
        """Name and extension with a dot between them, as OPEN takes it."""
        return f"{self.name}.{self.extension}" if self.extension else self.name


@dataclass(frozen=True)
class Directory:
    """The files that a pattern matches, in the directory's order. A ``for``
    over it goes over them."""

    entries: tuple[DirectoryEntry, ...]
    free: int
    """The free sectors of the diskette, modulo 1,000."""

    def __iter__(self) -> Iterator[DirectoryEntry]:
        return iter(self.entries)

    def __len__(self) -> int:
        return len(self.entries)


def records(data: bytes) -> list[bytes]:
    """A whole directory cut into its records."""
    return [data[at : at + RECORD] for at in range(0, len(data), RECORD)]


def parse(data: bytes) -> Directory:
    """A whole directory; ``ValueError`` if it is none."""
    *files, last = records(data) or [b""]
    if len(last) != LAST_RECORD or not last.endswith(FREE):
        raise ValueError(f"a directory ends with the free sectors, not {last!r}")
    return Directory(tuple(map(_entry, files)), _number(last[:3]))


def _entry(record: bytes) -> DirectoryEntry:
    if record[:1] not in (LOCKED, b" ") or record[1:2] + record[13:14] + record[17:] != b"  \x9b":
        raise ValueError(f"no record of a directory: {record!r}")
    name, extension = (part.decode("latin-1").rstrip(" ") for part in (record[2:10], record[10:13]))
    return DirectoryEntry(record[:1] == LOCKED, name, extension, _number(record[14:17]))


def _number(digits: bytes) -> int:
    if not (digits.isdigit() and len(digits) == 3):
        raise ValueError(f"not three digits: {digits!r}")
    return int(digits)
