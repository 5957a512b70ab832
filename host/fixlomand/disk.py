"""A diskette as people see it: its directory, how a file's sectors hang
together, and a diskette that is made of files.

A diskette has 720 sectors of 128 bytes, numbered from 1, as DOS 2.0S writes
them. Here they are named and counted; what a host reads of them is for the core
to say.
"""

from __future__ import annotations

import re
from collections.abc import Sequence
from dataclasses import dataclass

from .atr import SECTOR
from .script import IMAGE
from .text import counted

DATA = 125
"""The data bytes of a sector; three more say which file it is of, which
sector comes next, and how many data bytes there are."""
LAST_SECTOR = 719
"""The last that is used: 720 has no bit in the map."""
MAP_SECTOR = 360
MAP, MAP_END = 10, 100
"""The bytes of that sector that have a bit a sector, 1 for free."""
DIRECTORY = range(361, 369)
ENTRY = 16
ENTRIES = len(DIRECTORY) * SECTOR // ENTRY
RESERVED = (1, 2, 3, MAP_SECTOR, *DIRECTORY)
"""The sectors that no file has: those that start a computer, the map, the
directory."""
USABLE = tuple(number for number in range(1, LAST_SECTOR + 1) if number not in RESERVED)
DELETED, IN_USE, LOCKED, BY_DOS_2 = 0x80, 0x40, 0x20, 0x02
"""Bits of an entry's flag."""
NAME = re.compile(r"([A-Z0-9]{1,8})(?:\.([A-Z0-9]{1,3}))?")


@dataclass(frozen=True)
class Entry:
    """16 bytes of the directory: a file, or what is left of one."""

    number: int
    data: bytes

    @property
    def in_use(self) -> bool:
        """Whether there is such a file."""
        return self.data[0] & (DELETED | IN_USE) == IN_USE

    @property
    def first(self) -> int:
        """Its first sector; 0 is none."""
        return int.from_bytes(self.data[3:5], "little")

    @property
    def filename(self) -> str:
        """Name and extension with a dot between them."""
        name, extension = (part.decode("latin-1").rstrip(" ") for part in (self.data[5:13], self.data[13:]))
        return f"{name}.{extension}" if extension else name


@dataclass(frozen=True)
class Fault:
    """Where a file's sectors do not hang together: a read there is $A4."""

    sector: int
    why: str
    before: int
    """The characters before it."""


def sector(image: bytes, number: int) -> bytes:
    """The bytes of a sector, from 1 on."""
    return image[(number - 1) * SECTOR : number * SECTOR]


def files_of(image: bytes) -> list[Entry]:
    """The files of a diskette, in the directory's order."""
    listed = b"".join(sector(image, number) for number in DIRECTORY)
    found = []
    for number in range(ENTRIES):
        entry = Entry(number, listed[ENTRY * number : ENTRY * (number + 1)])
        if entry.data[0] == 0:
            break
        if entry.in_use:
            found.append(entry)
    return found


def file_of(image: bytes, number: int) -> int:
    """The file that a sector says it is of."""
    return sector(image, number)[DATA] >> 2


def link_of(image: bytes, number: int) -> int:
    """The sector that a sector leads to; 0 is none."""
    data = sector(image, number)
    return (data[DATA] & 3) << 8 | data[DATA + 1]


def chain_of(image: bytes, entry: Entry) -> tuple[int, ...]:
    """The sectors of a file that hangs together; of another, those before the
    first that is above the last one or comes again."""
    chain: dict[int, None] = {}
    number = entry.first
    while 0 < number <= LAST_SECTOR and number not in chain:
        chain[number] = None
        number = link_of(image, number)
    return tuple(chain)


def free_of(image: bytes) -> int:
    """How many sectors the diskette says are free."""
    return int.from_bytes(sector(image, MAP_SECTOR)[3:5], "little")


def first_match(image: bytes, name: str) -> Entry | None:
    """The file that an OPEN of this name opens."""
    fields = []
    for part, length in zip((*name.split("."), ""), (8, 3)):
        star = part.find("*")
        fields.append((part if star < 0 else part[:star].ljust(length, "?")).ljust(length)[:length])
    pattern = "".join(fields).encode("latin-1", "replace")
    for entry in files_of(image):
        if all(wanted in (byte, ord("?")) for wanted, byte in zip(pattern, entry.data[5:])):
            return entry
    return None


def fault_of(image: bytes, entry: Entry) -> Fault | None:
    """The first fault of a file's sectors, or none."""
    number, begun, before = entry.first, 0, 0
    while number:
        begun += 1
        why = ""
        data = sector(image, number)
        if number > LAST_SECTOR:
            why = f"above {LAST_SECTOR}"
        elif begun > LAST_SECTOR:
            why = f"the {begun}th of the file, and there are {LAST_SECTOR}: a ring"
        elif file_of(image, number) != entry.number:
            why = f"file number {file_of(image, number)}, not {entry.number}"
        elif data[DATA + 2] > DATA:
            why = f"data count {data[DATA + 2]}, above {DATA}"
        if why:
            return Fault(number, why, before)
        before += data[DATA + 2]
        number = link_of(image, number)
    return None


def summary(image: bytes) -> str:
    """How much there is."""
    if not any(image):
        return "blank"
    return f"{counted(len(files_of(image)), 'file')}, {counted(free_of(image), 'free sector')}"


# a diskette that is made


class Refused(ValueError):
    """What does not go on a diskette."""


def name_of(file: str) -> bytes:
    """A file's name as the eleven bytes of an entry, in capitals."""
    found = NAME.fullmatch(file.upper() if file.isascii() else "")
    if not found:
        raise Refused("no name for a diskette: that is 1 to 8 of A to Z and 0 to 9, and maybe a dot and 1 to 3 more")
    return f"{found[1]:<8}{found[2] or '':<3}".encode("ascii")


def sectors_for(length: int) -> int:
    """How many sectors so many characters take; none takes one too."""
    return max(1, -(-length // DATA))


def make(files: Sequence[tuple[bytes, bytes]]) -> bytes:
    """A diskette with these files, each its name of eleven bytes and its
    characters. It starts no computer: sectors 1 to 3 are blank."""
    if len(files) > ENTRIES:
        raise Refused(f"{counted(len(files), 'file')}, and a diskette has room for {ENTRIES}")
    image = bytearray(IMAGE)
    free = list(USABLE)
    entries = b""
    for number, (name, data) in enumerate(files):
        count = sectors_for(len(data))
        if count > len(free):
            raise Refused(f"{counted(count, 'sector')} for {counted(len(data), 'character')}, and {len(free)} are free")
        chain, free = free[:count], free[count:]
        for place, (here, after) in enumerate(zip(chain, (*chain[1:], 0))):
            piece = data[DATA * place : DATA * (place + 1)]
            _put(image, here, piece.ljust(DATA, b"\0") + bytes([number << 2 | after >> 8, after & 0xFF, len(piece)]))
        entries += bytes([IN_USE | BY_DOS_2]) + count.to_bytes(2, "little") + chain[0].to_bytes(2, "little") + name
    for number, at in zip(DIRECTORY, range(0, len(entries), SECTOR)):
        _put(image, number, entries[at : at + SECTOR])
    bits = bytearray(MAP_END - MAP)
    for number in free:
        bits[number // 8] |= 0x80 >> number % 8
    begin = b"\x02" + len(USABLE).to_bytes(2, "little") + len(free).to_bytes(2, "little")
    _put(image, MAP_SECTOR, begin.ljust(MAP, b"\0") + bits)
    return bytes(image)


def _put(image: bytearray, number: int, data: bytes | bytearray) -> None:
    at = (number - 1) * SECTOR
    image[at : at + len(data)] = data
