"""What the doctor's list says of a diskette, in words, file by file.

What is wrong with a diskette the core alone decides: here its list is read
together with the image before and after. The image after the changes has files
that hang together, so that their sectors are found by their links; why a file
was cut stands in the image before.
"""

from __future__ import annotations

from collections.abc import Sequence
from dataclasses import dataclass

from . import changes, disk, screen
from .atr import SECTOR, SECTORS
from .disk import DATA, DIRECTORY, ENTRY, LAST_SECTOR, MAP, MAP_SECTOR, RESERVED, Entry
from .script import Change
from .text import counted

DOS_2 = 2
"""Byte 0 of sector 360, on a diskette that DOS 2 has written."""
FREE_COUNT = (3, 4)
"""The bytes of sector 360 with the number of free sectors."""
FLAG, COUNT = 0, (1, 2)
"""The bytes of an entry that the doctor changes."""
ENTRIES_A_SECTOR = SECTOR // ENTRY


@dataclass(frozen=True)
class File:
    """A file of a diskette, before and after."""

    entry: Entry
    """Before."""
    sectors: tuple[int, ...]
    """That it has after."""
    stop: int | None
    """The sector that it led to and was cut before, if it was."""
    why: str
    """What is wrong with that one."""
    lost: tuple[int, ...]
    """The sectors from there on that no file has after."""
    is_deleted: bool

    @property
    def name(self) -> str:
        """Its name as it is shown."""
        return name_of(self.entry)

    @property
    def said(self) -> int:
        """How many sectors the directory says it has, before."""
        return int.from_bytes(self.entry.data[1:3], "little")

    def words(self) -> str:
        """What becomes of it; nothing if it stays as it is."""
        parts = []
        kept = len(self.sectors)
        if self.is_deleted:
            parts.append(f"deleted, for it begins at sector {self.stop}, {self.why}; nothing of it can be kept")
        elif self.stop is not None:
            parts.append(
                f"cut behind its sector {self.sectors[-1]}, whose link leads to sector {self.stop}, {self.why}; "
                f"{counted(kept, 'sector')} kept"
            )
        if self.lost:
            becomes = "becomes" if len(self.lost) == 1 else "become"
            parts.append(f"{counted(len(self.lost), 'sector')} from there on {becomes} free")
        if not self.is_deleted and self.said != kept:
            parts.append(f"the directory says {counted(self.said, 'sector')}, {kept} {'is' if kept == 1 else 'are'} right")
        return f"{self.name} (file {self.entry.number}): {'; '.join(parts)}" if parts else ""


class Diagnosis:
    """A diskette, what the doctor changes in it, and what it is after."""

    def __init__(self, image: bytes, listed: Sequence[Change]) -> None:
        self.before = image
        self.changes = tuple(listed)
        self.after = changes.replayed(image, listed)
        chains = {entry.number: disk.chain_of(self.after, entry) for entry in disk.files_of(self.after)}
        self.owners = {number: file for file, chain in chains.items() for number in chain}
        """Which file has a sector, after; no sector is another's too."""
        self._cuts = {
            disk.file_of(image, each.sector): each.sector for each in listed if each.sector not in RESERVED
        }
        """The last sector of each file that is cut: nothing else of a file's sectors changes."""
        self.files = [self._file(entry, chains.get(entry.number, ())) for entry in disk.files_of(image)]

    def _file(self, entry: Entry, sectors: tuple[int, ...]) -> File:
        stop = None
        is_deleted = any(_entry_place(each) == (entry.number, FLAG) for each in self.changes)
        if is_deleted:
            stop = entry.first
        elif entry.number in self._cuts:
            stop = disk.link_of(self.before, self._cuts[entry.number])
        if stop is None:
            return File(entry, sectors, None, "", (), False)
        return File(entry, sectors, stop, self._why(stop, entry.number), self._lost(stop, entry.number), is_deleted)

    def _why(self, number: int, file: int) -> str:
        """What keeps a file from a sector that it leads to."""
        owner = self.owners.get(number)
        if number > LAST_SECTOR:
            return f"above {LAST_SECTOR}"
        if number in RESERVED:
            use = {MAP_SECTOR: "the map", **dict.fromkeys(DIRECTORY, "the directory")}.get(number, "to start from")
            return f"which is reserved ({use})"
        if owner == file:
            return "which it has already: a ring"
        if owner is not None:
            entry = next(each for each in disk.files_of(self.after) if each.number == owner)
            return f"which is {name_of(entry)}'s (file {owner})"
        if disk.file_of(self.before, number) != file:
            return f"which says that it is file {disk.file_of(self.before, number)}'s"
        return f"whose data count is {disk.sector(self.before, number)[DATA + 2]}, above {DATA}"

    def _lost(self, number: int, file: int) -> tuple[int, ...]:
        """The sectors of a file from a cut on, as far as they lead to each
        other and say that they are its own."""
        found: dict[int, None] = {}
        while 0 < number <= LAST_SECTOR and not (number in RESERVED or number in self.owners or number in found):
            if disk.file_of(self.before, number) != file:
                break
            found[number] = None
            number = disk.link_of(self.before, number)
        return tuple(found)

    @property
    def hurt(self) -> list[File]:
        """The files that are cut or deleted."""
        return [file for file in self.files if file.stop is not None]

    @property
    def broken(self) -> frozenset[int]:
        """The sectors that a file was cut before, and those behind them."""
        stops = {file.stop for file in self.files if file.stop is not None and file.stop <= SECTORS}
        return frozenset(stops.union(*(file.lost for file in self.files)))

    @property
    def free(self) -> tuple[int, ...]:
        """The free sectors after, by the map."""
        bits = disk.sector(self.after, MAP_SECTOR)[MAP:]
        return tuple(number for number in range(1, LAST_SECTOR + 1) if bits[number // 8] & 0x80 >> number % 8)

    def doubts(self) -> list[str]:
        """Why it may be another system's diskette, which the doctor would
        mutilate."""
        first = disk.sector(self.before, MAP_SECTOR)[0]
        found = []
        if first != DOS_2:
            found.append(f"byte 0 of sector {MAP_SECTOR} is ${first:02X}, and DOS 2.0S writes ${DOS_2:02X}")
        if 2 * len(self.hurt) > len(self.files):
            found.append(f"of {counted(len(self.files), 'file')} {len(self.hurt)} would be cut or deleted")
        return found

    def words(self) -> list[str]:
        """What is changed: a line for each file, the free count and the map."""
        lines = [words for words in (file.words() for file in self.files) if words]
        places = [each.place for each in self.changes if each.sector == MAP_SECTOR]
        if any(place in FREE_COUNT for place in places):
            lines.append(f"free sectors: {disk.free_of(self.after)}, the diskette says {disk.free_of(self.before)}")
        if any(place >= MAP for place in places):
            lines.append(f"map: {counted(sum(place >= MAP for place in places), 'byte')}, {self._map_words()}")
        return lines

    def _map_words(self) -> str:
        """How many sectors the map has wrong, and how."""
        those = [each for each in self.changes if each.sector == MAP_SECTOR and each.place >= MAP]
        freed = sum(bin(each.new & ~each.old).count("1") for each in those)
        taken = sum(bin(each.old & ~each.new).count("1") for each in those)
        called = []
        if freed:
            called.append(f"{counted(freed, 'free sector')} called used")
        if taken:
            called.append(f"{counted(taken, 'used sector')} called free")
        return " and ".join(called)

    def change_words(self, change: Change) -> str:
        """What a change is of."""
        if change.sector == MAP_SECTOR:
            if change.place in FREE_COUNT:
                return "free count"
            first = 8 * (change.place - MAP)
            return f"map of {max(first, 1)} to {first + 7}"
        entry, place = _entry_place(change)
        if entry is not None:
            return f"{self._named(entry)}: {'flag' if place == FLAG else 'sector count'}"
        return f"{self._named(disk.file_of(self.before, change.sector))}: link"

    def _named(self, number: int) -> str:
        return next((file.name for file in self.files if file.entry.number == number), f"file {number}")


def _entry_place(change: Change) -> tuple[int | None, int]:
    """Which entry of the directory a change is in, and where in it."""
    if change.sector not in DIRECTORY:
        return None, 0
    entry, place = divmod(change.place, ENTRY)
    return (change.sector - DIRECTORY[0]) * ENTRIES_A_SECTOR + entry, place


def name_of(entry: Entry) -> str:
    """A file's name as it is shown: no byte of it does anything to a
    terminal."""
    shown = "".join(map(screen.character, entry.data[5:]))
    name, extension = shown[:8].rstrip(), shown[8:].rstrip()
    return (f"{name}.{extension}" if extension else name) or "(no name)"
