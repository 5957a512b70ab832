"""The list of what the doctor changed in a diskette: made, taken back, and kept
as a file.

A file has a line for each change: sector and place in decimal, old and new in
hexadecimal; ``#`` begins words for people. Its first line says how many there
are and of which image they are, by its name beside the list, and how that is
kept. So a list that is cut short, or is none, is told from a whole one.
"""

from __future__ import annotations

import json
import re
from collections.abc import Callable, Iterable, Sequence
from dataclasses import dataclass

from .atr import SECTOR, SECTORS
from .script import Change
from .text import counted

ATR, PLAIN = "an ATR file", "an image as it lies"
"""How an image is kept."""
QUOTED = r'("(?:[^"\\]|\\.)*")'
HEAD = re.compile(rf"# stick doctor: ([0-9]{{1,4}}) changes? in {QUOTED}, ({ATR}|{PLAIN}); before them it was {QUOTED}")
COLUMNS = "# sector place old new"
LINE = re.compile(r"\s*([0-9]{1,3})\s+([0-9]{1,3})\s+([0-9A-F]{2})\s+([0-9A-F]{2})\s*(?:#.*)?")


class Refused(ValueError):
    """What is no list."""


class Differs(ValueError):
    """A byte that is not as a list says."""

    def __init__(self, change: Change, wanted: int, found: int) -> None:
        said = f"sector {change.sector} place {change.place} is ${found:02X}, and the list says ${wanted:02X}"
        super().__init__(said)


@dataclass(frozen=True)
class Listed:
    """A list with what its first line says."""

    image: str
    """The name of the image that was changed, beside the list."""
    form: str
    old: str
    """The name of what was there before, beside the list too."""
    changes: tuple[Change, ...]


def place_of(change: Change) -> int:
    """Where in an image a change is."""
    return (change.sector - 1) * SECTOR + change.place


def replayed(image: bytes, changes: Iterable[Change]) -> bytes:
    """An image with changes made."""
    return _put(image, ((each, each.old, each.new) for each in changes))


def taken_back(image: bytes, changes: Iterable[Change]) -> bytes:
    """An image with changes taken back."""
    return _put(image, ((each, each.new, each.old) for each in changes))


def _put(image: bytes, moves: Iterable[tuple[Change, int, int]]) -> bytes:
    """Each byte is what it is to be before it becomes another."""
    made = bytearray(image)
    for change, before, after in moves:
        at = place_of(change)
        if not 0 <= at < len(image):
            raise Differs(change, before, 0)
        if made[at] != before:
            raise Differs(change, before, made[at])
        made[at] = after
    return bytes(made)


# as text


def columns(change: Change) -> str:
    """A change as it stands in a list."""
    return f"{change.sector:>8} {change.place:>5}  {change.old:02X}  {change.new:02X}"


def to_text(listed: Listed, words: Callable[[Change], str]) -> str:
    """A list as a file has it, with words for each change."""
    count = counted(len(listed.changes), "change")
    image, old = json.dumps(listed.image), json.dumps(listed.old)
    lines = [f"# stick doctor: {count} in {image}, {listed.form}; before them it was {old}", COLUMNS]
    lines += [f"{columns(each)}  # {words(each)}" for each in listed.changes]
    return "".join(f"{line}\n" for line in lines)


def parse(text: str) -> Listed:
    """Reads a list from its file."""
    head, *lines = text.split("\n")
    found = HEAD.fullmatch(head)
    if not found:
        raise Refused("no list of the doctor's: its first line says otherwise")
    changes = [_change(number, line) for number, line in enumerate(lines, 2) if line.split("#")[0].strip()]
    _check(changes, int(found[1]))
    return Listed(_name(found[2]), found[3], _name(found[4]), tuple(changes))


def _name(quoted: str) -> str:
    """The name of a file beside the list: one that leads elsewhere is none."""
    try:
        name = str(json.loads(quoted))
    except ValueError:
        name = ""
    if name in ("", ".", "..") or "/" in name or "\0" in name:
        raise Refused(f"no list of the doctor's: {quoted} is no name of a file beside it")
    return name


def _change(number: int, line: str) -> Change:
    found = LINE.fullmatch(line)
    if not found:
        raise Refused(f"line {number} is no change: sector, place, old and new")
    change = Change(int(found[1]), int(found[2]), int(found[3], 16), int(found[4], 16))
    if not (1 <= change.sector <= SECTORS and change.place < SECTOR and change.old != change.new):
        raise Refused(f"line {number} is no change: sectors are 1 to {SECTORS}, places 0 to {SECTOR - 1}, old is not new")
    return change


def _check(changes: Sequence[Change], said: int) -> None:
    if len(changes) != said:
        raise Refused(f"its first line says {counted(said, 'change')}, and it has {len(changes)}")
    if len({place_of(each) for each in changes}) != len(changes):
        raise Refused("a byte is in it twice")
