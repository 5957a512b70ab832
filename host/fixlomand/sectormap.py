"""The 720 sectors of a diskette as people see them: a character for each, and
what the characters stand for."""

from __future__ import annotations

from collections.abc import Iterable
from itertools import groupby
from string import ascii_lowercase, ascii_uppercase, digits

from .atr import SECTORS
from .disk import LAST_SECTOR, RESERVED
from .findings import Diagnosis
from .text import counted

RESERVED_MARK, FREE_MARK, BROKEN_MARK, UNUSED_MARK = "#", ".", "!", "-"
FILE_MARKS = ascii_uppercase + ascii_lowercase + digits + "+="
"""A mark for each of the 64 files, by its number."""
ROWS = (60, 40, 20)
"""How many sectors a row may have."""
GROUP = 10
EDGE = 4
"""Columns for the number of a row's first sector."""
COLUMN = 26
"""Columns for a file below the map."""
SPANS = 8
"""How many runs of broken sectors are named."""
PLAIN, DIM, ALARM = "\033[0m", "\033[2m", "\033[1;37;41m"
COLOURS = ("\033[32m", "\033[33m", "\033[36m", "\033[35m", "\033[34m")
"""Of files, one after the other."""


def marks(diagnosis: Diagnosis) -> list[str]:
    """The mark of each sector, from 1 on, as it is after; broken ones by that."""
    found = []
    for number in range(1, SECTORS + 1):
        if number in diagnosis.broken:
            found.append(BROKEN_MARK)
        elif number > LAST_SECTOR:
            found.append(UNUSED_MARK)
        elif number in RESERVED:
            found.append(RESERVED_MARK)
        elif number in diagnosis.owners:
            found.append(FILE_MARKS[diagnosis.owners[number]])
        else:
            found.append(FREE_MARK)
    return found


def lines(diagnosis: Diagnosis, width: int, is_coloured: bool) -> list[str]:
    """The map in rows that are no wider than that, if it can be, and under it
    what its marks are."""
    each = marks(diagnosis)
    across = next((row for row in ROWS if EDGE + row + row // GROUP <= width), ROWS[-1])
    rows = []
    for first in range(0, SECTORS, across):
        groups = [each[at : at + GROUP] for at in range(first, first + across, GROUP)]
        rows.append(f"{first + 1:>{EDGE - 1}} {' '.join(_painted(group, is_coloured) for group in groups)}")
    return [*rows, *_legend(diagnosis, width, is_coloured)]


def _painted(those: Iterable[str], is_coloured: bool) -> str:
    """Marks in their colours, equal ones in a row together."""
    if not is_coloured:
        return "".join(those)
    return "".join(f"{_colour(mark)}{''.join(equal)}{PLAIN}" for mark, equal in groupby(those))


def _colour(mark: str) -> str:
    if mark in FILE_MARKS:
        return COLOURS[FILE_MARKS.index(mark) % len(COLOURS)]
    return ALARM if mark == BROKEN_MARK else DIM


def _legend(diagnosis: Diagnosis, width: int, is_coloured: bool) -> list[str]:
    """The three numbers that are 719 together, the broken sectors, and each
    file with its sectors, those that it has and those that it was said to."""
    reserved, free, used = len(RESERVED), len(diagnosis.free), len(diagnosis.owners)
    found = [
        f"{_painted(RESERVED_MARK, is_coloured)} {reserved} reserved, {_painted(FREE_MARK, is_coloured)} {free} free, "
        f"{used} in files: {reserved + free + used}; {_painted(UNUSED_MARK, is_coloured)} {SECTORS} is never used"
    ]
    if diagnosis.broken:
        found.append(f"{_painted(BROKEN_MARK, is_coloured)} broken: {_spans(sorted(diagnosis.broken))}")
    if not diagnosis.files:
        return found
    found.append(f"{counted(len(diagnosis.files), 'file')}: the sectors that each has / that the directory said")
    across = max(1, (width + 1) // COLUMN)
    cells = []
    for file in diagnosis.files:
        text = f" {file.name:<12} {len(file.sectors)}/{file.said}"
        cells.append(_painted(FILE_MARKS[file.entry.number], is_coloured) + f"{text:<{COLUMN - 1}}")
    found += ["".join(cells[at : at + across]).rstrip() for at in range(0, len(cells), across)]
    return found


def _spans(numbers: list[int]) -> str:
    """Numbers, those in a row by the first and the last."""
    spans: list[list[int]] = []
    for number in numbers:
        if spans and spans[-1][-1] == number - 1:
            spans[-1].append(number)
        else:
            spans.append([number])
    named = [str(span[0]) if len(span) == 1 else f"{span[0]} to {span[-1]}" for span in spans]
    return ", ".join(named[:SPANS]) + (f" and {len(named) - SPANS} more" if len(named) > SPANS else "")
