"""The words of ``./stick disk``: diskettes in files, and hosts that read
them."""

from __future__ import annotations

import os
from collections.abc import Callable

from . import atr, directory, disk, drives, files, screen, toolchain
from .cio import DIRECTORY, EOL, READ, Stick
from .errors import BadChain, BadFileName, FileNotFound, StatusError, StickError
from .play import Player, PlayPort
from .text import counted, named, newlines
from .words import Usage, flag, operands

Say = Callable[[str], None]
LONGEST = 12
"""The characters of a name, its dot and its extension."""


def run(words: list[str], say: Say) -> int:
    """Does what a word after ``disk`` says; the end status."""
    does: dict[str, Callable[[list[str], Say], int]] = {
        "import": _import,
        "export": _export,
        "list": _list,
        "read": _read,
        "make": _make,
    }
    if not words or words[0] not in does:
        what = f"unknown word 'disk {words[0]}'" if words else "disk needs a word after it"
        raise Usage(f"{what}: {', '.join(does)} (try ./stick disk --help)")
    return does[words[0]](words[1:], say)


# between files


def _import(words: list[str], say: Say) -> int:
    operands("disk import", words, 2, "a FILE.atr and an IMAGE")
    source, target = words
    if drives.is_atr(target):
        raise Usage(f"{target}: import writes an IMAGE, whose name does not end in .atr (export writes those)")
    files.check_directory(target)
    image = drives.read(source)
    _name_faults(source, image, say)
    files.write(target, image)
    say(f"{named(target)}: {disk.summary(image)}")
    return 0


def _export(words: list[str], say: Say) -> int:
    operands("disk export", words, 2, "an IMAGE and a FILE.atr")
    source, target = words
    if not drives.is_atr(target) and target != "-":
        raise Usage(f"{target}: export writes an ATR file, whose name ends in .atr")
    files.check_directory(target)
    image = drives.read(source)
    _name_faults(source, image, say)
    files.write(target, atr.encode(image))
    say(f"{named(target)}: {disk.summary(image)}")
    return 0


def _name_faults(source: str, image: bytes, say: Say) -> None:
    """Says which files cannot be read to their end."""
    for entry in disk.files_of(image):
        fault = disk.fault_of(image, entry)
        if fault:
            say(f"{source}: {entry.filename} reads as $A4 at sector {fault.sector} ({fault.why})")


def _make(words: list[str], say: Say) -> int:
    words, is_text = flag(words, "--text")
    operands("disk make", words, 1, "an IMAGE and the FILEs that go on it", None)
    target, *sources = words
    if "-" in words:
        raise Usage("disk make takes names: - has none")
    files.check_directory(target)
    held: dict[bytes, bytes] = {}
    for source in sources:
        try:
            name = disk.name_of(os.path.basename(source))
        except disk.Refused as refused:
            raise StickError(f"{source}: {refused}") from None
        if name in held:
            raise StickError(f"{source}: there is a file of this name already")
        data = files.read(source)
        held[name] = data.replace(b"\n", bytes([EOL])) if is_text else data
    try:
        image = disk.make(list(held.items()))
    except disk.Refused as refused:
        raise StickError(f"{target} is not written: {refused}") from None
    drives.write(target, image)
    say(f"{target}: {disk.summary(image)}")
    return 0


# through the core


def _list(words: list[str], say: Say) -> int:
    operands("disk list", words, 1, "an IMAGE, or an IMAGE and a PATTERN,", 1)
    source, pattern = words[0], words[1] if len(words) > 1 else "*.*"
    specification = _specification(pattern)
    image = drives.read(source)
    with Player(toolchain.play_command(say)) as player:
        drives.lend(player, image)
        try:
            with Stick(PlayPort(player, 0)).open(specification, DIRECTORY) as file:
                listed = file.get_rest()
        except StatusError as error:
            raise _refused(source, pattern, error) from error
    for record in directory.records(listed):
        print("".join(map(screen.character, record[:-1])))
    return 0


def _read(words: list[str], say: Say) -> int:
    words, is_text = flag(words, "--text")
    operands("disk read", words, 3, "an IMAGE, a NAME and an OUT")
    source, name, target = words
    specification = _specification(name)
    files.check_directory(target)
    image = drives.read(source)
    is_whole = True
    with Player(toolchain.play_command(say)) as player:
        drives.lend(player, image)
        try:
            with Stick(PlayPort(player, 0)).open(specification, READ) as file:
                data = file.get_rest()
        except BadChain as bad:
            data, is_whole = bad.data, False
        except StatusError as error:
            raise _refused(source, name, error) from error
    files.write(target, newlines(data, say) if is_text else data)
    came = counted(len(data), "character")
    if not is_whole:
        where = _place(image, name, len(data))
        raise StickError(f"{source}: $A4 in {where}; {named(target)} has the {came} before it")
    say(f"{named(target)}: {came}")
    return 0


def _place(image: bytes, name: str, before: int) -> str:
    """The file in which so many characters came, and the sector behind them
    that does not hang together with the others."""
    entry = disk.first_match(image, name)
    fault = entry and disk.fault_of(image, entry)
    if not entry or not fault or fault.before != before:
        return name
    return f"{entry.filename} at sector {fault.sector} ({fault.why})"


def _specification(name: str) -> str:
    """A file name on drive 1, as a host sends it. What the stick would take
    for its end is none here."""
    if not name.isascii() or " " in name or len(name) > LONGEST:
        raise Usage(f"'{name}' is no file name: up to 8 characters, a dot and up to 3, and no blank")
    return f"D1:{name}"


def _refused(source: str, name: str, error: StatusError) -> StickError:
    if isinstance(error, FileNotFound):
        return StickError(f"{source}: {error}: {name}")
    if isinstance(error, BadFileName):
        return StickError(f"{name}: {error}")
    return StickError(f"{source}: {error}")
