"""The word ``./stick doctor``: what is wrong with a diskette in a file, told,
repaired and taken back.

What is changed the core alone decides: its list is replayed on the image, and
the image that comes of it is given to the core once more, which must find
nothing in it. Then, if it is told to, this writes: first what was there and the
list, under names that nothing has, and last, by one renaming, the image. So at
each moment the image is the old one or the new one, whole.
"""

from __future__ import annotations

import os
import shutil
import sys
import textwrap
from contextlib import suppress
from pathlib import Path
from shlex import quote

from . import changes, disk, drives, files, sectormap, toolchain
from .changes import ATR, PLAIN, Listed
from .diskette import Say
from .drives import Filed
from .errors import StickError
from .findings import Diagnosis
from .play import Player
from .text import counted
from .toolchain import Missing
from .words import Usage, flag, operands, option

WIDTH, NARROW = 80, 20
"""Columns where nothing says how many there are, and the fewest for which lines
are broken."""
HELP = "doctor --help"
WRITABLE = 0o222
"""The bits of a file's mode of which it has one, unless it is to stay."""
NOT_WRITTEN = 1
"""The end status of a run that found changes and did not make them."""


class Trouble(StickError):
    """What keeps the doctor from its work. It has another end status than
    what it finds."""


def run(words: list[str], say: Say) -> int:
    """Does what the words after ``doctor`` say; the end status."""
    words, is_writing = flag(words, "--write")
    words, is_forced = flag(words, "--force")
    words, list_file = option(words, "--undo")
    try:
        if list_file is None:
            operands("doctor", words, 1, "an IMAGE", help_word=HELP)
            if is_forced and not is_writing:
                raise Usage(f"--force goes with --write (try ./stick {HELP})")
            return _examine(words[0], is_writing, is_forced, say)
        operands("doctor --undo", words, 0, "a LIST, or an IMAGE too,", 1, help_word=HELP)
        if is_writing or is_forced:
            raise Usage(f"--undo goes with no other option (try ./stick {HELP})")
        return _undo(list_file, words[0] if words else None, say)
    except (Usage, Missing):
        raise
    except StickError as error:
        raise Trouble(str(error)) from error


def _examine(file: str, is_writing: bool, is_forced: bool, say: Say) -> int:
    if is_writing:
        _check_name(file)
    filed = drives.read_filed(file)
    diagnosis = _diagnosis(filed.image, say)
    for line in _told(_named(file), diagnosis):
        print(line)
    sys.stdout.flush()  # before anything is written: who cannot be told gets nothing
    if not diagnosis.changes:
        if is_writing:
            say(f"{file} is sound: nothing is written")
        return 0
    doubts = diagnosis.doubts()
    if not is_writing:
        say(f"nothing is written: --write{' --force' if doubts else ''} makes these changes")
        return NOT_WRITTEN
    if doubts and not is_forced:
        say(f"nothing is written: {' and '.join(doubts)}; if this is a DOS 2.0S diskette all the same, --write --force")
        return NOT_WRITTEN
    _write(file, filed, diagnosis, say)
    return 0


def _named(file: str) -> str:
    """A file's name as it is told."""
    return "standard input" if file == "-" else file


def _check_name(file: str) -> None:
    """Before anything runs: is it a file that another can take the place of?"""
    if file == "-":
        raise Usage("a name is needed to write to: - has none")
    path = Path(os.path.realpath(file))
    if not path.exists() or path.is_dir():
        return  # what reads it says so
    if not path.is_file():
        raise Missing(f"{file}: not a file, so that nothing can take its place")
    if not path.stat().st_mode & WRITABLE:
        raise Missing(f"{file}: it is write-protected")
    if not os.access(path.parent, os.W_OK):
        raise Missing(f"{file}: nothing can be written beside it")


# the diagnosis


def _diagnosis(image: bytes, say: Say) -> Diagnosis:
    """What the core says of an image; that what it leaves is sound is made
    sure of."""
    with Player(toolchain.play_command(say)) as player:
        drives.lend(player, image, 1)
        listed = player.doctor(1)
        try:
            after = changes.replayed(image, listed)
        except changes.Differs as error:
            raise Trouble(f"play's list is not of this image: {error}") from None
        drives.lend(player, after, 2)
        if again := player.doctor(2):
            raise Trouble(f"what play's list leaves is not sound: {counted(len(again), 'change')} more")
    return Diagnosis(image, listed)


def _told(name: str, diagnosis: Diagnosis) -> list[str]:
    """All that people are told of a diskette."""
    is_terminal = sys.stdout.isatty()
    width = max(NARROW, _width() if is_terminal else WIDTH)
    lines = [toolchain.title()] if toolchain.is_unproved() else []
    if not diagnosis.changes:
        lines.append(f"{name}: sound, {disk.summary(diagnosis.before)}")
    else:
        for words in (f"{name}: {_summary(diagnosis)}", *_warnings(diagnosis), "", *diagnosis.words()):
            lines += _wrapped(words, width - 1) if is_terminal else [words]
        lines += ["", "  sector place old new"]
        lines += [f"{changes.columns(each)}  {diagnosis.change_words(each)}" for each in diagnosis.changes]
        lines += ["", "the sectors, with these changes made"]
    return [*lines, *sectormap.lines(diagnosis, width - 1, is_terminal and _has_colours())]


def _summary(diagnosis: Diagnosis) -> str:
    deleted = sum(file.is_deleted for file in diagnosis.files)
    cut = len(diagnosis.hurt) - deleted
    made = f"{counted(len(diagnosis.changes), 'change')} make{'s' if len(diagnosis.changes) == 1 else ''} it sound"
    return f"{made}; of {counted(len(diagnosis.files), 'file')} {cut} cut and {deleted} deleted"


def _warnings(diagnosis: Diagnosis) -> list[str]:
    doubts = diagnosis.doubts()
    end = ["if another system wrote this diskette, the changes mutilate it"] if doubts else []
    return [f"WARNING: {each}" for each in (*doubts, *end)]


def _wrapped(text: str, width: int) -> list[str]:
    """A text in lines, broken between words."""
    broken = textwrap.wrap(text, width, subsequent_indent="  ", break_long_words=False, break_on_hyphens=False)
    return broken or [""]


def _width() -> int:
    try:
        return os.get_terminal_size(sys.stdout.fileno()).columns or WIDTH
    except OSError:
        return WIDTH


def _has_colours() -> bool:
    return os.environ.get("TERM", "dumb") != "dumb" and not os.environ.get("NO_COLOR")


# writing


def _write(file: str, filed: Filed, diagnosis: Diagnosis, say: Say) -> None:
    """Keeps the old image and the list, and then replaces the image."""
    path = Path(os.path.realpath(file))
    old, listed = _free_names(path)
    text = changes.to_text(
        Listed(path.name, ATR if filed.is_atr else PLAIN, old.name, diagnosis.changes), diagnosis.change_words
    )
    made: list[Path] = []
    try:
        part = files.prepare(path, filed.holding(diagnosis.after))
        made.append(part)
        shutil.copymode(path, part)
        files.keep(old, filed.data, path, is_copy=True)
        made.append(old)
        files.keep(listed, text.encode("utf-8"), path)
        made.append(listed)
        # Some time has gone by, with a proof maybe.
        if path.read_bytes() != filed.data:
            raise Trouble(f"{file} has become another while it was looked at, and is left as it is")
        files.settle(path.parent)
        os.replace(part, path)
    except (OSError, Trouble) as error:
        for each in made:
            with suppress(OSError):
                each.unlink(missing_ok=True)
        raise _left(file, error) from error
    files.settle(path.parent)
    folder = path.parent if os.path.islink(file) else Path(file).parent
    say(f"{folder / old.name} is the image as it was")
    say(f"{folder / listed.name} is the list (./stick doctor --undo {quote(str(folder / listed.name))} takes it back)")
    say(f"{file} is repaired: {disk.summary(diagnosis.after)}")


def _left(file: str, error: OSError | Trouble) -> Trouble:
    """Why an image is left as it is."""
    if isinstance(error, Trouble):
        return error
    return Trouble(f"{file} is left as it is: {error.filename or file}: {error.strerror}")


def _free_names(path: Path) -> tuple[Path, Path]:
    """Names for the old image and the list, that belong together and that
    nothing has."""
    number = 1
    while True:
        end = "" if number == 1 else f".{number}"
        names = path.with_name(f"{path.name}.old{end}"), path.with_name(f"{path.name}.list{end}")
        if not any(map(os.path.lexists, names)):
            return names
        number += 1


def _undo(list_file: str, given: str | None, say: Say) -> int:
    """Takes the changes of a list back, if all of them are there."""
    if list_file == "-" and given is None:
        raise Usage("--undo - needs the IMAGE too: no name is beside standard input")
    listed = _read_list(list_file)
    file = os.path.join(os.path.dirname(list_file), listed.image) if given is None else given
    _check_name(file)
    filed = drives.read_filed(file)
    try:
        before = changes.taken_back(filed.image, listed.changes)
    except changes.Differs as error:
        raise Trouble(f"{file} is left as it is: {error}{_not_made(filed.image, listed)}") from None
    files.write(file, filed.holding(before))
    files.settle(Path(os.path.realpath(file)).parent)
    say(f"{file}: {counted(len(listed.changes), 'change')} taken back, {disk.summary(before)}")
    return 0


def _not_made(image: bytes, listed: Listed) -> str:
    """Whether it is because the changes are not made at all."""
    try:
        changes.replayed(image, listed.changes)
    except changes.Differs:
        return " there: it was changed after the repair"
    return " there: none of the changes is made, or all are taken back"


def _read_list(file: str) -> Listed:
    try:
        return changes.parse(files.read(file).decode("utf-8"))
    except UnicodeDecodeError:
        raise Trouble(f"{_named(file)}: no list of the doctor's: it is no text") from None
    except changes.Refused as refused:
        raise Trouble(f"{_named(file)}: {refused}") from None
