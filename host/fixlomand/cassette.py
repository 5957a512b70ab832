"""The words of ``./stick tape``: tapes in files, and hosts that read and make
them."""

from __future__ import annotations

from collections.abc import Callable, Sequence

from . import cas, deck, files, script, tape, toolchain
from .cio import READ, WRITE, Stick
from .errors import Checksum, PaperFull, StickError
from .play import Player, PlayPort
from .tape import RECORDS, Record
from .text import counted, named, newlines
from .words import Usage, flag, operands, option

Say = Callable[[str], None]


def run(words: list[str], say: Say) -> int:
    """Does what a word after ``tape`` says; the end status."""
    does: dict[str, Callable[[list[str], Say], int]] = {
        "import": _import,
        "export": _export,
        "list": _list,
        "check": _check,
        "read": _read,
        "make": _make,
    }
    if not words or words[0] not in does:
        what = f"unknown word 'tape {words[0]}'" if words else "tape needs a word after it"
        raise Usage(f"{what}: {', '.join(does)} (try ./stick tape --help)")
    return does[words[0]](words[1:], say)


# between files


def _import(words: list[str], say: Say) -> int:
    words, number = _number(words)
    operands("tape import", words, 2, "a FILE.cas and a TAPE")
    source, target = words
    if deck.is_cas(target):
        raise Usage(f"{target}: import writes a TAPE, whose name does not end in .cas (export writes those)")
    files.check_directory(target)
    recorded = deck.read_cas(source)
    first, records = _chosen(source, recorded, number)
    for place, record in enumerate(records, first):
        if record.fault:
            say(f"{source}: record {place} reads as $8F: {record.fault}")
    found = tape.files_of(records)
    if not found or not found[-1].is_ended:
        where = f"behind record {first + len(records) - 1}" if records else "and no record at all"
        say(f"{source}: no end record {where}")
    if number is None:
        _hint_at_files(source, len(found), say)
    files.write(target, tape.tape_of(records))
    say(f"{target}: {tape.summary(records)}")
    return 0


def _export(words: list[str], say: Say) -> int:
    operands("tape export", words, 2, "a TAPE and a FILE.cas")
    source, target = words
    if not deck.is_cas(target) and target != "-":
        raise Usage(f"{target}: export writes a CAS file, whose name ends in .cas")
    files.check_directory(target)
    records = deck.read(source).records
    written = deck.through_the_end(records)
    if not written or not written[-1].is_end:
        say(f"{source}: no end record{'' if written else ', and no record at all'}")
    elif len(written) < len(records):
        say(f"{source}: left out behind the last end record: {tape.span(len(written), len(records) - 1)}")
    files.write(target, cas.encode(written))
    say(f"{named(target)}: {tape.summary(written)}")
    return 0


def _list(words: list[str], say: Say) -> int:
    operands("tape list", words, 1, "a TAPE or FILE.cas")
    recorded = deck.read(words[0])
    beside = [f"gap {each.gap} ms, {each.baud} baud" for each in recorded.taken]
    print(f"{words[0]}: {tape.summary(recorded.records)}")
    for line in tape.listed(recorded.records, beside):
        print(line)
    if not deck.is_cas(words[0]) and len(recorded.records) < RECORDS:
        print(f"  {tape.span(len(recorded.records), RECORDS - 1)}: blank")
    _hint_at_files(words[0], len(tape.files_of(recorded.records)), say)
    return 0


def _check(words: list[str], say: Say) -> int:
    operands("tape check", words, 1, "a TAPE or FILE.cas")
    recorded = deck.read(words[0])
    records = recorded.records
    faults = [f"record {place} reads as $8F: {each.fault}" for place, each in enumerate(records) if each.fault]
    found = tape.files_of(records)
    # A tape that runs out reads as $88, as an end record does.
    if found and not found[-1].is_ended and len(records) < RECORDS:
        faults.append(f"no end record behind record {len(records) - 1}: reads as $8F")
    if len(records) > RECORDS:
        faults.append(f"{len(records)} records, and a tape has {RECORDS}: import --file N takes one file")
    for fault in faults:
        print(f"{words[0]}: {fault}")
    print(f"{words[0]}: {tape.summary(records)}, {counted(len(faults), 'fault')}")
    return 1 if faults else 0


# through the core


def _read(words: list[str], say: Say) -> int:
    words, number = _number(words)
    words, is_text = flag(words, "--text")
    operands("tape read", words, 2, "a TAPE and an OUT")
    source, target = words
    files.check_directory(target)
    recorded = deck.read(source)
    first, records = _chosen(source, recorded, number)
    with Player(toolchain.play_command(say)) as player:
        deck.lend(player, records)
        data, head = _characters(player)
    files.write(target, newlines(data, say) if is_text else data)
    came = counted(len(data), "character")
    if head is not None:
        why = records[head.record].fault if head.record < len(records) else "no end record"
        where = f"record {first + head.record}, place {head.place}"
        raise StickError(f"{source}: $8F at {where} ({why}); {named(target)} has the {came} before it")
    if number is None:
        _hint_at_files(source, len(tape.files_of(records)), say)
    say(f"{named(target)}: {came}")
    return 0


def _characters(player: Player) -> tuple[bytes, script.Tape | None]:
    """What a host reads from the tape; if $8F ends it, with the tape as it
    is then."""
    with Stick(PlayPort(player, 0)).open("C:", READ) as file:
        try:
            return file.get_rest(), None
        except Checksum as bad:
            return bad.data, player.tape()


def _make(words: list[str], say: Say) -> int:
    operands("tape make", words, 2, "a TAPE and a FILE")
    target, source = words
    if target == "-":
        raise Usage("tape make writes a TAPE or a FILE.cas, not standard output")
    files.check_directory(target)
    data = files.read(source)
    with Player(toolchain.play_command(say)) as player:
        try:
            with Stick(PlayPort(player, 0)).open("C:", WRITE) as file:
                file.put_characters(data)
        except PaperFull as full:
            raise StickError(
                f"{source}: ${full.status:02X}, the tape is full after {full.count} of {len(data)} characters; "
                f"{target} is not written"
            ) from full
        written = player.tape()
    deck.write(target, written.data)
    say(f"{target}: {tape.summary(tape.records_of(written.data))}, {counted(len(data), 'character')}")
    return 0


# words


def _number(words: list[str]) -> tuple[list[str], int | None]:
    """The words without ``--file N``, and N."""
    words, number = option(words, "--file")
    if number is not None and not (number.isascii() and number.isdigit() and int(number) > 0):
        raise Usage(f"--file takes the number of a file, from 1 on, not '{number}'")
    return words, None if number is None else int(number)


def _chosen(file: str, recorded: deck.Recorded, number: int | None) -> tuple[int, Sequence[Record]]:
    """The records of one file, or all, and the number of the first. They
    must fit a tape."""
    first, records, taken = 0, recorded.records, recorded.taken
    if number is not None:
        found = tape.files_of(records)
        if number > len(found):
            raise StickError(f"{file}: there is no file {number}, only {counted(len(found), 'file')}")
        first, last = found[number - 1].first, found[number - 1].last
        records, taken = records[first : last + 1], taken[first : last + 1]
    deck.check_room(file, taken)
    return first, records


def _hint_at_files(file: str, number: int, say: Say) -> None:
    if number > 1:
        say(f"{file}: {number} files, and OPEN begins at record 0: import or read with --file N takes another")
