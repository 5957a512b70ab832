"""The command for people: its words, and one line for what goes wrong."""

from __future__ import annotations

import os
import subprocess
import sys
from collections.abc import Callable
from pathlib import Path

from . import __version__, cases, cassette, demo, diskette, doctor, files, picture, screen, script, tape, toolchain
from .deck import Deck
from .drives import Drives
from .errors import StickError
from .helps import HELPS
from .log import Log
from .play import Player
from .toolchain import Missing
from .words import Usage, operands, option, options

HELP = f"""\
stick: the I/O half of an Atari 400/800 between a laptop and a phone

  stick [demo]         two hosts at work at once, then one that waits
  stick live           the stick in this terminal, with a pseudo-terminal for
                       each host; --speed N ticks each port N times a second,
                       --log FILE writes what each port does, --tape FILE
                       is the tape, --disk N=FILE the diskette in drive N
                       (stick live --help tells the keys)
  stick play SCRIPT    plays a call script in readable form and shows the
                       answers; - is standard input
  stick picture FILE   writes the screen as a PNG: of a drawing, or after the
                       call script of --script SCRIPT; - is standard output
  stick cases          plays the papers' cases and compares each
  stick tape ..        tapes in files: import, export, list, check, read, make
                       (stick tape --help)
  stick disk ..        diskettes in files: import, export, list, read, make
                       (stick disk --help)
  stick doctor IMAGE   what is wrong with a diskette, file by file; --write
                       repairs it, --undo LIST takes that back
                       (stick doctor --help)
  stick --unproved ..  the same words without the wait for a proof: the sources
                       are compiled without it, and every screen says so
  stick --help         this text; stick --version

A call script has one op a line; # begins a comment (more: stick play --help):
  fresh | take PORT BYTES | tick PORT [x N] | give PORT [x N] | press CODE
  lend BUFFER N | write BUFFER AT BYTES | dump [tape] | doctor N | raw BYTES
                                           (BYTES and CODE are hexadecimal)

What is needed is proved and built first; {toolchain.OVERRIDE} names another
program in its place. The end status is 0; 1 if a run went wrong; 2 for a bad
word or something missing.
"""
UNPROVED = "--unproved"


def main(words: list[str]) -> int:
    """Runs the command; its end status."""
    if sys.stdout is None:  # closed by who started this
        return _say_or_not("there is no standard output", 2)
    try:
        sys.stdout.reconfigure(errors="replace")  # type: ignore[union-attr]
        status = _run(words)
        sys.stdout.flush()
        return status
    except (Usage, Missing, doctor.Trouble, script.ScriptError) as error:
        return _fail(str(error), 2)
    except BrokenPipeError:
        return _fail("standard output was closed before the end", 1)
    except StickError as error:
        return _fail(str(error), 1)
    except OSError as error:
        return _fail(error.strerror or str(error), 1)
    except KeyboardInterrupt:
        return _fail("interrupted", 130)


def say(text: str) -> None:
    """A line on what is done, beside the output."""
    print(f"stick: {text}", file=sys.stderr, flush=True)


def _fail(text: str, status: int) -> int:
    """Says what went wrong. What is already written stays; what cannot be
    written any more is not tried again when the program ends."""
    try:
        sys.stdout.flush()
    except OSError:
        os.dup2(os.open(os.devnull, os.O_WRONLY), sys.stdout.fileno())
    return _say_or_not(text, status)


def _say_or_not(text: str, status: int) -> int:
    try:
        say(text)
    except OSError:
        pass  # nobody is left to hear it
    return status


def console() -> None:
    """The command ``stick`` of an installed package."""
    sys.exit(main(sys.argv[1:]))


def _run(words: list[str]) -> int:
    if UNPROVED in words:
        toolchain.want_unproved()
        words = [word for word in words if word != UNPROVED]
    word, rest = (words[0], words[1:]) if words else ("demo", [])
    if word in ("-h", "--help", "help"):
        print(HELP, end="")
        return 0
    if word == "--version":
        print(f"stick {__version__}")
        return 0
    commands: dict[str, Callable[[list[str]], int]] = {
        "demo": _demo,
        "live": _live,
        "play": _play,
        "picture": _picture,
        "cases": _cases,
        "tape": _tape,
        "disk": _disk,
        "doctor": _doctor,
    }
    if word not in commands:
        raise Usage(f"unknown word '{word}' (try ./stick --help)")
    if "--help" in rest or "-h" in rest:
        print(HELPS.get(" ".join([word, *rest[:1]]), HELPS.get(word, HELP)), end="")
        return 0
    return commands[word](rest)


def _demo(words: list[str]) -> int:
    operands("demo", words, 0)
    with Player(toolchain.play_command(say)) as player:
        demo.show(player)
    return 0


def _live(words: list[str]) -> int:
    words, speed = option(words, "--speed")
    words, log_name = option(words, "--log")
    words, tape_name = option(words, "--tape")
    words, disks = options(words, "--disk")
    operands("live", words, 0)
    chosen = _drives(disks)
    if speed is not None and not (speed.isascii() and speed.isdigit() and 0 < int(speed) <= 1_000_000):
        raise Usage(f"--speed takes a number from 1 to 1000000, not '{speed}'")
    if not (sys.stdin.isatty() and sys.stdout.isatty()):
        raise Missing("live needs a terminal")
    try:
        import curses

        from . import live
    except ImportError as error:
        raise Missing(f"live needs Python's curses module: {error}") from error
    if tape_name is not None and tape_name.startswith("-"):
        raise Usage(f"--tape takes a file, not '{tape_name}'")
    deck, drives = Deck(tape_name), Drives(chosen)
    log = None if log_name is None else _open_log(log_name)
    with Player(toolchain.play_command(say)) as player:
        player.listener = log
        if deck.is_new:
            say(f"{tape_name} is new: the tape is blank")
        if log is not None:
            for line in drives.words():
                log.note(line)
        try:
            drives.put_in(player)
            deck.put_in(player)
            ticks = int(speed) if speed else live.SPEED
            saved = live.run(player, ticks, deck, drives, lambda text: print(text, flush=True))
        except curses.error as error:
            raise Missing(f"live cannot use this terminal: {error}") from error
        finally:
            if log is not None:
                log.close()
        state = player.state()
    for line in screen.paper_lines(state):
        print(line)
    for file in saved:
        say(f"saved {file}")
    for line in deck.words():
        say(line)
    say(f"the stick is unplugged; its paper has {state.used} bytes")
    if log is not None and not log.fault:
        say(f"the log is {log_name}; ./stick play plays it again")
    if deck.fault:
        raise StickError(f"{deck.fault}; the tape is not saved")
    if log is not None and log.fault:
        raise StickError(f"{log_name}: {log.fault}; the log ends before the run did")
    return 0


def _play(words: list[str]) -> int:
    operands("play", words, 1, "a SCRIPT")
    ops = _read_script(words[0])
    # Not a conversation: what is written before an early end is kept.
    done = subprocess.run(
        toolchain.play_command(say), input=script.to_bytes(ops), stdout=subprocess.PIPE, check=False
    )
    for line in script.format_answers(ops, done.stdout, _shown):
        print(line)
    if any(len(piece) < script.written(op, piece) for op, piece in zip(ops, script.pieces(ops, done.stdout))):
        raise StickError("play ended before the script did")
    return 0


def _shown(dump: script.State | script.Tape) -> list[str]:
    return tape.shown(dump) if isinstance(dump, script.Tape) else screen.shown(dump)


def _picture(words: list[str]) -> int:
    words, script_name = option(words, "--script")
    operands("picture", words, 1, "a FILE")
    ops = None if script_name is None else _read_script(script_name)
    if ops and isinstance(ops[-1], script.Raw):
        raise Usage(f"{script_name}: the script ends the run, so that there is no picture after it")
    files.check_directory(words[0])
    with Player(toolchain.play_command(say)) as player:
        if ops is None:
            picture.draw(player)
        else:
            player.do(*ops)
        state = player.state()
    files.write(words[0], picture.png(state))
    return 0


def _cases(words: list[str]) -> int:
    operands("cases", words, 0)
    with Player(toolchain.play_command(say)) as player:
        return 1 if cases.run(player, cases.CASES) else 0


def _tape(words: list[str]) -> int:
    return cassette.run(words, say)


def _disk(words: list[str]) -> int:
    return diskette.run(words, say)


def _doctor(words: list[str]) -> int:
    return doctor.run(words, say)


# files


def _drives(disks: list[str]) -> dict[int, str]:
    """The file of each drive, of words N=FILE."""
    chosen: dict[int, str] = {}
    for word in disks:
        number, _, file = word.partition("=")
        if number not in map(str, range(1, script.DRIVES + 1)) or not file or file.startswith("-"):
            raise Usage(f"--disk takes N=FILE, N from 1 to {script.DRIVES}, not '{word}'")
        if int(number) in chosen:
            raise Usage(f"--disk {number}=.. is given twice: a drive has one diskette")
        chosen[int(number)] = file
    return chosen


def _read_script(file: str) -> list[script.Op]:
    name = "standard input" if file == "-" else file
    try:
        data = sys.stdin.buffer.read() if file == "-" else Path(file).read_bytes()
        return script.parse(data.decode("utf-8"))
    except OSError as error:
        raise Missing(f"{file}: {error.strerror}") from error
    except UnicodeDecodeError:
        raise Usage(f"{name}: a call script is text") from None
    except script.ScriptError as error:
        raise Usage(f"{name}: {error}") from None


def _open_log(file: str) -> Log:
    if file.startswith("-"):
        raise Usage(f"--log takes a file, not '{file}'")
    try:
        return Log(open(file, "w", encoding="utf-8"))
    except OSError as error:
        raise Missing(f"{file}: {error.strerror}") from error
