"""Where ``play`` comes from: proved, built and started, or named by a user."""

from __future__ import annotations

import os
import platform
import shlex
import shutil
import signal
import subprocess
import sys
import time
from collections.abc import Callable, Iterator
from contextlib import contextmanager
from pathlib import Path
from types import FrameType

from . import stamp, unproved
from .crates import Crates
from .errors import StickError
from .progress import Progress
from .stamp import PROGRAM

OVERRIDE = "FIXLOMAND_PLAY"
"""The variable that names another command in place of the built ``play``."""
LOG = Path("target", "stick.log")
"""What the toolchain said at the last build."""
LOADER = Path("toolchain", "lib", "ld-linux-x86-64.so.2")
TITLE = "Fixlomand"
UNPROVED_TITLE = "Fixlomand, NOT PROVED"

_wanted_unproved = False
_title = TITLE


class Missing(StickError):
    """Something that is needed is not there."""


def want_unproved() -> None:
    """From now on ``play_command`` does not wait for a proof: where there is
    no proved ``play`` of these sources, they are compiled without it."""
    global _wanted_unproved
    _wanted_unproved = True


def title() -> str:
    """What stands above every screen: it says so if ``play`` is not proved."""
    return _title


def is_unproved() -> bool:
    """Whether the ``play`` that was started is not proved."""
    return _title == UNPROVED_TITLE


def play_command(say: Callable[[str], None]) -> list[str]:
    """The command that starts ``play``; what is needed for it is built."""
    named = os.environ.get(OVERRIDE, "")
    if named.strip():
        return _named(named, say)
    repository = find_repository()
    rt = shutil.which("rt")
    if rt is None:
        raise Missing("the Rattle toolchain's command rt is not on the PATH (README.md tells where it comes from)")
    kit = Path(rt).resolve().parents[1]
    if stamp.is_proved(repository):
        say("play is proved, and its sources are unchanged since")
    elif _wanted_unproved:
        return _start(kit, _build_unproved(repository, kit, say), say)
    else:
        _build(repository, rt, say)
    return _start(kit, repository / PROGRAM, say)


def find_repository() -> Path:
    """The clone that this package is a part of, or the one that the current
    folder is in."""
    here = Path.cwd()
    for folder in (Path(__file__).resolve().parents[2], here, *here.parents):
        if (folder / "crates.txt").is_file() and (folder / "host" / "fixlomand").is_dir():
            return folder
    raise Missing(f"no clone of Fixlomand here: run this inside one, or name a play by {OVERRIDE}")


def _named(named: str, say: Callable[[str], None]) -> list[str]:
    try:
        command = shlex.split(named)
    except ValueError:
        raise Missing(f"{OVERRIDE} is no command: {named}") from None
    if shutil.which(command[0]) is None:
        raise Missing(f"{OVERRIDE} names a program that is not there: {command[0]}")
    say(f"{OVERRIDE} names play: {named}")
    return command


# proved


def _build(repository: Path, rt: str, say: Callable[[str], None]) -> None:
    if (repository / PROGRAM).exists():
        say("looking with rt run in crates/play whether play is proved, and proving what has changed")
    else:
        say("the core is not proved on this machine yet: rt run in crates/play does it, which takes minutes the first time")
        say("(./stick --unproved starts in seconds: the same sources, compiled without the proof)")
    begin = time.monotonic()
    before = stamp.sources(repository)
    progress = Progress("stick", Crates(repository), ["run", "play"], sys.stderr, troubles=False)
    try:
        (repository / LOG).parent.mkdir(exist_ok=True)
        # It also runs what it has built, on no input, and play ends when its input does.
        with (repository / LOG).open("wb") as log, _running([rt, "run"], repository / "crates" / "play") as process:
            assert process.stdout is not None
            try:
                progress.follow(process.stdout.fileno(), log)
            finally:
                progress.end()
            status = process.wait()
    except OSError as error:
        raise Missing(f"rt run in crates/play cannot run: {error}") from error
    if status != 0:
        raise Missing(f"rt run in crates/play failed, so there is no play; {repository / LOG} tells why")
    stamp.note(repository, before)
    say(f"play is proved and built ({time.monotonic() - begin:.0f} s)")


@contextmanager
def _running(command: list[str], folder: Path) -> Iterator[subprocess.Popen[bytes]]:
    """A command and all that it starts: none of it outlives this program, not
    even what ignores the key that ends it."""

    def ended(number: int, frame: FrameType | None) -> None:
        raise SystemExit(128 + number)

    before = {number: signal.signal(number, ended) for number in (signal.SIGTERM, signal.SIGHUP)}
    process = subprocess.Popen(
        command,
        cwd=folder,
        stdin=subprocess.DEVNULL,
        stdout=subprocess.PIPE,
        stderr=subprocess.STDOUT,
        start_new_session=True,
    )
    try:
        with process:
            try:
                yield process
            except BaseException:
                os.killpg(process.pid, signal.SIGTERM)
                raise
    finally:
        for number, handler in before.items():
            signal.signal(number, handler)


def _start(kit: Path, program: Path, say: Callable[[str], None]) -> list[str]:
    """Programs are for x86-64; on another processor an emulator runs them.
    They start with the loader and the library of the toolchain."""
    loader = kit / LOADER
    for needed in (program, loader):
        if not needed.exists():
            raise Missing(f"{needed} is missing")
    command = [str(loader), "--library-path", str(loader.parent), str(program)]
    if platform.machine() in ("x86_64", "AMD64"):
        say("play runs on this processor, with the toolchain's loader")
        return command
    emulator = shutil.which("qemu-x86_64")
    if emulator is None:
        raise Missing("play is for x86-64, and there is no emulator qemu-x86_64 on the PATH")
    say(f"play runs under the emulator {emulator}")
    return [emulator, *command]


# not proved


def _build_unproved(repository: Path, kit: Path, say: Callable[[str], None]) -> Path:
    global _title
    begin = time.monotonic()
    try:
        program, is_new = unproved.build(Crates(repository), kit, stamp.identity())
    except (OSError, unproved.Failed) as error:
        raise Missing(f"play cannot be compiled without its proof: {error}") from error
    if is_new:
        say(f"play is compiled without the proof ({time.monotonic() - begin:.0f} s)")
    say("NOT PROVED: this play is the sources as they are, compiled without the proof (./stick alone proves them)")
    _title = UNPROVED_TITLE
    return program
