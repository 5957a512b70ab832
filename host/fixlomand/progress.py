"""What ``rt`` has proved so far, shown while it goes on.

In a terminal it is one line that moves; elsewhere a line for each crate.
"""

from __future__ import annotations

import os
import re
import select
import shutil
import sys
import time
from collections.abc import Sequence
from pathlib import Path
from typing import BinaryIO, TextIO

from . import stamp
from .crates import Crates

# rt ci tells of a crate when it is done: "== NAME", all that was said of it, and how it ended.
BLOCK = "== "
PROVED = re.compile(r"rt: (\w+) proved$")
TESTS_PROVED = re.compile(r"rt: \w+: its tests are proved$")
KEPT = re.compile(r"rt: (\w+) is kept: ")
NOT_PROVED = re.compile(r"rt: (\w+)(: its tests are)? NOT PROVED")
REFUSED = re.compile(r"rt: must-fail (\S+?)(?:\.edit)?: refused")
EDIT = "rt: must-fail "
WELL = "rt: ok; "
# rt lib, rt run and rt check prove one crate after the other.
BEGUN = re.compile(r"rt: chose --jobs \d+ for (\w+)$")
ENDED = "logic=proved "
FAILED = "logic=not-proved"
QUIET = re.compile(
    r"rt: (\w+ ran\b|\w+: its tests passed|\w+: trying its must-fail edits|\w+: \d+ of its \d+ must-fail edits were tried by"
    r"|\w+: begins with what a check kept in|nothing has changed since the last proved build|running out/)"
)
"""What is no trouble."""
PACE = 1.0
"""Seconds between two looks at the clock."""
WIDTH = 80


class Progress:
    """Reads the lines of one run of ``rt``, whose words are given."""

    def __init__(self, says: str, crates: Crates, words: Sequence[str], out: TextIO, troubles: bool = True) -> None:
        """``says`` begins each line; ``troubles``: whether what is not proved
        is shown with all that ``rt`` says of it."""
        self._says, self._out, self._troubles = says, out, troubles
        self._names = [name for level in crates.levels(words[1:]) for name in level]
        """The crates to be proved, in the order in which they are begun."""
        self._uses = crates.uses
        self._jobs, self._edits = 1, 0
        if words[0] == "ci":
            self._jobs, self._edits = _jobs(), crates.edits()
            behind = crates.behind()
            self._names.sort(key=lambda name: -behind[name])
        elif words[1:]:
            self._names = crates.one_by_one(words[1])
        self._moving = out.isatty() and os.environ.get("TERM", "dumb") != "dumb"
        self._begin = time.monotonic()
        self._done: dict[str, bool] = {}
        """The crates that ``rt`` is done with, and whether each is proved."""
        self._at = ""
        """The crate that ``rt`` is at, where it proves one after the other."""
        self._refused = 0
        self._kept: list[str] = []
        """Lines on a crate: whether they tell of trouble, a later one says."""
        self._in_block = False
        self._telling = False
        """Whether the lines to come are on an edit that was not refused."""
        self.worked = False
        """Whether anything had to be proved."""
        self.well = False
        """Whether ``rt ci`` said that all is proved."""

    def follow(self, source: int, log: BinaryIO | None = None) -> None:
        """Reads a file to its end; the log gets all of it."""
        rest = b""
        while True:
            self.show()
            if not select.select([source], [], [], PACE if self._moving else None)[0]:
                continue
            data = os.read(source, 65_536)
            if log is not None:
                log.write(data)
                log.flush()
            *lines, rest = (rest + data).split(b"\n")
            if not data and rest:
                lines = [rest]
            for line in lines:
                self.line(line.decode("utf-8", "replace"))
            if not data:
                return

    def line(self, text: str) -> None:
        """Takes a line of ``rt``."""
        if text.startswith(BLOCK):
            self._in_block, self._telling = True, False
            self._kept = [text]
        elif self._in_block:
            self._of_block(text)
        elif text.startswith((ENDED, FAILED)):
            self._of_crate(text)
        elif text.startswith("rt: "):
            self._of_rt(text)
        elif self._telling:
            self._tell(text)
        else:
            self._kept.append(text)

    def _of_block(self, text: str) -> None:
        """Takes a line of all that ``rt ci`` says of a crate, or of its tests."""
        self._kept.append(text)
        if match := PROVED.match(text):
            self._proved(match[1])
        elif match := NOT_PROVED.match(text):
            if not match[2]:
                self._done[match[1]] = False
            self._tell_kept()
        elif not TESTS_PROVED.match(text):
            return
        self._in_block = False
        self._kept.clear()

    def _of_crate(self, text: str) -> None:
        """Takes the last line of a check."""
        if text.startswith(ENDED):
            if self._at:
                self._proved(self._at)
        else:
            self._done[self._at] = False
            self._kept.append(text)
            self._tell_kept()
        self._at = ""
        self._kept.clear()

    def _of_rt(self, text: str) -> None:
        """Takes a line of ``rt`` itself."""
        self._telling = False
        if match := BEGUN.match(text):
            self._at = match[1]
            if self._at in self._names:  # rt does not speak of what has not changed
                for name in self._names[: self._names.index(self._at)]:
                    self._done.setdefault(name, True)
        elif match := KEPT.match(text):
            self._done[match[1]] = True
        elif match := REFUSED.match(text):
            self._refused += 1
            self._note(f"must-fail edit {self._refused} of {self._edits}: {match[1]} refused, {self._clock()} so far")
        elif text.startswith(WELL):
            self.well = True
        elif not QUIET.match(text):
            if match := NOT_PROVED.match(text):
                self._done[match[1]] = False
            self._telling = text.startswith(EDIT)
            self._kept.append(text)
            self._tell_kept()
        self._kept.clear()

    def _proved(self, name: str) -> None:
        self._done[name] = True
        self.worked = True
        self._note(f"crate {len(self._done)} of {len(self._names)}: {name} proved, {self._clock()} so far")

    def _tell_kept(self) -> None:
        for line in self._kept:
            self._tell(line)
        self._kept.clear()

    def show(self) -> None:
        """The line that moves, if there is something to wait for."""
        if self._moving and (self.worked or time.monotonic() - self._begin >= PACE):
            self._out.write(f"\r{self._cut(f'{self._says}: {self._so_far()}')}\x1b[K")
            self._out.flush()

    def end(self) -> None:
        """After the last line: what the run came to, and what is left."""
        if self._moving:
            self._out.write("\r\x1b[K" + (f"{self._cut(f'{self._says}: {self._so_far(True)}')}\n" if self.worked else ""))
            self._out.flush()
        self._tell_kept()

    def covers(self, name: str) -> bool:
        """Whether a crate is one of those to be proved."""
        return name in self._names

    def _so_far(self, ended: bool = False) -> str:
        proved = sum(self._done.values())
        text = f"{proved} of {len(self._names)} crates proved"
        now = self._now()
        if now and not ended:
            text += f", now {' and '.join(now)}"
        elif self._edits:
            text += f", {self._refused} of {self._edits} must-fail edits refused"
        return f"{text}, {self._clock()}"

    def _now(self) -> list[str]:
        """What is being proved: of those whose libraries are proved the first,
        as many as ``rt`` proves at once."""
        left = [name for name in self._names if name not in self._done]
        return [name for name in left if not any(used in left for used in self._uses[name])][: self._jobs]

    def _clock(self) -> str:
        minutes, seconds = divmod(int(time.monotonic() - self._begin), 60)
        return f"{minutes}:{seconds:02}"

    def _note(self, text: str) -> None:
        if not self._moving:
            print(f"{self._says}: {text}", file=self._out, flush=True)

    def _tell(self, text: str) -> None:
        if self._troubles:
            print(f"\r\x1b[K{text}" if self._moving else text, file=self._out, flush=True)

    def _cut(self, text: str) -> str:
        try:
            width = os.get_terminal_size(self._out.fileno()).columns or WIDTH
        except OSError:
            width = WIDTH
        return text[: width - 1]


def _jobs() -> int:
    named = os.environ.get("RT_JOBS", "")
    if named.isascii() and named.isdigit() and int(named) > 0:
        return int(named)
    return len(os.sched_getaffinity(0))


def main(words: Sequence[str], repository: Path) -> int:
    """Shows what standard input, the lines of ``rt``, comes to; the first
    word is who says so, the others are what ``rt`` does and in which crate.
    ``./stick`` is told what was proved."""
    if len(words) != (2 if words[1:2] == ["ci"] else 3) or words[1] not in ("ci", "lib", "run", "check"):
        print("usage: rt .. | tools/progress NAME WORDS (ci, or lib, run or check and the CRATE where rt is)", file=sys.stderr)
        return 2
    try:
        before = stamp.sources(repository)
        progress = Progress(words[0], Crates(repository), words[1:], sys.stdout)
    except OSError:  # rt says what is wrong with the crates
        shutil.copyfileobj(sys.stdin, sys.stdout)
        return 0
    try:
        progress.follow(sys.stdin.fileno())
        progress.end()
    except KeyboardInterrupt:
        return 130
    except BrokenPipeError:  # nobody is left to see it
        os.dup2(os.open(os.devnull, os.O_WRONLY), sys.stdout.fileno())
        return 1
    if progress.well and progress.covers("play"):
        stamp.note(repository, before)
    return 0
