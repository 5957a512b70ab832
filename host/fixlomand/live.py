"""The stick in a terminal: two pseudo-terminals for hosts, screen and keys."""

from __future__ import annotations

import curses
import locale
import os
import select
import signal
import sys
import time
import tty
from collections import deque
from collections.abc import Callable
from itertools import count
from pathlib import Path
from types import FrameType

from . import keys, picture, screen, script
from .deck import Deck
from .drives import Drives
from .errors import StickError
from .play import CONSOLE_HELD, Player
from .ports import Port
from .view import View

NAMES = ("laptop", "phone")
SPEED = 20_000
"""Ticks a second of each port, unless another number is asked for."""
PACE = 0.01
"""The longest rest between two looks at hosts and keys, in seconds."""
FRESH = 0.1
"""The shortest time between two drawings, in seconds."""
SLICE = 64
"""The most ticks of one port before the other has its turn."""
PIECE = 4096
NOTICE = 5.0
"""How long something is said at the foot of the window, in seconds."""
NO_KEY = 0xFF
QUIT = (3, curses.KEY_F10)
"""Control-C, F10."""

PRESSED = {
    curses.KEY_ENTER: keys.RETURN,
    curses.KEY_BACKSPACE: keys.BACKSPACE,
    curses.KEY_UP: keys.UP,
    curses.KEY_DOWN: keys.DOWN,
    curses.KEY_LEFT: keys.LEFT,
    curses.KEY_RIGHT: keys.RIGHT,
    curses.KEY_F1: keys.INVERSE,
    curses.KEY_F2: keys.UNLOCK,
    curses.KEY_F3: keys.SHIFT_LOCK,
    curses.KEY_F4: keys.CONTROL_LOCK,
    curses.KEY_F5: keys.END_OF_FILE,
    curses.KEY_F6: keys.CLEAR,
}
"""Keys of the terminal that are no characters; they are at the foot."""
SAVE_PAPER, SAVE_PICTURE = curses.KEY_F7, curses.KEY_F8


class Plug:
    """A pseudo-terminal at a port. The host opens ``path``."""

    def __init__(self, port: Port) -> None:
        self.port = port
        self.master, self._slave = os.openpty()
        # The host's end stays open here, so that hosts may come and go.
        tty.setraw(self._slave)
        os.set_blocking(self.master, False)
        self.path = os.ttyname(self._slave)

    def move(self) -> bool:
        """Moves bytes between host and port; false if there are none."""
        moved = False
        if len(self.port.inbox) < PIECE:
            try:
                data = os.read(self.master, PIECE)
                self.port.inbox += data
                moved = bool(data)
            except BlockingIOError:
                pass
        if self.port.outbox:
            try:
                del self.port.outbox[: os.write(self.master, self.port.outbox)]
                moved = True
            except BlockingIOError:
                pass
        return moved

    def close(self) -> None:
        """Takes the pseudo-terminal away."""
        os.close(self.master)
        os.close(self._slave)


class Live:
    """What goes on between the terminal, the two plugs, the stick, its tape
    and its diskettes."""

    def __init__(self, player: Player, speed: int, deck: Deck, drives: Drives) -> None:
        self._player = player
        self._speed = speed
        self._deck = deck
        self._diskettes = drives.words()
        self.plugs = [Plug(Port(player, number)) for number in (0, 1)]
        self._typed: deque[int] = deque()
        """Keys that are not pressed yet, the oldest first."""
        self._stored = False
        """Whether a key was pressed, and not seen to be read since."""
        self._looked = 0
        """How many requests were done when that was looked at."""
        self._notice, self._noticed = "", 0.0
        self.saved: list[str] = []
        """The files that were written."""
        self._stopped = False

    def run(self, window: curses.window) -> None:
        """Until somebody quits."""
        window.nodelay(True)
        view = View(window, [plug.path for plug in self.plugs], self._diskettes)
        ports = [plug.port for plug in self.plugs]
        last = time.monotonic()
        drawn, cost, changed = 0.0, 0.0, True
        while not self._stopped:
            now = time.monotonic()
            moved = self._ticks(int(min(now - last, FRESH) * self._speed))
            if moved is not None:
                last = now
                changed |= moved
            changed |= self._keys(window) | self._press()
            if self._notice and now - self._noticed > NOTICE:
                self._notice, changed = "", True
            # A dump may be slow; most of the time is for the hosts.
            if changed and now - drawn >= max(FRESH, 3 * cost):
                view.draw(self._player.state(), self._player.tape(), ports, len(self._typed), self._notice)
                drawn, changed = now, any(port.under_way for port in ports)
                cost = time.monotonic() - now
            self._rest(changed)

    def stop(self) -> None:
        """Ends ``run``."""
        self._stopped = True

    def take_out(self) -> None:
        """Writes the tape's file, if that is due."""
        try:
            self._deck.take_out(self._player)
        except StickError:
            pass  # play has ended, which is told already, and its tape with it

    def close(self) -> None:
        """Takes the plugs away."""
        for plug in self.plugs:
            plug.close()

    def _ticks(self, ticks: int) -> bool | None:
        """Both ports in turn, so many ticks each; none if it is too early."""
        if ticks == 0:
            return None
        moved = False
        end = time.monotonic() + FRESH / 2  # a slow play must not hold up the keys
        for done in range(0, ticks, SLICE):
            busy = [self._step(plug, min(SLICE, ticks - done)) for plug in self.plugs]
            moved |= any(busy)
            if not any(busy) or time.monotonic() > end:
                break
        return moved

    def _step(self, plug: Plug, ticks: int) -> bool:
        """Moves bytes and ticks the port; false if there was nothing to do. A
        tape that was written is kept at once, before anything else can open
        it again."""
        before = plug.port.closes
        moved = plug.move() | plug.port.step(ticks)
        if plug.port.closes != before and self._deck.keep(self._player):
            self._say(self._deck.fault or f"the tape is saved in {self._deck.file}")
        return moved

    def _keys(self, window: curses.window) -> bool:
        """Does what was typed, or keeps it to be pressed."""
        changed = False
        while (key := window.getch()) != curses.ERR:
            code = PRESSED.get(key, keys.code_of(key))
            if key in QUIT:
                self.stop()
            elif key == SAVE_PAPER:
                self._save_paper()
            elif key == SAVE_PICTURE:
                self._save("picture", ".png", picture.png(self._player.state()))
            elif code is not None:
                self._typed.append(code)
            changed = True
        return changed

    def _press(self) -> bool:
        """Presses the keys that wait, each when the one before it was read:
        the stick keeps one. A refused key is pressed again later."""
        changed = False
        while self._typed and self._is_free():
            if self._player.do(script.Press(self._typed[0]))[0][0] == CONSOLE_HELD:
                break
            self._typed.popleft()
            self._stored, self._looked, changed = True, self._requests(), True
        return changed

    def _is_free(self) -> bool:
        """Whether no key would be lost. Only a request reads a key: there is
        nothing to look for until one is done."""
        if self._stored and self._looked != self._requests():
            self._looked = self._requests()
            self._stored = self._player.state().key != NO_KEY
        return not self._stored

    def _requests(self) -> int:
        return sum(plug.port.requests for plug in self.plugs)

    def _save_paper(self) -> None:
        lines = screen.paper_lines(self._player.state())
        if lines:
            self._save("paper", ".txt", "".join(f"{line}\n" for line in lines).encode())
        else:
            self._say("the paper is empty: nothing is saved")

    def _save(self, name: str, suffix: str, data: bytes) -> None:
        """Writes a new file in the folder where the command was started."""
        begun = False
        try:
            for number in count(1):
                path = Path.cwd() / f"{name}-{number}{suffix}"
                if not path.exists():
                    break
            with path.open("xb") as file:
                begun = True
                file.write(data)
        except OSError as error:
            if begun:
                path.unlink(missing_ok=True)
            self._say(f"the {name} is not saved: {error.strerror}")
        else:
            self.saved.append(str(path))
            self._say(f"{path.name} is saved in {path.parent}")

    def _say(self, notice: str) -> None:
        self._notice, self._noticed = notice, time.monotonic()

    def _rest(self, changed: bool) -> None:
        """Until a host or a key comes, but not long. A terminal that has
        gone ends the run."""
        under_way = any(plug.port.under_way or plug.port.outbox for plug in self.plugs)
        poll = select.poll()
        poll.register(sys.stdin, select.POLLIN)
        for plug in self.plugs:
            if not plug.port.inbox:
                poll.register(plug.master, select.POLLIN)
        rest = PACE / 10 if under_way else PACE if changed else 10 * PACE
        for file, events in poll.poll(1000 * rest):
            if file == sys.stdin.fileno() and events & (select.POLLHUP | select.POLLERR):
                self.stop()


def run(player: Player, speed: int, deck: Deck, drives: Drives, say: Callable[[str], None]) -> list[str]:
    """Runs the stick in this terminal until somebody quits; the files that
    were saved meanwhile, beside the tape's."""
    live = Live(player, speed, deck, drives)

    def stop(number: int, frame: FrameType | None) -> None:
        live.stop()

    before = {number: signal.signal(number, stop) for number in (signal.SIGINT, signal.SIGTERM, signal.SIGHUP)}
    try:
        for name, plug in zip(NAMES, live.plugs):
            say(f"{name}: {plug.path}")
        locale.setlocale(locale.LC_ALL, "")
        os.environ.setdefault("ESCDELAY", "25")
        curses.wrapper(_in_window, live)
    finally:
        live.take_out()  # while a signal that ends the program does not
        live.close()
        for number, handler in before.items():
            signal.signal(number, handler)
    return live.saved


def _in_window(window: curses.window, live: Live) -> None:
    curses.raw()
    curses.nonl()
    live.run(window)
