"""Two hosts at one stick, each an ordinary program, in a fixed order.

A host runs until it waits for the stick; then the other runs; then both
ports are ticked once, and the clock with them. So a run is always the same.
"""

from __future__ import annotations

import threading
from collections.abc import Callable, Iterator
from contextlib import contextmanager
from dataclasses import dataclass

from . import script
from .cio import Stick
from .play import Player
from .ports import Port

CONSOLE_HELD = 6


@dataclass
class Step:
    """A part of a host's conversation, with what it cost."""

    text: str
    begin: int
    end: int = 0
    requests: int = 0
    refused: int = 0
    """Ticks answered 8."""


class Clock:
    """How often both ports were ticked."""

    def __init__(self) -> None:
        self.ticks = 1


class Host:
    """A program at a port. It is the byte stream of its own stick."""

    def __init__(self, player: Player, number: int, clock: Clock, program: Callable[[Host], None]) -> None:
        self.port = Port(player, number)
        self.stick = Stick(self, in_step=True)
        self.steps: list[Step] = []
        self.finished = False
        self._player = player
        self._clock = clock
        self._program = program
        self._error: BaseException | None = None
        self._go, self._back = threading.Semaphore(0), threading.Semaphore(0)
        threading.Thread(target=self._run, daemon=True).start()

    # for the program

    def read(self, size: int) -> bytes:
        """Waits for reply bytes."""
        while not self.port.outbox:
            self._pause()
        data = bytes(self.port.outbox[:size])
        del self.port.outbox[:size]
        return data

    def write(self, data: bytes) -> int:
        """Sends bytes."""
        self.port.inbox += data
        return len(data)

    def press(self, code: int) -> None:
        """Somebody presses a key, again and again while it is refused."""
        while self._player.do(script.Press(code))[0][0] == CONSOLE_HELD:
            self._pause()

    @contextmanager
    def step(self, text: str) -> Iterator[None]:
        """Notes what is done inside as a step."""
        step = Step(text, self._clock.ticks, requests=-self.port.requests, refused=-self.port.refused)
        self.steps.append(step)
        yield
        step.end = self._clock.ticks
        step.requests += self.port.requests
        step.refused += self.port.refused

    # for the run

    def turn(self) -> None:
        """Lets the program run until it waits or ends."""
        if not self.finished:
            self._go.release()
            self._back.acquire()
        if self._error is not None:
            raise self._error

    def _pause(self) -> None:
        self._back.release()
        self._go.acquire()

    def _run(self) -> None:
        self._go.acquire()
        try:
            self._program(self)
        except BaseException as error:  # raised again where the run is
            self._error = error
        finally:
            self.finished = True
            self._back.release()


def run(player: Player, *programs: Callable[[Host], None]) -> list[Host]:
    """Runs a program at each port, from a fresh start to both ends."""
    player.do(script.Fresh())
    clock = Clock()
    hosts = [Host(player, number, clock, program) for number, program in enumerate(programs)]
    while not all(host.finished for host in hosts):
        for host in hosts:
            host.turn()
        for host in hosts:
            host.port.step(1)
        clock.ticks += 1
    return hosts
