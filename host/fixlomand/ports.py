"""A port of a running ``play`` between a host's bytes and the calls.

Who drives the port says how often it is ticked, so that two ports share the
stick as they would on the board.
"""

from __future__ import annotations

from . import script
from .errors import StickError
from .play import GROUP_HELD, Player
from .wire import closes
from .wire import name as name


class Port:
    """One port. It offers a byte only while the stick gathers, so that bytes
    which come early wait here and none is refused."""

    def __init__(self, player: Player, number: int) -> None:
        self._player = player
        self.number = number
        self.inbox = bytearray()
        """Bytes of the host that are not taken yet."""
        self.outbox = bytearray()
        """Reply bytes that the host has not read yet."""
        self.message = bytearray()
        """What was taken of the message that is gathered or under way."""
        self.requests = 0
        """Replies given."""
        self.closes = 0
        """Replies given to CALLs that may have closed a block."""
        self.refused = 0
        """Ticks answered 8: the other port holds the group."""
        self.waits = False
        """Whether the last tick was answered 8."""

    @property
    def under_way(self) -> bool:
        """Whether the message is whole and its reply not given."""
        return self._missing() == 0

    def step(self, ticks: int) -> bool:
        """Takes what there is of one message, ticks at most so often and
        gives the reply if there is one. False if there was nothing to do."""
        if not self.under_way and not self._take():
            return False
        if self.under_way and ticks > 0:
            self._tick(ticks)
        return True

    def _missing(self) -> int:
        """How many bytes the message lacks for certain."""
        have = len(self.message)
        return 3 - have if have < 3 else 3 + int.from_bytes(self.message[1:3], "little") - have

    def _take(self) -> bool:
        """Offers bytes up to the end of the message."""
        if not self.inbox or self.outbox:
            return False
        while self.inbox and self._missing():
            piece = bytes(self.inbox[: self._missing()])
            for (answer,) in self._player.do(*(script.Take(self.number, byte) for byte in piece)):
                _expect(answer, 0)
            self.message += piece
            del self.inbox[: len(piece)]
        return True

    def _tick(self, ticks: int) -> None:
        # Every reply has a header of three bytes, so one answer tells of all.
        give = script.Give(self.number)
        ticked, *header = self._player.do(script.Ticks(self.number, ticks), give, give, give)
        _expect(ticked[2], 0, GROUP_HELD)
        self.waits = ticked[2] == GROUP_HELD
        self.refused += self.waits
        if header[0][0] == 0:
            reply = bytes(byte for _, byte in header)
            length = int.from_bytes(reply[1:], "little")
            self.outbox += reply + bytes(byte for _, byte in self._player.do(*[give] * length))
            self.closes += closes(self.message)
            self.message.clear()
            self.requests += 1


def _expect(answer: int, *expected: int) -> None:
    if answer not in expected:
        raise StickError(f"play answered {script.answer_text(answer)}")


def describe(port: Port, state: script.State) -> str:
    """What a port does and which group it holds, from a dump made since."""
    phase = script.PHASES[state.phases[port.number]]
    if not port.under_way:
        return f"{phase} ({len(port.message)} bytes)" if port.message else phase
    if port.waits:
        return f"{name(port.message)}: waits (answer 8)"
    if phase != "running":
        return f"{name(port.message)}: {phase}"
    device = state.blocks[port.number][port.message[3]].device
    return f"{name(port.message)}: holds the {group(device)}"


def group(device: str) -> str:
    """The group of a device."""
    return {"P": "printer", "C": "tape", "D": "disk"}.get(device, "console")
