"""A running ``play``: calls made one by one, its ports as byte streams."""

from __future__ import annotations

import errno
import subprocess
from collections.abc import Callable, Sequence
from types import TracebackType

from . import script
from .errors import StickError

CONSOLE_HELD = 6
GROUP_HELD = 8

Listener = Callable[[Sequence[script.Op], Sequence[bytes]], None]


class Player:
    """The program ``play``, started with a command and its words."""

    def __init__(self, command: Sequence[str]) -> None:
        # In a session of its own: the keys and the end of a terminal are for
        # its user here, and play ends when its input does.
        try:
            self._process = subprocess.Popen(
                command, stdin=subprocess.PIPE, stdout=subprocess.PIPE, start_new_session=True
            )
        except OSError as error:
            hint = "; it is for x86-64: 'tools/run play' runs it on another processor" if error.errno == errno.ENOEXEC else ""
            raise StickError(f"{command[0]} cannot be run: {error.strerror}{hint}") from error
        assert self._process.stdin is not None and self._process.stdout is not None
        self._input, self._output = self._process.stdin, self._process.stdout
        self.listener: Listener | None = None
        """Is told the ops that were played and what was written for each."""

    def do(self, *ops: script.Op) -> list[bytes]:
        """Plays ops; what was written for each."""
        outputs: list[bytes] = []
        # In pieces that a pipe holds: play writes while it reads.
        for at in range(0, len(ops), 500):
            piece = ops[at : at + 500]
            try:
                self._input.write(script.to_bytes(piece))
                self._input.flush()
            except OSError as error:
                raise StickError("play has ended") from error
            outputs += [self._written(op) for op in piece]
        if any(len(output) < script.written(op, output) for op, output in zip(ops, outputs)):
            raise StickError("play has ended")
        if self.listener is not None:
            self.listener(ops, outputs)
        return outputs

    def _written(self, op: script.Op) -> bytes:
        begin = self._output.read(op.output)
        return begin + self._output.read(script.written(op, begin) - len(begin))

    def state(self) -> script.State:
        """What a dump tells."""
        return script.read_dump(self.do(script.Dump())[0])

    def tape(self) -> script.Tape:
        """What a dump of the tape tells."""
        return script.read_tape(self.do(script.DumpTape())[0])

    def doctor(self, drive: int = 1) -> list[script.Change]:
        """Repairs the diskette in a drive; what the doctor changed."""
        output = self.do(script.Doctor(drive - 1))[0]
        try:
            return script.read_changes(output)
        except ValueError as error:
            raise StickError(f"play's doctor gave {error}") from None

    def close(self) -> None:
        """Ends the program."""
        try:
            self._input.close()
        except OSError:
            pass
        self._output.close()
        self._process.wait()

    def __enter__(self) -> Player:
        return self

    def __exit__(
        self, kind: type[BaseException] | None, error: BaseException | None, trace: TracebackType | None
    ) -> None:
        self.close()


class PlayPort:
    """A port of ``play`` as a byte stream. Reading ticks the port; while its
    group is held, the other port is ticked instead."""

    def __init__(self, player: Player, port: int) -> None:
        self._player = player
        self._port = port

    def write(self, data: bytes) -> int:
        """Offers the bytes. Bytes before the last reply was read are refused."""
        for output in self._player.do(*(script.Take(self._port, byte) for byte in data)):
            if output[0] != 0:
                raise StickError(script.answer_text(output[0]))
        return len(data)

    def read(self, size: int) -> bytes:
        """Up to ``size`` bytes of the reply; none if nothing is under way."""
        while True:
            # All at once: those behind the reply's last byte are refused and change nothing.
            given = self._player.do(*[script.Give(self._port)] * size)
            data = bytes(byte for answer, byte in given if answer == 0)
            if data or not self._tick():
                return data

    def _tick(self) -> bool:
        """Moves on what is under way; false if nothing is."""
        answer = self._player.do(script.Ticks(self._port, 0xFFFF))[0][2]
        if answer == GROUP_HELD:
            answer = self._player.do(script.Ticks(1 - self._port, 0xFFFF))[0][2]
        return answer == 0
