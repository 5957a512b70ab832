"""What a running ``play`` did, as a call script with words.

A line that begins with ``#`` has the seconds since the beginning, the port and
what was asked or replied; under it are the calls, so that ``./stick play``
plays it again. Calls that were refused changed nothing and are left out.
"""

from __future__ import annotations

import time
from collections.abc import Callable, Sequence
from datetime import datetime
from typing import TextIO

from . import errors, keys, ports, script, tape, wire
from .play import CONSOLE_HELD, GROUP_HELD

NO_REPLY = 5
SHOWN = 32
"""The most bytes of a message that are put into words."""
RIGHTS = ((wire.READ, "R"), (wire.WRITE, "W"), (wire.FORCED, "forced"), (wire.KEEP, "keep"))
OPENING = (wire.Command.OPEN, wire.Command.GET_STATUS)
GETTING = (wire.Command.GET_RECORD, wire.Command.GET_CHARACTERS)
TRANSFERS = (*GETTING, wire.Command.PUT_RECORD, wire.Command.PUT_CHARACTERS)
BELOW_80 = {wire.SUCCESS: "success", wire.LAST_CHARACTER: "last character"}
"""The statuses that are no refusal."""


class Log:
    """Listens to a player, and writes lines as they become whole."""

    def __init__(self, file: TextIO, clock: Callable[[], float] = time.monotonic) -> None:
        self._file = file
        self._clock = clock
        self._begin = clock()
        self._ops: list[script.Op] = []
        """Calls of one kind and port that are not written yet."""
        self._messages = (bytearray(), bytearray())
        self._replies = (bytearray(), bytearray())
        self._waits = [False, False]
        self._tape = b""
        """What the last dump of the tape wrote."""
        self.fault = ""
        """Why nothing more is written, if so."""
        self._write(f"# ./stick live, {datetime.now():%Y-%m-%d %H:%M:%S}: seconds, port, what it did\nfresh\n")

    def __call__(self, ops: Sequence[script.Op], outputs: Sequence[bytes]) -> None:
        """Notes what was played and what was written for it."""
        for op, output in zip(ops, outputs):
            if isinstance(op, script.Take) and output[0] == 0:
                self._take(op)
            elif isinstance(op, script.Ticks) and output[2] in (0, GROUP_HELD):
                self._tick(op.port, int.from_bytes(output[:2], "little"), output[2] == GROUP_HELD)
            elif isinstance(op, script.Give) and output[0] in (0, NO_REPLY):
                if output[0] == 0:
                    self._give(op, output[1])
            elif isinstance(op, script.Press) and output[0] in (0, CONSOLE_HELD):
                if output[0] == 0:
                    self._put(op)
                    self._flush(f"key {key_words(op.code)}")
            elif isinstance(op, script.Write):
                self._put(op)
            elif isinstance(op, script.DumpTape):
                self._tape = output
            elif not isinstance(op, script.Dump):
                self._put(op)
                self._flush(f"answered {script.describe(op, output)}")

    def note(self, words: str) -> None:
        """Writes a line of words between the calls."""
        self._flush(words)

    def close(self) -> None:
        """Writes what is left, and dumps of all."""
        self._flush()
        for port, message in enumerate(self._messages):
            if message and _missing(message):
                self._note(f"port {port}: {len(message)} bytes of a message that did not come whole")
        if self._tape:
            self._note(f"tape, {tape.words(script.read_tape(self._tape))}")
        self._note("unplugged")
        self._write("dump\ndump tape\n")
        try:
            self._file.close()
        except OSError as error:
            self.fault = self.fault or error.strerror or str(error)

    def _take(self, op: script.Take) -> None:
        self._put(op)
        message = self._messages[op.port]
        message.append(op.byte)
        if not _missing(message):
            self._flush(f"port {op.port}: {message_words(bytes(message))}")

    def _tick(self, port: int, ticks: int, held: bool) -> None:
        if held and not self._waits[port]:
            self._flush()
            self._note(f"port {port}: {ports.name(self._messages[port])} waits for the other port")
        self._waits[port] = held
        if not held:
            self._put(script.Ticks(port, ticks))

    def _give(self, op: script.Give, byte: int) -> None:
        self._put(op)
        reply = self._replies[op.port]
        reply.append(byte)
        if not _missing(reply):
            message = bytes(self._messages[op.port])
            self._flush(f"port {op.port}: {ports.name(message)} replied {reply_words(message, bytes(reply))}")
            reply.clear()
            self._messages[op.port].clear()

    def _put(self, op: script.Op) -> None:
        """Notes a call; those of another kind or port are written first."""
        last = self._ops[-1] if self._ops else op
        if type(last) is not type(op) or getattr(last, "port", None) != getattr(op, "port", None):
            self._flush()
        if isinstance(op, script.Ticks):
            before = self._ops[-1] if self._ops else None
            if isinstance(before, script.Ticks) and before.count + op.count <= 0xFFFF:
                self._ops[-1] = script.Ticks(op.port, before.count + op.count)
                return
        self._ops.append(op)

    def _flush(self, words: str = "") -> None:
        """Writes the calls that are noted, under what they come to."""
        if words:
            self._note(words)
        self._write(script.to_text([_plain(op) for op in self._ops]))
        self._ops.clear()

    def _note(self, words: str) -> None:
        self._write(f"# {self._clock() - self._begin:.3f} {words}\n")

    def _write(self, text: str) -> None:
        if not self.fault:
            try:
                self._file.write(text)
                self._file.flush()
            except OSError as error:
                self.fault = error.strerror or str(error)


def _plain(op: script.Op) -> script.Op:
    return script.Tick(op.port) if isinstance(op, script.Ticks) and op.count == 1 else op


def _missing(field: bytes | bytearray) -> bool:
    return len(field) < 3 or len(field) < 3 + int.from_bytes(field[1:3], "little")


# words


def message_words(message: bytes) -> str:
    """What a whole message asks for."""
    tag, value = message[0], message[3:]
    name = ports.name(message)
    if tag == wire.Tag.LOAD and 3 <= len(value) <= 2 + wire.PIECE:
        return f"LOAD {_bytes(len(value) - 2)} at {_word(value, 0)}: {data_words(value[2:])}"
    if tag == wire.Tag.FETCH and len(value) == 4:
        return f"FETCH {_bytes(_word(value, 2))} at {_word(value, 0)}"
    if tag == wire.Tag.CALL and len(value) == 9:
        return f"{name} block {value[0]}{_call_words(value)}"
    return f"{name} of {_bytes(len(value))}" + (", a wrong length" if tag in list(wire.Tag) else ", an unknown tag")


def _call_words(value: bytes) -> str:
    command, address, length = value[1], _word(value, 2), _word(value, 4)
    if command in OPENING or command > max(wire.Command):
        rights = "".join(f" {name}" for bit, name in RIGHTS if value[6] & bit)
        if value[6] == wire.DIRECTORY:
            rights += ", of D the directory"
        return f", specification at {address}, AUX1 ${value[6]:02X}{rights and f' ({rights[1:]})'}, AUX2 {value[7]}"
    if command not in TRANSFERS:
        return ""
    if length:
        return f", {_bytes(length)} at {address}"
    return ", one by A" if command in GETTING else f", A {data_words(value[8:])}"


def reply_words(message: bytes, reply: bytes) -> str:
    """What a reply to a message says."""
    value = reply[3:]
    words = status_words(value[0])
    if reply[0] == wire.REPLY + wire.Tag.FETCH and len(value) > 1:
        return f"{words}: {data_words(value[1:])}"
    if reply[0] == wire.REPLY + wire.Tag.CALL and message[4] in TRANSFERS:
        if _word(message, 7):
            return f"{words}, count {_word(value, 1)}"
        if message[4] in GETTING and value[0] < 0x80:
            return f"{words}, A {data_words(value[3:])}"
    return words


def status_words(status: int) -> str:
    """A status by its number and its name."""
    if status in BELOW_80:
        return f"${status:02X} {BELOW_80[status]}"
    error = errors.BY_STATUS.get(status, errors.StatusError)
    return f"${status:02X} {error.__name__}, {error.meaning}"


def key_words(code: int) -> str:
    """A key by its code and what it types when no lock is on."""
    entry = keys.TABLE[code] if code < len(keys.TABLE) else 0x80
    return f"${code:02X}: {keys.ACTIONS.get(entry) or data_words(bytes([entry]))}"


def data_words(data: bytes) -> str:
    """Bytes: what is ASCII in quotes, EOL by its name, the rest as numbers."""
    words: list[str] = []
    text = ""
    for byte in data[:SHOWN]:
        if 0x20 <= byte < 0x7F and byte != ord('"'):
            text += chr(byte)
            continue
        words += [f'"{text}"'] if text else []
        words.append("EOL" if byte == wire.EOL else f"${byte:02X}")
        text = ""
    words += [f'"{text}"'] if text else []
    return " ".join(words) + (" ..." if len(data) > SHOWN else "")


def _bytes(count: int) -> str:
    return "1 byte" if count == 1 else f"{count} bytes"


def _word(value: bytes, place: int) -> int:
    return int.from_bytes(value[place : place + 2], "little")
