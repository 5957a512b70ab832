"""A stand-in for one port of a stick: as much as the tests need.

Its printer takes 276 bytes, its editor gives back what is put, its keyboard
has one key pressed, an A, and its tape gives what a test has put on it, the
last of it with $03. So does each file of its one diskette, and its directory;
names are not matched.
"""

from __future__ import annotations

from fixlomand.wire import AREA, EOL

PAPER = 276


class StandIn:
    """A byte stream that answers requests, ``pace`` bytes at a time."""

    def __init__(self, pace: int = 1000) -> None:
        self.pace = pace
        self.area = bytearray(AREA)
        self.blocks: dict[int, tuple[str, int]] = {}
        self.paper = bytearray()
        self.text = bytearray()
        self.keys = bytearray(b"A")
        self.tape = bytearray()
        self.files: dict[str, tuple[bytes, int]] = {}
        """Of each file its characters, and the status behind them."""
        self.locked: set[str] = set()
        self.listing = b""
        self._reads: dict[int, tuple[bytearray, int]] = {}
        """What a block that has D open has still to give."""
        self.requests: list[bytes] = []
        self._taken = bytearray()
        self._replies = bytearray()

    def write(self, data: bytes) -> int:
        data = data[: self.pace]
        self._taken += data
        while len(self._taken) >= 3 and len(self._taken) >= 3 + int.from_bytes(self._taken[1:3], "little"):
            message = bytes(self._taken[: 3 + int.from_bytes(self._taken[1:3], "little")])
            del self._taken[: len(message)]
            self.requests.append(message)
            tag, value = self._answer(message[0], message[3:])
            self._replies += bytes([tag]) + len(value).to_bytes(2, "little") + value
        return len(data)

    def read(self, size: int) -> bytes:
        data = bytes(self._replies[: min(size, self.pace)])
        del self._replies[: len(data)]
        return data

    def _answer(self, tag: int, value: bytes) -> tuple[int, bytes]:
        word = int.from_bytes(value[0:2], "little")
        if len(value) not in {0x10: (9,), 0x11: range(3, 259), 0x12: (4,)}.get(tag, (len(value),)):
            return 0xFF, b"\x84"
        if tag == 0x11:
            if word + len(value) - 2 > AREA:
                return 0x91, b"\xB0"
            self.area[word : word + len(value) - 2] = value[2:]
            return 0x91, b"\x01"
        if tag == 0x12:
            count = int.from_bytes(value[2:4], "little")
            return 0x92, b"\x01" + bytes(self.area[word : word + count])
        if tag == 0x10:
            status, count, a = self._call(value)
            return 0x90, bytes([status]) + count.to_bytes(2, "little") + bytes([a])
        return 0xFF, b"\x92"

    def _call(self, value: bytes) -> tuple[int, int, int]:
        iocb, command, aux1, a = value[0], value[1], value[6], value[8]
        if iocb > 7:
            return 0x86, 0, a
        address, n = int.from_bytes(value[2:4], "little"), int.from_bytes(value[4:6], "little")
        if command == 0x0C:
            self.blocks.pop(iocb, None)
            return 1, 0, a
        if command in (0x03, 0x0D) and not (command == 0x0D and iocb in self.blocks):
            if iocb in self.blocks:
                return 0x81, 0, a
            device = chr(self.area[address])
            if device not in "EKPCD" or b":" not in self.area[address + 1 : address + 3]:
                return 0x82, 0, a
            status = self._find(iocb, address, aux1, command == 0x0D) if device == "D" else 1
            if command == 0x03 and status == 1:
                self.blocks[iocb] = (device, aux1)
            return status, 0, a
        if iocb not in self.blocks:
            return 0x85, 0, a
        if command == 0x0D:
            return 1, 0, a
        if command in (0x09, 0x0B):
            return self._put(iocb, command, address, n, a)
        return self._get(iocb, command, address, n, a)

    def _find(self, iocb: int, address: int, aux1: int, asked: bool) -> int:
        """The status of an OPEN of D, or of GET STATUS."""
        name = self.area[address:].split(bytes([EOL]))[0].split(b":")[1].decode()
        if aux1 & 8:
            return 0x84
        if name != name.upper():
            return 0xA5
        if aux1 == 6:
            self._reads[iocb] = (bytearray(self.listing), 0x88)
            return 1
        if name not in self.files:
            return 0xAA
        data, end = self.files[name]
        self._reads[iocb] = (bytearray(data), end)
        return 0xA7 if asked and name in self.locked else 1

    def _put(self, iocb: int, command: int, address: int, n: int, a: int) -> tuple[int, int, int]:
        data = bytes(self.area[address : address + n]) if n else bytes([a])
        if command == 0x09 and n and EOL in data:
            data = data[: data.index(EOL) + 1]
        count = len(data) if n else 0
        if command == 0x09 and n and not data.endswith(bytes([EOL])):
            data += bytes([EOL])
        if self.blocks[iocb][0] == "P":
            room = PAPER - len(self.paper)
            self.paper += data[:room]
            return (1, count, a) if len(data) <= room else (0x90, min(room, count), a)
        self.text += data
        return 1, count, a

    def _get(self, iocb: int, command: int, address: int, n: int, a: int) -> tuple[int, int, int]:
        device, aux1 = self.blocks[iocb]
        if not aux1 & 4:
            return 0x83, 0, a
        source, end = {"K": self.keys, "C": self.tape}.get(device, self.text), 0x88
        if device == "D":
            source, end = self._reads[iocb]
        warns = device in "CD" and end == 0x88
        if n == 0:
            if not source:
                return end, 0, a
            a = source.pop(0)
            return 3 if warns and not source else 1, 0, a
        count = 0
        while count < n:
            if not source:
                return end, count, a
            self.area[address + count] = source.pop(0)
            count += 1
            if command == 0x05 and self.area[address + count - 1] == EOL:
                break
        else:
            if command == 0x05:
                while source:
                    if source.pop(0) == EOL:
                        return 0x89, count, a
                return end, count, a
        return 3 if warns and not source else 1, count, a
