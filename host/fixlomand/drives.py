"""Diskettes in files, and in the drives of a running ``play``.

A file whose name ends in ``.atr`` is an ATR file. Any other is an IMAGE, the
92,160 bytes of a diskette as they lie (``.xfd``), or an ATR file by its bytes.
"""

from __future__ import annotations

import os
from collections.abc import Mapping
from dataclasses import dataclass

from . import atr, disk, files, script
from .errors import StickError
from .play import Player


@dataclass(frozen=True)
class Filed:
    """A file with a diskette: all its bytes, and the image among them."""

    data: bytes

    @property
    def is_atr(self) -> bool:
        """Whether there is a header before the image."""
        return len(self.data) != script.IMAGE

    @property
    def begin(self) -> int:
        """Where the image begins."""
        return atr.HEADER if self.is_atr else 0

    @property
    def image(self) -> bytes:
        """The diskette's bytes."""
        return self.data[self.begin : self.begin + script.IMAGE]

    def holding(self, image: bytes) -> bytes:
        """The bytes of such a file with another image; what is around it
        stays."""
        return self.data[: self.begin] + image + self.data[self.begin + script.IMAGE :]


def is_atr(file: str) -> bool:
    """Whether a file is an ATR file, by its name."""
    return file.lower().endswith(".atr")


def read(file: str) -> bytes:
    """Reads an image from a file of either kind."""
    return read_filed(file).image


def read_filed(file: str) -> Filed:
    """Reads a file of either kind, with all that is in it."""
    data = files.read(file)
    check = atr.parse if is_atr(file) else atr.image_of
    try:
        check(data)
    except atr.Refused as refused:
        raise StickError(f"{file}: {refused}") from None
    return Filed(data)


def write(file: str, image: bytes) -> None:
    """Writes an image, as an ATR file if that is its name."""
    files.write(file, atr.encode(image) if is_atr(file) else image)


def lend(player: Player, image: bytes, drive: int = 1) -> None:
    """Puts a diskette into a drive of a new ``play``, in which all are blank:
    the sectors that have something."""
    begin = (drive - 1) * script.IMAGE
    sectors = ((at, image[at : at + atr.SECTOR]) for at in range(0, script.IMAGE, atr.SECTOR))
    player.do(*(script.Write(script.Buffer.IMAGES, begin + at, data) for at, data in sectors if any(data)))


class Drives:
    """The diskettes of a running ``play``, each with the file that it is
    from. Nothing writes on them."""

    def __init__(self, chosen: Mapping[int, str]) -> None:
        """Reads the file of each drive that has one; the others are blank."""
        self._chosen = dict(sorted(chosen.items()))
        self._images = {drive: read(file) for drive, file in self._chosen.items()}

    def put_in(self, player: Player) -> None:
        """Gives the diskettes to a new ``play``."""
        for drive, image in self._images.items():
            lend(player, image, drive)

    def words(self) -> list[str]:
        """What is in each drive that has a diskette."""
        named = {drive: os.path.basename(file) for drive, file in self._chosen.items()}
        return [f"D{drive} {named[drive]}, {disk.summary(image)}" for drive, image in self._images.items()]
