"""The ATR format of diskette images, and images as they lie.

An ATR file is a header of 16 bytes and then the sectors: 96 02; how many
paragraphs of 16 bytes the sectors are, its low bytes at 2 and 3 and its high
byte at 6; the bytes of a sector at 4. The rest of the header, flags and a
checksum of some programs, is not looked at. A file of the sectors alone
(``.xfd``) is an image as it lies.
"""

from __future__ import annotations

from .errors import StickError
from .script import IMAGE
from .text import counted

HEADER = 16
MAGIC = b"\x96\x02"
PARAGRAPH = 16
SECTOR = 128
SECTORS = IMAGE // SECTOR
WANTED = f"a diskette here has {SECTORS} of {SECTOR}"
ENHANCED = 1_040
"""The sectors of enhanced density."""
DOUBLE = 256
"""The bytes of a sector in double density."""
BARE = {
    ENHANCED * SECTOR: f"{ENHANCED} sectors of {SECTOR} bytes (enhanced density)",
    SECTORS * DOUBLE: f"{SECTORS} sectors of {DOUBLE} bytes (double density)",
    3 * SECTOR + (SECTORS - 3) * DOUBLE: f"{SECTORS} sectors of {DOUBLE} bytes (double density)",
}
"""Other diskettes as they lie, by their length; of double density the first
three sectors may be short."""


class Refused(StickError):
    """A file that is no image of such a diskette."""


def parse(data: bytes) -> bytes:
    """The image in an ATR file."""
    if not data:
        raise Refused("no ATR file: it is empty")
    if data[: len(MAGIC)] != MAGIC[: len(data)]:
        raise Refused(f"no ATR file: it begins with {_shown(data[:2])}, and an ATR file with {_shown(MAGIC)}")
    if len(data) < HEADER:
        raise Refused(f"cut short: {len(data)} of the header's {HEADER} bytes are there")
    size = int.from_bytes(data[4:6], "little")
    length = PARAGRAPH * (int.from_bytes(data[2:4], "little") + (data[6] << 16))
    if size != SECTOR:
        density = " (double density)" if size == DOUBLE else ""
        raise Refused(f"sectors of {size} bytes{density}, and {WANTED}")
    if length % SECTOR:
        raise Refused(f"{length} bytes, which are no whole sectors, and {WANTED}")
    if length != IMAGE:
        density = " (enhanced density)" if length == ENHANCED * SECTOR else ""
        raise Refused(f"{length // SECTOR} sectors{density}, and {WANTED}")
    there = len(data) - HEADER
    if there < IMAGE:
        raise Refused(f"cut short: {there} of {IMAGE} bytes are there behind the header")
    if there > IMAGE:
        raise Refused(f"{counted(there - IMAGE, 'byte')} too many: behind the header are {there}, not {IMAGE}")
    return data[HEADER:]


def bare(data: bytes) -> bytes:
    """An image as it lies."""
    if len(data) == IMAGE:
        return data
    if len(data) in BARE:
        raise Refused(f"{BARE[len(data)]}, and {WANTED}")
    raise Refused(f"an IMAGE has {IMAGE} bytes, and this file {len(data)}")


def image_of(data: bytes) -> bytes:
    """The image in a file of either kind, by its bytes."""
    return parse(data) if len(data) != IMAGE and data[: len(MAGIC)] == MAGIC else bare(data)


def encode(image: bytes) -> bytes:
    """An ATR file of an image."""
    paragraphs = len(image) // PARAGRAPH
    numbers = paragraphs.to_bytes(3, "little")
    return MAGIC + numbers[:2] + SECTOR.to_bytes(2, "little") + numbers[2:] + bytes(HEADER - 7) + image


def _shown(data: bytes) -> str:
    return data.hex(" ").upper()
