"""Whether ``play`` is proved and built of the sources as they are: a number of
both, noted when ``rt`` has proved them, so that it need not be asked again."""

from __future__ import annotations

import hashlib
import shutil
from pathlib import Path

from .crates import Crates

PROGRAM = Path("crates", "play", "out", "play")
STAMP = Path("target", "stick.stamp")


def sources(repository: Path) -> str:
    """A number of all that ``play`` is proved and made of."""
    return Crates(repository).digest("play", [identity()])


def note(repository: Path, proved: str) -> None:
    """Notes that the program, if there is one, is proved and built of such sources."""
    if (repository / PROGRAM).exists():
        (repository / STAMP).parent.mkdir(exist_ok=True)
        (repository / STAMP).write_text(_stamp(repository, proved))


def is_proved(repository: Path) -> bool:
    """Whether what is there now was noted."""
    try:
        return (repository / STAMP).read_text() == _stamp(repository, sources(repository))
    except OSError:
        return False


def identity() -> bytes:
    """Which toolchain it is."""
    rt = shutil.which("rt")
    try:
        return (Path(rt).resolve().parents[1] / "KIT-ID").read_bytes() if rt else b""
    except OSError:
        return b""


def digest_of(data: bytes) -> str:
    """A number of bytes."""
    return hashlib.sha256(data).hexdigest()


def _stamp(repository: Path, proved: str) -> str:
    return f"{proved} {digest_of((repository / PROGRAM).read_bytes())}\n"
