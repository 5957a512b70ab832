"""Files that are read whole, and written whole or not at all."""

from __future__ import annotations

import errno
import os
import shutil
import sys
from pathlib import Path

from .errors import StickError
from .toolchain import Missing

NO_LINKS = (errno.EPERM, errno.ENOTSUP, errno.EOPNOTSUPP, errno.ENOSYS)
"""What a file system that has no second names for a file says of one."""


def read(file: str) -> bytes:
    """The bytes of a file; ``-`` is standard input."""
    try:
        return sys.stdin.buffer.read() if file == "-" else Path(file).read_bytes()
    except OSError as error:
        raise Missing(f"{file}: {error.strerror}") from error


def check_directory(file: str) -> None:
    """Before anything runs: can the file be written where it is to be?"""
    if file != "-" and (Path(file).is_dir() or not Path(file).absolute().parent.is_dir()):
        raise Missing(f"{file}: no file can be written there")


def write(file: str, data: bytes) -> None:
    """Writes a new file and renames it: an older one stays until then. A link
    stays a link. ``-`` is standard output."""
    if file == "-":
        sys.stdout.buffer.write(data)
        return
    path = Path(os.path.realpath(file))
    try:
        if path.exists() and not path.is_file():
            path.write_bytes(data)  # a device or a pipe
            return
        part = prepare(path, data)
        try:
            if path.exists():
                shutil.copymode(path, part)
            os.replace(part, path)
        except OSError:
            part.unlink(missing_ok=True)
            raise
    except OSError as error:
        raise StickError(f"{file}: {error.strerror}") from error


def prepare(path: Path, data: bytes, end: str = "part") -> Path:
    """Writes the file that is to become another, beside it: its bytes are
    there before its name is. What an earlier one has left is overwritten."""
    part = path.with_name(f".{path.name}.{end}")
    try:
        with part.open("wb") as new:
            new.write(data)
            new.flush()
            os.fsync(new.fileno())
    except OSError:
        part.unlink(missing_ok=True)
        raise
    return part


def keep(path: Path, data: bytes, like: Path, is_copy: bool = False) -> None:
    """Writes a file under a name that nothing has, beside another and with its
    mode, and with its time too if it is a copy: whole or not at all, and never
    over something."""
    part = prepare(like, data, "kept.part")
    try:
        (shutil.copystat if is_copy else shutil.copymode)(like, part)
        try:
            os.link(part, path)  # a renaming would not look for what has the name
        except OSError as error:
            if error.errno not in NO_LINKS:
                raise
            os.close(os.open(path, os.O_CREAT | os.O_EXCL | os.O_WRONLY))
            os.replace(part, path)
    finally:
        part.unlink(missing_ok=True)


def settle(folder: Path) -> None:
    """The names in a folder outlast a loss of power from now on, where the
    system can do that."""
    try:
        opened = os.open(folder, os.O_RDONLY)
    except OSError:
        return
    try:
        os.fsync(opened)
    except OSError:
        pass  # what is written is there all the same
    finally:
        os.close(opened)
