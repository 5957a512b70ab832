"""What is told of characters and files that come from the stick."""

from __future__ import annotations

from collections.abc import Callable

from .wire import EOL


def newlines(data: bytes, say: Callable[[str], None]) -> bytes:
    """Characters with newlines for EOLs. What is above $7F is a character in
    inverse video, and is written as the plain one."""
    inverse = sum(byte >= 0x80 and byte != EOL for byte in data)
    if inverse:
        are = "byte above $7F is" if inverse == 1 else "bytes above $7F are"
        say(f"{inverse} {are} written without the high bit, which is inverse video (EOL is a newline)")
    return bytes(0x0A if byte == EOL else byte & 0x7F for byte in data)


def counted(number: int, thing: str) -> str:
    """A number of things."""
    return f"{number} {thing}" if number == 1 else f"{number} {thing}s"


def named(file: str) -> str:
    """A file's name as it is told."""
    return "standard output" if file == "-" else file
