#!/usr/bin/env python3
"""A stock form on the screen, at the phone's port, and lists to the printer, at the laptop's.

    ./stick live                names a line for each port, as /dev/pts/5 and /dev/pts/6; in another terminal:
    PYTHONPATH=host python3 host/examples/stock.py /dev/pts/5 /dev/pts/6

Type in the terminal of `live`: an item and RETURN, then how many there are now (RETURN alone leaves it); LIST prints the
list while the form goes on; RETURN alone in place of an item ends.
"""

from __future__ import annotations

import os
import sys
import termios
import time
import tty
from concurrent.futures import Future, ThreadPoolExecutor
from contextlib import closing

from fixlomand import EOL, READ, WRITE, EndOfFile, File, PaperFull, Stick, StickError

STOCK = {"ALCOHOL": 31, "BANDAGES": 64, "GAUZE": 3, "GLOVES": 400, "LINT": 14, "SWABS": 950, "TAPE": 77}
LOW = 10
BACKSPACE = 0x7E
LONGEST = 14
"""The most characters of an item, and of a number."""
REST = 0.02
"""Seconds between two looks at the keyboard."""


class Line:
    """A serial line, or a pseudo-terminal, as a byte stream."""

    def __init__(self, path: str) -> None:
        self._file = os.open(path, os.O_RDWR | os.O_NOCTTY)
        tty.setraw(self._file)

    def read(self, size: int) -> bytes:
        return os.read(self._file, size)

    def write(self, data: bytes) -> int:
        return os.write(self._file, data)

    def fileno(self) -> int:
        return self._file

    def close(self) -> None:
        os.close(self._file)


def form(phone: Stick, laptop: Stick, stock: dict[str, int]) -> None:
    """Asks for items until there is none."""
    printing: Future[str] | None = None
    with ThreadPoolExecutor(1) as pool, phone.open("E:", WRITE) as editor, phone.open("K:", READ) as keyboard:
        editor.put_record(b"STOCK FORM: AN ITEM, LIST, OR RETURN")
        while item := ask(keyboard, editor, "ITEM? "):
            if printing is not None and printing.done():
                editor.put_record(printing.result().encode())
                printing = None
            if item == "LIST":
                # The printer is at the other port, so that the form need not wait for it.
                printing = pool.submit(print_list, laptop, dict(stock))
                continue
            number = ask(keyboard, editor, f"{item}: {stock.get(item, 0)} ON HAND, NOW? ")
            if number.isdigit():
                stock[item] = int(number)
            elif number:
                editor.put_record(f"{number} IS NO NUMBER".encode())
        if printing is not None:
            editor.put_record(printing.result().encode())


def ask(keyboard: File, editor: File, question: str) -> str:
    """What is typed after a question, up to RETURN; each key is shown as it comes."""
    editor.put_characters(question.encode())
    typed = ""
    while True:
        try:
            byte = keyboard.get_character()
        except EndOfFile:  # no key has been pressed
            time.sleep(REST)
            continue
        if byte == EOL:
            editor.put_character(EOL)
            return typed.strip()
        if byte == BACKSPACE and typed:
            typed = typed[:-1]
            editor.put_character(BACKSPACE)
        elif 0x20 <= byte < 0x7B and len(typed) < LONGEST:
            letter = chr(byte).upper()
            typed += letter
            editor.put_character(ord(letter))


def print_list(laptop: Stick, stock: dict[str, int]) -> str:
    """Prints the stock; what came of it."""
    try:
        with laptop.open("P:", WRITE) as printer:
            for item, count in sorted(stock.items()):
                printer.put_record(f"{item:<{LONGEST}}{count:>{LONGEST}}{'  LOW' if count < LOW else ''}".encode())
    except PaperFull:
        return "THE PAPER IS FULL"
    return f"{len(stock)} ITEMS PRINTED"


def main(words: list[str]) -> int:
    """Runs the form; the end status."""
    if len(words) != 2:
        print("usage: stock.py LAPTOP PHONE      the two lines that ./stick live names", file=sys.stderr)
        return 2
    try:
        with closing(Line(words[0])) as laptop_line, closing(Line(words[1])) as phone_line:
            laptop, phone = Stick(laptop_line), Stick(phone_line)
            for stick in (laptop, phone):
                stick.close_all()
            form(phone, laptop, dict(STOCK))
    except (OSError, termios.error, StickError) as error:
        print(f"stock: {error}", file=sys.stderr)
        return 1
    except KeyboardInterrupt:
        return 130
    return 0


if __name__ == "__main__":
    sys.exit(main(sys.argv[1:]))
