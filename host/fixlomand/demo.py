"""The demonstration: a laptop and a phone at one stick, at the same time."""

from __future__ import annotations

import os
import sys
from itertools import zip_longest

from . import keys, screen, toolchain
from .cio import EOL, FORCED, READ, WRITE, File
from .hosts import Host, Step, run
from .play import Player
from .script import State

STOCK = {
    "ALCOHOL": 31, "ASPIRIN": 212, "BANDAGES": 64, "BURN GEL": 9, "CATHETERS": 17, "COTTON": 88, "CRUTCHES": 6,
    "DRESSINGS": 140, "EAR DROPS": 23, "EYE DROPS": 41, "FORCEPS": 12, "GAUZE": 3, "GLOVES": 400, "GOWNS": 55,
    "INSULIN": 72, "IODINE": 19, "LANCETS": 300, "LINT": 14, "MASKS": 250, "NEEDLES": 500, "OINTMENT": 37,
    "PENLIGHTS": 8, "PLASTER": 96, "QUININE": 11, "SALINE": 120, "SCISSORS": 15, "SLINGS": 28, "SPLINTS": 33,
    "STERILE WATER": 60, "SUTURES": 180, "SWABS": 950, "SYRINGES": 610, "TAPE": 77, "THERMOMETERS": 22, "TUBING": 45,
    "VIALS": 130, "WIPES": 340, "ZINC PASTE": 5,
}  # fmt: skip
LIST = b"".join(
    f"{item:<14}{count:>5}{'  LOW' if count < 10 else ''}".encode() + bytes([EOL]) for item, count in STOCK.items()
)
ASKED = "GAUZE"
LONG = 100
"""From so many ticks on, the end of a step has a line of its own."""
COLUMN = 36
SHOWN = 9
"""How many lines of the screen and of the paper are shown."""


def show(player: Player) -> None:
    """Runs both parts and prints them."""
    title("1. The laptop prints its stock list while the phone uses screen and keyboard")
    hosts = run(player, lambda host: lists_stock(host, "P:"), asks_for_items)
    conversations(hosts)
    state = player.state()
    beside(screen_box(state), paper_box(state))
    said(f"Ticks answered 8, wait for the other port: {sum(host.port.refused for host in hosts)}.")
    said()

    title("2. The same with both on the screen")
    hosts = run(player, lambda host: lists_stock(host, "E:"), asks_for_items)
    conversations(hosts)
    laptop, phone = (host.port.refused for host in hosts)
    notes = [
        "",
        "Now both need the console. While one",
        "held it, the other's ticks were",
        "answered 8: those of the laptop",
        f"{laptop:,} times, of the phone {phone:,} times.",
        "",
        "The characters of one request stay",
        "together on the screen.",
    ]
    beside(screen_box(player.state()), notes)


# the two programs


def lists_stock(host: Host, device: str) -> None:
    """The laptop: one long PUT."""
    with host.step(f"OPEN {device}"):
        file = host.stick.open(device, WRITE)
    with host.step(f"PUT {len(LIST):,} characters"):
        file.put_characters(LIST)
    with host.step("CLOSE"):
        file.close()


def asks_for_items(host: Host) -> None:
    """The phone: an item is typed at the stick, and it answers what is left."""
    with host.step("OPEN E: and K:"):
        editor = host.stick.open("E:", READ | WRITE | FORCED)
        keyboard = host.stick.open("K:", READ)
    for record in ("STOCK DESK", "ITEM?"):
        with host.step(f'PUT RECORD "{record}"'):
            editor.put_record(record.encode())
    with host.step(f"GET {len(ASKED) + 1} keys, PUT each"):
        item = read_line(host, keyboard, editor, ASKED)
    answer = f"{item}: {STOCK[item]} LEFT"
    with host.step(f'PUT RECORD "{answer}"'):
        editor.put_record(answer.encode())
    with host.step("CLOSE both"):
        editor.close()
        keyboard.close()


def read_line(host: Host, keyboard: File, editor: File, line: str) -> str:
    """Reads and echoes keys up to RETURN; somebody types the line."""
    typed = ""
    for code in [keys.code_of(ord(letter)) or 0 for letter in line.lower()] + [keys.RETURN]:
        host.press(code)
        byte = keyboard.get_character()
        editor.put_character(byte)
        if byte != EOL:
            typed += chr(byte)
    return typed


# what is printed


def said(text: str = "") -> None:
    """A line of the demonstration."""
    print(text.rstrip())


def title(text: str) -> None:
    """A heading, bold in a terminal, and above it that a core is not proved."""
    if toolchain.is_unproved():
        said(toolchain.title())
    bold = sys.stdout.isatty() and os.environ.get("TERM", "dumb") != "dumb"
    print(f"\033[1m{text}\033[0m" if bold else text)


def conversations(hosts: list[Host]) -> None:
    """Both conversations beside each other: a line where a step begins, and
    where a long one ends."""
    events = []
    for place, host in enumerate(hosts):
        for step in host.steps:
            done = "-> $01" + (f", {step.refused:,} answers 8" if step.refused else "")
            if _is_long(step):
                events += [(step.begin, place, f"{step.text} begins"), (step.end, place, f"... ends {done}")]
            else:
                events.append((step.begin, place, f"{step.text} {done}"))
    lines: list[tuple[int, list[str]]] = []
    for tick, place, text in sorted(events, key=lambda event: event[0]):
        free = [line for at, line in lines if at == tick and not any(line[place:])]
        if not free:
            free = [["", ""]]
            lines.append((tick, free[0]))
        free[0][place] = text
    said(f" tick  {'laptop, port 0':<{COLUMN}}phone, port 1")
    for tick, line in lines:
        laptop, phone = (text or _meanwhile(host, tick) for text, host in zip(line, hosts))
        said(f"{tick:>5}  {laptop:<{COLUMN}}{phone}")


def _is_long(step: Step) -> bool:
    return step.end - step.begin >= LONG


def _meanwhile(host: Host, tick: int) -> str:
    return ":" if any(step.begin < tick < step.end and _is_long(step) for step in host.steps) else ""


def screen_box(state: State) -> list[str]:
    """The rows of the screen up to the cursor's, the last few of them."""
    rows = screen.text_rows(state)[: state.row]
    first = max(0, len(rows) - SHOWN)
    return boxed(f"screen, rows {first} to {state.row - 1}", rows[first:], 40)


def paper_box(state: State) -> list[str]:
    """The paper, its middle left out."""
    lines = screen.paper_lines(state)
    left_out = len(lines) - SHOWN + 1
    shown = lines[: SHOWN // 2] + [f"... {left_out} lines more ..."] + lines[SHOWN // 2 + left_out :]
    return boxed(f"paper, {state.used:,} bytes", shown if left_out > 1 else lines, 24)


def boxed(name: str, lines: list[str], width: int) -> list[str]:
    """Lines in a frame."""
    return [f"+- {name} ".ljust(width + 1, "-") + "+", *(f"|{line:<{width}}|" for line in lines), f"+{'-' * width}+"]


def beside(left: list[str], right: list[str]) -> None:
    """Two frames side by side."""
    width = len(left[0])
    for one, other in zip_longest(left, right, fillvalue=""):
        said(f"{one:<{width}}  {other}")
