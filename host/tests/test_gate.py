"""docs/slow-crates.txt lists the crates that have no must-fail edit because they take above 15 seconds to prove, and with the older
kit an edit proved its crate whole again. None of them has one, and each is there."""

from __future__ import annotations

import re
import unittest
from pathlib import Path

REPOSITORY = Path(__file__).resolve().parents[2]
CRATES = REPOSITORY / "crates"
SLOW = REPOSITORY / "docs" / "slow-crates.txt"

LIMIT = 15
"""A crate is listed only if it takes more seconds than this."""
MOST = 50
"""The seconds that a crate may take at all."""


def listed(text: str) -> dict[str, int]:
    """The crates of the list, each with its seconds; a line that begins with # is about the list."""
    lines = [line for line in text.splitlines() if not line.startswith("#")]
    return {name: int(seconds) for name, seconds in (re.fullmatch(r"(\w+): (\d+)", line).groups() for line in lines)}


def faults(slow: dict[str, int]) -> list[str]:
    """What the list says of a crate and is not so."""
    wrong = []
    for name, seconds in slow.items():
        if not (CRATES / name / "src").is_dir():
            wrong.append(f"no crate {name}")
        if list((CRATES / name / "must-fail").glob("*.edit")):
            wrong.append(f"{name} is slow and has must-fail edits")
        if not LIMIT < seconds <= MOST:
            wrong.append(f"{name}: {seconds} seconds")
    return wrong


class Gate(unittest.TestCase):
    def test_slow_crates(self) -> None:
        slow = listed(SLOW.read_text(encoding="utf-8"))
        self.assertGreater(len(slow), 0)
        self.assertEqual(faults(slow), [])

    def test_what_is_wrong(self) -> None:
        self.assertEqual(faults({"never_there": 20}), ["no crate never_there"])
        self.assertEqual(faults({"base": 20}), ["base is slow and has must-fail edits"])
        self.assertEqual(len(faults({"judge": 15, "cio": 51})), 2)


if __name__ == "__main__":
    unittest.main()
