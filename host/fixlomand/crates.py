"""The crates: which uses which (``crates.txt``), the orders in which ``rt``
proves them, and their files as one number."""

from __future__ import annotations

import hashlib
from collections.abc import Iterable, Sequence
from pathlib import Path

PARTS = ("src", "specs", "proofs", "stdin", "stdout", "args", "status", "data")
"""What of a crate's folder ``rt`` reads to prove and run it."""


class Crates:
    """The crates of a repository."""

    def __init__(self, repository: Path) -> None:
        self.repository = repository
        self.uses: dict[str, list[str]] = {}
        """What each crate uses, of the repository and of the toolchain."""
        for line in (repository / "crates.txt").read_text(encoding="utf-8").splitlines():
            head, colon, used = line.partition("#")[0].partition(":")
            if colon and head.strip():
                # Behind a name may stand what kind of crate it is, as staticlib.
                self.uses[head.split()[0]] = used.split()

    def levels(self, wanted: Sequence[str] = ()) -> list[list[str]]:
        """The wanted crates (all, if none is named) and what they use: a level
        uses only what is in earlier ones."""
        level: dict[str, int] = {}

        def visit(name: str) -> None:
            if name in self.uses and name not in level:
                level[name] = 0  # so that a cycle, which rt refuses, ends here
                for used in self.uses[name]:
                    visit(used)
                below = [level[used] for used in self.uses[name] if used in level]
                del level[name]
                level[name] = 1 + max(below, default=-1)

        for name in wanted or self.uses:
            visit(name)
        ordered: list[list[str]] = [[] for _ in range(1 + max(level.values(), default=-1))]
        for name, at in level.items():
            ordered[at].append(name)
        return ordered

    def reached(self, name: str) -> list[str]:
        """A crate and all that it uses, bottom up."""
        return [each for level in self.levels([name]) for each in level]

    def one_by_one(self, name: str) -> list[str]:
        """The same in the order of ``rt lib`` and ``rt run``: what a crate uses
        stands in the order of its line, each behind what it uses itself."""
        ordered: list[str] = []
        begun: set[str] = set()

        def visit(name: str) -> None:
            if name in self.uses and name not in begun:
                begun.add(name)
                for used in self.uses[name]:
                    visit(used)
                ordered.append(name)

        visit(name)
        return ordered

    def behind(self) -> dict[str, int]:
        """Of each crate the lines of the longest chain of crates that begins
        with it: ``rt ci`` takes those with the longest first."""
        above: dict[str, list[str]] = {name: [] for name in self.uses}
        for name, used in self.uses.items():
            for each in used:
                above.get(each, []).append(name)
        lines: dict[str, int] = {}
        for level in reversed(self.levels()):
            for name in level:
                sources = (self.repository / "crates" / name / "src").rglob("*.rt")
                own = sum(file.read_bytes().count(b"\n") for file in sources)
                lines[name] = own + max((lines.get(each, 0) for each in above[name]), default=0)
        return lines

    def edits(self) -> int:
        """How many must-fail edits there are."""
        return sum(1 for _ in self.repository.glob("crates/*/must-fail/*.edit"))

    def digest(self, name: str, also: Iterable[bytes] = (), parts: Sequence[str] = PARTS) -> str:
        """A number of all that a crate is made of; another if any of it changes."""
        number = hashlib.sha256()
        for each in self.reached(name):
            number.update(f"{each}: {' '.join(self.uses[each])}\n".encode())
            folder = self.repository / "crates" / each
            for part in parts:
                below = [folder / part, *(folder / part).rglob("*")]
                for file in sorted(file for file in below if file.is_file()):
                    data = file.read_bytes()
                    number.update(f"{file.relative_to(folder)} {len(data)}\n".encode() + data)
        for more in also:
            number.update(f"{len(more)}\n".encode() + more)
        return number.hexdigest()
