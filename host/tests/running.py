"""``./stick`` as a process, for the tests that run it."""

from __future__ import annotations

import os
import subprocess
from pathlib import Path

STICK = str(Path(__file__).resolve().parents[2] / "stick")
PLAY = os.environ.get("FIXLOMAND_PLAY", "")
NO_PLAY = "FIXLOMAND_PLAY names no play to run the command with"
PATIENCE = 120


def run(*words: str, give: bytes = b"", **variables: str) -> subprocess.CompletedProcess[bytes]:
    """Runs ``./stick`` to its end."""
    return subprocess.run(
        [STICK, *words], input=give, capture_output=True, env={**os.environ, **variables}, timeout=PATIENCE, check=False
    )


def last_line(done: subprocess.CompletedProcess[bytes]) -> str:
    """The last line on standard error."""
    return (done.stderr.decode().splitlines() or [""])[-1]
