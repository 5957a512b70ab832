"""A copy of the repository with a stand-in toolchain, for tests of what is started when."""

from __future__ import annotations

import os
import shutil
import subprocess
import sys
import tempfile
import unittest
from pathlib import Path

from .running import PATIENCE, STICK

REPOSITORY = Path(STICK).parent
PROGRAMS = ("bash", "cat", "chmod", "cp", "dirname", "mkdir", "readlink", "rm", "sh", "sleep", "tee", "touch")
"""What scripts here call, beside Python and rt."""


class Folder(unittest.TestCase):
    """Tests with a folder of their own."""

    def setUp(self) -> None:
        folder = tempfile.TemporaryDirectory()
        self.addCleanup(folder.cleanup)
        self.folder = Path(folder.name)

    def file(self, name: str, text: str, mode: int = 0o644) -> str:
        path = self.folder / name
        path.parent.mkdir(parents=True, exist_ok=True)
        path.write_text(text)
        path.chmod(mode)
        return str(path)


class Copied(Folder):
    """Tests in a copy of ``./stick``, with no more on the PATH than is needed."""

    def setUp(self) -> None:
        super().setUp()
        self.repository = self.folder / "repository"
        self.copy("host/fixlomand", "host/stick.py", "stick", "crates.txt")
        (self.repository / "crates" / "play").mkdir(parents=True)
        self.file("kit/bin/needed", "")
        for name in PROGRAMS:
            self.link(name, shutil.which(name) or name)
        self.link("python3", sys.executable)

    def copy(self, *names: str) -> None:
        """Copies files and folders of the repository."""
        for name in names:
            to = self.repository / name
            to.parent.mkdir(parents=True, exist_ok=True)
            if (REPOSITORY / name).is_dir():
                shutil.copytree(
                    REPOSITORY / name, to, ignore=shutil.ignore_patterns("__pycache__", "out"), dirs_exist_ok=True
                )
            else:
                shutil.copy(REPOSITORY / name, to)

    def link(self, name: str, path: str) -> None:
        """Puts a program on the PATH."""
        (self.folder / "kit" / "bin" / name).symlink_to(path)

    def rt(self, *lines: str) -> None:
        """A stand-in rt: a shell script."""
        self.file("kit/bin/rt", "".join(f"{line}\n" for line in ("#!/bin/sh", *lines)), 0o755)

    @property
    def environment(self) -> dict[str, str]:
        return {"PATH": str(self.folder / "kit" / "bin"), "TMPDIR": str(self.folder), "HOME": os.environ.get("HOME", "/")}

    def start(self, *words: str, program: str = "stick") -> subprocess.CompletedProcess[bytes]:
        """Runs a program of the copy to its end."""
        return subprocess.run(
            [str(self.repository / program), *words],
            capture_output=True,
            env=self.environment,
            timeout=PATIENCE,
            check=False,
        )
