"""``pip install ./host`` in a virtual environment, with no index to fetch anything from; and what the package has."""

from __future__ import annotations

import importlib.util
import os
import subprocess
import sys
import tempfile
import unittest
import venv
from pathlib import Path

import fixlomand
from fixlomand import cio, errors

from .running import NO_PLAY, PATIENCE, PLAY, STICK

HOST = Path(STICK).parent / "host"
USES = """
import importlib.metadata, pathlib, sys
import fixlomand
from fixlomand import AREA, EOL, FORCED, KEEP, READ, WRITE, ByteStream, EndOfFile, File, PaperFull, StatusError, Stick
assert pathlib.Path(fixlomand.__file__).is_relative_to(sys.prefix), fixlomand.__file__
assert pathlib.Path(fixlomand.__file__).with_name("py.typed").exists()
assert importlib.metadata.version("fixlomand") == fixlomand.__version__
print(fixlomand.__version__)
"""


@unittest.skipUnless(importlib.util.find_spec("pip"), "Python has no pip here")
class Installed(unittest.TestCase):
    folder: Path
    environment: dict[str, str]

    @classmethod
    def setUpClass(cls) -> None:
        room = tempfile.TemporaryDirectory()
        cls.addClassCleanup(room.cleanup)
        cls.folder = Path(room.name)
        cls.environment = {name: value for name, value in os.environ.items() if not name.startswith(("PIP_", "PYTHON"))}
        cls.environment.update(
            PIP_NO_INDEX="1", PIP_CONFIG_FILE=os.devnull, PIP_NO_CACHE_DIR="1", PYTHONDONTWRITEBYTECODE="1"
        )
        venv.create(cls.folder / "venv")
        before = sorted(HOST.iterdir())
        pip = [sys.executable, "-m", "pip", "--python", str(cls.folder / "venv" / "bin" / "python")]
        done = cls.run_in(*pip, "install", "--quiet", "--no-compile", str(HOST))
        assert done.returncode == 0, done.stderr.decode()
        assert sorted(HOST.iterdir()) == before

    @classmethod
    def run_in(cls, *command: str, **variables: str) -> subprocess.CompletedProcess[bytes]:
        """Runs a command in a folder with nothing of the repository."""
        environment = {**cls.environment, **variables}
        return subprocess.run(
            command, cwd=cls.folder, input=b"fresh\n", capture_output=True, env=environment, timeout=PATIENCE, check=False
        )

    def test_the_package(self) -> None:
        done = self.run_in(str(self.folder / "venv" / "bin" / "python"), "-c", USES)
        self.assertEqual((done.stdout.decode(), done.stderr), (f"{fixlomand.__version__}\n", b""))

    def test_the_command(self) -> None:
        stick = str(self.folder / "venv" / "bin" / "stick")
        self.assertIn(b"stick live", self.run_in(stick, "--help").stdout)
        self.assertEqual(self.run_in(stick, "--version").stdout.decode(), f"stick {fixlomand.__version__}\n")
        done = self.run_in(stick, "demo", FIXLOMAND_PLAY="")
        self.assertEqual(done.returncode, 2)
        self.assertEqual(
            done.stderr,
            b"stick: no clone of Fixlomand here: run this inside one, or name a play by FIXLOMAND_PLAY\n",
        )

    @unittest.skipUnless(PLAY, NO_PLAY)
    def test_the_command_at_work(self) -> None:
        done = self.run_in(str(self.folder / "venv" / "bin" / "stick"), "play", "-")
        self.assertEqual((done.returncode, done.stdout), (0, b"fresh: 0 done\n"))


class Names(unittest.TestCase):
    def test_all_that_a_host_needs(self) -> None:
        needed = {"READ", "WRITE", "FORCED", "KEEP", "EOL", *cio.__all__}
        needed |= {name for name, value in vars(errors).items() if isinstance(value, type) and issubclass(value, Exception)}
        self.assertEqual(needed - set(fixlomand.__all__), set())
        for name in fixlomand.__all__:
            self.assertTrue(hasattr(fixlomand, name), name)


if __name__ == "__main__":
    unittest.main()
