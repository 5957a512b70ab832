"""``firmware/install``: a C program is compiled against the installed files, by what they say of themselves, and run. And the
header's names: they are those of the Python library.

It installs what is built: FIXLOMAND_BOARD, which the example firmware is started with, says that it is.
"""

from __future__ import annotations

import os
import platform
import re
import shlex
import shutil
import subprocess
import tempfile
import unittest
from collections.abc import Sequence
from pathlib import Path

import fixlomand
from fixlomand import errors, wire

BOARD = os.environ.get("FIXLOMAND_BOARD", "")
FIRMWARE = Path(__file__).resolve().parents[2] / "firmware"
INSTALLED = ("include/fixlomand.h", "lib/libfixlomand.a", "lib/pkgconfig/fixlomand.pc")
NATIVE = platform.machine() == "x86_64"
COMPILER = os.environ.get("CC", "gcc") if NATIVE else "x86_64-linux-gnu-gcc"
STRICT = ("-std=c99", "-Wall", "-Wextra", "-Wpedantic", "-Werror")
PATIENCE = 120
NOBODY = 65_534

PROGRAM = r"""
#include <fixlomand.h>
#include <stdio.h>

#if FIXLOMAND_VERSION_NUMBER < 1
#error no version
#endif

static uint8_t state[FIXLOMAND_STATE_LEN], area[FIXLOMAND_AREA_LEN];
static uint8_t screen[FIXLOMAND_SCREEN_LEN], paper[FIXLOMAND_PAPER_LEN], tape[FIXLOMAND_TAPE_LEN];
static uint8_t images[FIXLOMAND_IMAGES_LEN];

#define LENT state, sizeof state, area, sizeof area, screen, sizeof screen, paper, sizeof paper, tape, sizeof tape, \
    images, sizeof images

static void request(const uint8_t *message, size_t length)
{
    uint16_t given;
    for (size_t i = 0; i < length; i++)
        fixlomand_take(LENT, 1, message[i]);
    while (fixlomand_tick(LENT, 1) == FIXLOMAND_DONE)
        continue;
    while (given = fixlomand_give(LENT, 1), FIXLOMAND_ANSWER(given) == FIXLOMAND_DONE)
        printf("%02X ", FIXLOMAND_BYTE(given));
    printf("\n");
}

int main(void)
{
    const uint8_t load[] = {FIXLOMAND_TAG_LOAD, 2 + 4, 0, 16, 0, 'l', 'i', 'n', 't'};
    const uint8_t fetch[] = {FIXLOMAND_TAG_FETCH, FIXLOMAND_FETCH_LEN, 0, 16, 0, 4, 0};
    printf("%s\n", FIXLOMAND_VERSION);
    if (fixlomand_fresh(LENT) != FIXLOMAND_DONE)
        return 1;
    request(load, sizeof load);
    request(fetch, sizeof fetch);
    return 0;
}
"""


def run(
    command: Sequence[str | Path], folder: Path, user: int | None = None, **variables: str
) -> subprocess.CompletedProcess[str]:
    """Runs a command in a folder to its end."""
    environment = {**os.environ, **variables}
    return subprocess.run(
        command, cwd=folder, env=environment, user=user, capture_output=True, text=True, timeout=PATIENCE, check=False
    )


def described(prefix: Path) -> dict[str, str]:
    """The fields of the .pc file, its variables filled in: all that pkg-config knows."""
    variables: dict[str, str] = {}
    fields: dict[str, str] = {}
    for line in (prefix / INSTALLED[2]).read_text(encoding="utf-8").splitlines():
        filled = re.sub(r"\$\{(\w+)\}", lambda found: variables[found[1]], line)
        if found := re.match(r"(\w+)=(.*)$", filled):
            variables[found[1]] = found[2]
        elif found := re.match(r"(\w+): (.*)$", filled):
            fields[found[1]] = found[2]
    return fields


class Header(unittest.TestCase):
    def named(self, begin: str) -> dict[str, int]:
        """What the header has under this beginning, without it."""
        text = (FIRMWARE / "include" / "fixlomand.h").read_text(encoding="utf-8")
        return {name: int(number, 0) for name, number in re.findall(rf"FIXLOMAND_{begin}_(\w+) = (\w+)", text)}

    def test_statuses(self) -> None:
        raised = {re.sub(r"\B([A-Z])", r"_\1", error.__name__).upper(): n for n, error in errors.BY_STATUS.items()}
        below = {"SUCCESS": wire.SUCCESS, "LAST_CHARACTER": wire.LAST_CHARACTER}
        self.assertEqual(self.named("STATUS"), {**below, **raised})

    def test_messages(self) -> None:
        replies = {f"{tag.name}_REPLY": tag + wire.REPLY for tag in wire.Tag}
        tags = {tag.name: int(tag) for tag in wire.Tag}
        self.assertEqual(self.named("TAG"), {**tags, **replies, "REFUSED": wire.REFUSED})
        commands = {command.name: int(command) for command in wire.Command}
        self.assertEqual(self.named("COMMAND"), {**commands, "SPECIAL": wire.Command.GET_STATUS + 1})

    def test_aux1(self) -> None:
        bits = {"READ": wire.READ, "WRITE": wire.WRITE, "FORCED": wire.FORCED, "KEEP": wire.KEEP}
        self.assertEqual(self.named("AUX1"), {**bits, "SPLIT": 0x10, "DIRECTORY": wire.DIRECTORY})

    def test_version(self) -> None:
        text = (FIRMWARE / "include" / "fixlomand.h").read_text(encoding="utf-8")
        self.assertIn(f'#define FIXLOMAND_VERSION "{fixlomand.__version__}"', text)


@unittest.skipUnless(BOARD, "FIXLOMAND_BOARD names no example firmware: so the library may not be built")
class Install(unittest.TestCase):
    def setUp(self) -> None:
        temporary = tempfile.TemporaryDirectory()
        self.addCleanup(temporary.cleanup)
        self.folder = Path(temporary.name).resolve()

    def install(self, *words: str | Path) -> subprocess.CompletedProcess[str]:
        return run([FIRMWARE / "install", *words], self.folder)

    def installed(self, prefix: str) -> Path:
        """A folder with the library in it."""
        done = self.install(prefix)
        self.assertEqual(done.returncode, 0, done.stderr)
        place = self.folder / prefix
        for name in INSTALLED:
            self.assertIn(f"{place / name}\n", done.stdout)
            self.assertEqual((place / name).stat().st_mode & 0o777, 0o644)
        return place

    def asked(self, prefix: Path, *words: str) -> list[str]:
        """What pkg-config says of the library."""
        done = run(["pkg-config", *words, "fixlomand"], self.folder, PKG_CONFIG_PATH=str(prefix / "lib" / "pkgconfig"))
        self.assertEqual(done.returncode, 0, done.stderr)
        return shlex.split(done.stdout)

    def runs(self, flags: Sequence[str], version: str) -> None:
        """A program that knows nothing of this tree is compiled with these words, and gets its bytes back."""
        (self.folder / "mine.c").write_text(PROGRAM, encoding="utf-8")
        done = run([COMPILER, *STRICT, "-static", "mine.c", *flags, "-o", "mine"], self.folder)
        self.assertEqual(done.returncode, 0, done.stderr)
        done = run([FIRMWARE / "run", "./mine"], self.folder)
        self.assertEqual(done.returncode, 0, done.stderr)
        said = [line.rstrip() for line in done.stdout.splitlines()]
        self.assertEqual(said, [version, "91 01 00 01", "92 05 00 01 6C 69 6E 74"])

    def test_a_program(self) -> None:
        """A folder that is given by its whole path."""
        prefix = self.installed(str(self.folder / "new" / "prefix"))
        fields = described(prefix)
        self.runs(shlex.split(f"{fields['Cflags']} {fields['Libs']}"), fields["Version"])

    @unittest.skipUnless(shutil.which("pkg-config"), "there is no pkg-config")
    def test_a_program_by_pkg_config(self) -> None:
        """A folder below the one that it is run in, with a blank in its name."""
        prefix = self.installed("a prefix")
        self.runs(self.asked(prefix, "--cflags", "--libs"), self.asked(prefix, "--modversion")[0])

    @unittest.skipUnless(shutil.which("c++"), "there is no C++ compiler")
    def test_cplusplus(self) -> None:
        prefix = self.installed("prefix")
        (self.folder / "mine.cpp").write_text("#include <fixlomand.h>\n" * 2, encoding="utf-8")
        words = ("-Wall", "-Wextra", "-Wpedantic", "-Werror", "-fsyntax-only")
        done = run(["c++", *words, f"-I{prefix / 'include'}", "mine.cpp"], self.folder)
        self.assertEqual(done.returncode, 0, done.stderr)

    def test_once_more(self) -> None:
        """What was there is replaced, also what may not be written."""
        prefix = self.installed("prefix")
        before = [(prefix / name).read_bytes() for name in INSTALLED]
        for name in INSTALLED:
            (prefix / name).write_bytes(b"old")
            (prefix / name).chmod(0o444)
        self.installed("prefix")
        self.assertEqual([(prefix / name).read_bytes() for name in INSTALLED], before)

    def refused(self, *words: str) -> str:
        """The one line of an install that does nothing."""
        done = self.install(*words)
        self.assertEqual((done.returncode, done.stdout), (2, ""))
        self.assertRegex(done.stderr, r"\Afirmware/install: .*\n\Z")
        return done.stderr

    def test_wrong_words(self) -> None:
        self.assertIn("say where to: firmware/install PREFIX", self.refused())
        self.assertIn("no option --prefix=x", self.refused("--prefix=x"))
        self.assertIn("one PREFIX, not 2", self.refused("x", "y"))
        self.assertIn("empty", self.refused(""))
        self.assertIn("does not read", self.refused("a$b"))
        self.assertEqual(list(self.folder.iterdir()), [])

    def test_what_is_in_the_way(self) -> None:
        (self.folder / "file").touch()
        self.assertIn(f"{self.folder}/file/include cannot be made: Not a directory", self.refused("file"))
        (self.folder / "prefix").mkdir()
        (self.folder / "prefix" / "lib").touch()
        self.assertIn(f"{self.folder}/prefix/lib cannot be made: File exists", self.refused("prefix"))
        (self.folder / "other" / INSTALLED[0]).mkdir(parents=True)
        done = self.install("other")
        self.assertEqual(done.returncode, 2)
        self.assertIn(f"{self.folder}/other/{INSTALLED[0]} cannot be written: ", done.stderr)

    def test_a_folder_of_somebody_else(self) -> None:
        """Root may write everywhere: so it tries as another."""
        self.folder.chmod(0o755)
        (self.folder / "prefix").mkdir(mode=0o555)
        try:
            done = run([FIRMWARE / "install", "prefix"], self.folder, user=NOBODY if os.geteuid() == 0 else None)
        except PermissionError:
            self.skipTest("this tree is root's alone")
        self.assertEqual(done.returncode, 2)
        self.assertEqual(
            done.stderr,
            f"firmware/install: the folder {self.folder}/prefix/include cannot be made: Permission denied\n",
        )

    def test_help(self) -> None:
        for word in ("-h", "--help"):
            done = self.install(word)
            self.assertEqual((done.returncode, done.stderr), (0, ""))
            for name in INSTALLED:
                self.assertIn(name, done.stdout)


if __name__ == "__main__":
    unittest.main()
