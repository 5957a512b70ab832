"""What ``./stick``, ``./test`` and ``firmware/build`` show while ``rt`` proves: in a terminal and in a pipe, with a stand-in ``rt``."""

from __future__ import annotations

import re
import subprocess
import unittest
from pathlib import Path

from fixlomand.crates import Crates

from .copied import REPOSITORY, Copied
from .running import PATIENCE
from .terminal import Terminal

TALLY = "3 passed, 0 failed"
OK = "rt: ok; handles allowed: none; must-fail edits: 1 refused; every proof and must-fail edit was done in this run"


def proved(name: str) -> str:
    """A stand-in rt ci's lines on a crate."""
    return f"echo '== {name}'; echo 'fn {name}::all: proved'; echo 'logic=proved functions=1'; echo 'rt: {name} proved'"


def checked(name: str) -> str:
    """A stand-in rt lib's, and rt run's, lines on a crate."""
    return f"echo 'rt: chose --jobs 2 for {name}'; echo 'fn {name}::all: proved'; echo 'logic=proved functions=1'"


def kept(name: str) -> str:
    """A stand-in rt ci's line on a crate that it proved before."""
    return f"echo 'rt: {name} is kept: an earlier run on this machine proved the same files'"


class Standing(Copied):
    """A repository of three crates: ``play`` over ``middle`` over ``low``, and ``aside``."""

    def setUp(self) -> None:
        super().setUp()
        self.copy("tools/progress", "test", "firmware/build")
        self.file("repository/crates.txt", "# all\nlow:\nplay: middle io\nmiddle: low\naside:\n")
        self.file("repository/crates/low/must-fail/one.edit", "")
        self.file("repository/crates/low/src/lib.rt", "")
        self.file("repository/crates/firmware_c/src/lib.rt", "")
        for name in ("env", "grep", "mktemp", "mv", "find", "sed", "tail", "uname"):
            self.link(name, self.which(name))

    @staticmethod
    def which(name: str) -> str:
        return subprocess.run(["sh", "-c", f"command -v {name}"], capture_output=True, text=True, check=True).stdout.strip()

    def filtered(self, words: str) -> str:
        """What comes out of the filter, in a pipe."""
        command = f"rt {words} | tools/progress who {words}"
        done = subprocess.run(
            ["bash", "-o", "pipefail", "-c", command],
            cwd=self.repository,
            env=self.environment,
            capture_output=True,
            timeout=PATIENCE,
            check=False,
        )
        self.assertEqual(done.stderr, b"")
        return re.sub(r"\d:\d\d", "TIME", done.stdout.decode())

    def in_terminal(self, *command: str, columns: int = 100) -> Terminal:
        variables = [f"{name}={value}" for name, value in {**self.environment, "TERM": "xterm"}.items()]
        terminal = Terminal(["env", "-i", "-C", str(self.repository), *variables, *command], columns=columns)
        self.addCleanup(terminal.close)
        return terminal


class InAPipe(Standing):
    def test_a_line_for_each_crate(self) -> None:
        self.rt(proved("low"), kept("aside"), "echo 'rt: low: trying its must-fail edits (1)'", proved("middle"), proved("play"),
                "echo '== play: its tests'; echo 'fn a: proved'; echo 'rt: play: its tests are proved'",
                "echo 'rt: must-fail low/one.edit: refused, as it must be: src/lib.rt:1:1: error'",
                "echo 'rt: play ran, and wrote what its file stdout has'",
                "echo 'tests: 1'; echo 'rt: play: its tests passed'",
                "echo 'rt: ok; handles allowed: none; must-fail edits: 1 refused'", "echo '5 passed, 0 failed'")  # fmt: skip
        self.assertEqual(
            self.filtered("ci"),
            "who: crate 1 of 4: low proved, TIME so far\n"
            "who: crate 3 of 4: middle proved, TIME so far\n"
            "who: crate 4 of 4: play proved, TIME so far\n"
            "who: must-fail edit 1 of 1: low/one refused, TIME so far\n"
            "5 passed, 0 failed\n",
        )

    def test_what_is_wanted_is_counted(self) -> None:
        self.rt("echo 'fn a: proved'; echo 'only=0 proved=0'", checked("low"), checked("middle"))
        shown = self.filtered("lib middle")
        self.assertEqual(re.findall(r"crate (.*) proved", shown), ["1 of 2: low", "2 of 2: middle"])

    def test_what_has_not_changed_is_counted(self) -> None:
        """rt lib says nothing of it."""
        self.rt(checked("middle"), "echo 'rt: chose --jobs 2 for play'", "echo 'a goal'", "echo 'logic=not-proved'",
                "echo 'rattle build: nothing was built'", "exit 1")  # fmt: skip
        self.assertEqual(
            self.filtered("run play").splitlines(),
            ["who: crate 2 of 3: middle proved, TIME so far", "a goal", "logic=not-proved", "rattle build: nothing was built"],
        )

    def test_what_is_not_proved_is_shown_whole(self) -> None:
        wrong = "echo '== middle'; echo 'lib.rt:7: error: no'; echo 'rt: a goal'; echo 'rt: middle NOT PROVED'"
        self.rt(proved("low"), wrong, proved("aside"), "echo 'rt: must-fail low/one.edit: BAD EDIT: so it is'",
                "echo 'a line after it'", "echo 'rt: FAILED: middle low/one'", "echo '2 passed, 2 failed'", "exit 1")  # fmt: skip
        self.assertEqual(
            self.filtered("ci").splitlines()[1:],
            [
                "== middle",
                "lib.rt:7: error: no",
                "rt: a goal",
                "rt: middle NOT PROVED",
                "who: crate 3 of 4: aside proved, TIME so far",
                "rt: must-fail low/one.edit: BAD EDIT: so it is",
                "a line after it",
                "rt: FAILED: middle low/one",
                "2 passed, 2 failed",
            ],
        )

    def test_a_repository_without_a_list(self) -> None:
        (self.repository / "crates.txt").unlink()
        self.rt("echo 'rt: no crates.txt in this folder'")
        self.assertEqual(self.filtered("ci"), "rt: no crates.txt in this folder\n")


class InATerminal(Standing):
    def test_a_line_that_moves(self) -> None:
        self.rt(proved("low"), "while [ ! -e go ]; do sleep 0.05; done", proved("aside"), proved("middle"), proved("play"))
        terminal = self.in_terminal("bash", "-c", "rt ci | RT_JOBS=2 tools/progress who ci")
        moved = re.compile(r"who: 1 of 4 crates proved, now aside and middle, 0:0[1-9] ")
        terminal.wait_for(lambda: moved.match(terminal.screen.lines()[0]), "the line")
        self.assertIn(b"who: 1 of 4 crates proved, now aside and middle, 0:00", terminal.written)
        self.file("repository/go", "")
        self.assertEqual(terminal.wait_for_end(), 0)
        shown = [line.rstrip() for line in terminal.screen.lines() if line.strip()]
        self.assertEqual(len(shown), 1)
        self.assertRegex(shown[0], r"who: 4 of 4 crates proved, 0 of 1 must-fail edits refused, 0:\d\d")

    def test_a_narrow_one(self) -> None:
        self.rt(checked("low"), checked("middle"))
        terminal = self.in_terminal("bash", "-c", "rt run | tools/progress who run play", columns=20)
        self.assertEqual(terminal.wait_for_end(), 0)
        self.assertEqual([line for line in terminal.screen.lines() if line.strip()], ["who: 2 of 3 crates  "])


class Stick(Standing):
    def test_first_then_changed_then_unchanged(self) -> None:
        self.rt("echo \"$*\" >>asked", "[ ! -e fail ] || exit 1", checked("low"), checked("middle"), checked("play"),
                "mkdir -p out", "touch out/play", "echo 'rt: running out/play'")  # fmt: skip
        said = self.start("play", "-").stderr.decode()
        self.assertIn("stick: the core is not proved on this machine yet: rt run in crates/play does it, which takes minutes", said)
        self.assertIn("stick: (./stick --unproved starts in seconds", said)
        self.assertRegex(said, r"stick: crate 2 of 3: middle proved, 0:0\d so far\n")
        asked = self.repository / "crates" / "play" / "asked"
        self.assertEqual(asked.read_text(), "run\n")
        for changed, again in (
            ((), False),
            (("crates/low/src/lib.rt",), True),
            (("crates/aside/src/lib.rt", "crates/low/must-fail/two.edit"), False),
            (("crates/middle/proofs/More.antt",), True),
            (("crates/play/out/play",), True),
        ):
            with self.subTest(changed=changed):
                asked.write_text("")
                for change in changed:
                    self.file(f"repository/{change}", "changed")
                said = self.start("play", "-").stderr.decode()
                self.assertEqual(asked.read_text(), "run\n" if again else "")
                self.assertNotIn("minutes", said)
                self.assertEqual("play is proved, and its sources are unchanged since" in said, not again)
        # Nothing is noted of what was not proved.
        self.file("repository/crates/low/src/lib.rt", "wrong")
        self.file("repository/crates/play/fail", "")
        for _ in range(2):
            self.assertIn(b"rt run in crates/play failed", self.start("play", "-").stderr)

    def test_interrupted_in_a_terminal(self) -> None:
        """Nothing goes on after it, not even what ignores Control-C, as all
        does that a shell starts with &."""
        self.rt("(trap '' INT; sleep 60) &", "echo $$ >begun", checked("low"), "wait")
        terminal = self.in_terminal("./stick")
        terminal.wait_for_text("stick: 1 of 3 crates proved, now middle, 0:0")
        group = int((self.repository / "crates" / "play" / "begun").read_text())
        self.assertTrue(running(group))
        terminal.type(b"\x03")
        self.assertEqual(terminal.wait_for_end(), 130)
        self.assertIn(b"stick: interrupted", terminal.written)
        terminal.wait_for(lambda: not running(group), "the end of all that rt started")


def running(group: int) -> bool:
    """Whether a process of a group runs."""
    for stat in Path("/proc").glob("[0-9]*/stat"):
        try:
            state, _, its_group = stat.read_text().rpartition(") ")[2].split()[:3]
        except OSError:
            continue  # it has just ended
        if its_group == str(group) and state not in "ZX":
            return True
    return False


class Gate(Standing):
    """``./test`` with a stand-in for all that it starts."""

    def setUp(self) -> None:
        super().setUp()
        for name in ("firmware/build", "firmware/test", "model/target/release/compare"):
            self.file(f"repository/{name}", "#!/bin/sh\necho $0\n", 0o755)
        self.file("kit/bin/cargo", "#!/bin/sh\n", 0o755)
        self.file("repository/host/tests/__init__.py", "")
        self.file("repository/host/tests/test_none.py", "import unittest\nclass One(unittest.TestCase):\n    def test(self): pass\n")

    def rt_ci(self, *lines: str) -> None:
        self.rt("rm -rf crates/*/out; mkdir -p crates/play/out; touch crates/play/out/play", *lines)

    def test_passed(self) -> None:
        self.rt_ci(proved("low"), proved("play"), f"echo '{OK}'", f"echo '{TALLY} (and more words)'")
        done = self.start(program="test")
        lines = done.stdout.decode().splitlines()
        self.assertEqual((done.returncode, lines[-1]), (0, TALLY), done.stderr)
        self.assertIn("test: crate 2 of 4: play proved, 0:00 so far", lines)
        self.assertIn("test: the host programs", lines)
        self.assertFalse((self.repository / "target" / "ci.log").exists())
        # What was proved here is proved for ./stick.
        self.rt("exit 1")
        self.assertIn(b"play is proved, and its sources are unchanged since", self.start("play", "-").stderr)

    def test_failed(self) -> None:
        self.rt_ci(proved("low"), "echo '== play'; echo 'a goal'; echo 'rt: play NOT PROVED'",
                   "echo '1 passed, 1 failed'", "exit 3")  # fmt: skip
        done = self.start(program="test")
        lines = done.stdout.decode().splitlines()
        self.assertEqual((done.returncode, lines[-1]), (3, "1 passed, 1 failed"))
        self.assertIn("a goal", lines)
        self.assertNotIn("test: the host programs", lines)
        self.assertIn(b"target/ci.log has all that rt ci said", done.stderr)
        log = (self.repository / "target" / "ci.log").read_text()
        self.assertIn("fn low::all: proved\nlogic=proved functions=1\nrt: low proved\n== play\na goal\nrt: play NOT PROVED", log)
        self.assertFalse((self.repository / "target" / "stick.stamp").exists())

    def test_a_bad_edit(self) -> None:
        """rt ci passes over it, and its last line says nothing of it."""
        bad = "echo 'rt: must-fail low/one.edit: BAD EDIT: so it is'"
        self.rt_ci(proved("low"), proved("play"), bad, f"echo '{OK.replace(' refused', ' refused, 2 bad')}'", f"echo '{TALLY}'")
        done = self.start(program="test")
        lines = done.stdout.decode().splitlines()
        self.assertEqual((done.returncode, lines[-1]), (1, "3 passed, 2 failed"), done.stderr)
        self.assertIn("rt: must-fail low/one.edit: BAD EDIT: so it is", lines)
        self.assertNotIn("test: the host programs", lines)
        self.assertIn(b"2 must-fail edits are bad; target/ci.log has all that rt ci said", done.stderr)

    def test_no_last_line(self) -> None:
        self.rt_ci("kill -9 $$")
        done = self.start(program="test")
        self.assertEqual((done.returncode, done.stdout.decode().splitlines()[-1]), (137, "0 passed, 1 failed"))


class Archive(Standing):
    """``firmware/build`` with a stand-in compiler."""

    def setUp(self) -> None:
        super().setUp()
        self.file("repository/crates.txt", "low:\nfirmware_c staticlib: low\n")
        compiler = '#!/bin/sh\nwhile [ "$1" != -o ]; do shift; done\ntouch "$2"\n'
        for name in ("gcc", "x86_64-linux-gnu-gcc"):
            self.file(f"kit/bin/{name}", compiler, 0o755)

    def test_first_and_then(self) -> None:
        self.rt(f"{{ {checked('low')}; }} >&2", "mkdir -p out", "echo built >out/libfirmware_c.a", checked("firmware_c"))
        done = self.start(program="firmware/build")
        self.assertEqual((done.returncode, done.stderr), (0, b""))
        lines = re.sub(r"\d:\d\d", "TIME", done.stdout.decode()).splitlines()
        self.assertEqual(
            lines,
            [
                "firmware: proving and building the archive (minutes the first time)",
                "firmware: crate 1 of 2: low proved, TIME so far",
                "firmware: crate 2 of 2: firmware_c proved, TIME so far",
            ],
        )
        self.assertEqual((self.repository / "target/staticlib/libfirmware.a").read_text(), "built\n")
        self.assertIn("fn low::all: proved\n", (self.repository / "target/firmware/staticlib.log").read_text())
        self.assertEqual(self.start(program="firmware/build").stdout, b"")
        self.file("repository/crates/low/src/lib.rt", "changed")
        (self.folder / "kit" / "bin" / "python3").unlink()
        done = self.start(program="firmware/build")
        self.assertEqual((done.returncode, done.stdout), (0, b"firmware: proving and building the archive\n"))

    def test_failed(self) -> None:
        self.rt(checked("low"), "echo 'a goal'", "exit 1")
        done = self.start(program="firmware/build")
        self.assertEqual(done.returncode, 2)
        self.assertIn(b"a goal\n", done.stdout)
        self.assertIn(b"rt lib in crates/firmware_c failed; target/firmware/staticlib.log tells why", done.stderr)


class Order(unittest.TestCase):
    def test_levels(self) -> None:
        crates = Crates(REPOSITORY)
        levels = crates.levels()
        self.assertEqual(sorted(name for level in levels for name in level), sorted(crates.uses))
        for at, level in enumerate(levels):
            below = {name for lower in levels[:at] for name in lower}
            for name in level:
                self.assertLessEqual(set(crates.uses[name]) & set(crates.uses), below)
        self.assertEqual(crates.reached("play")[-1], "play")
        self.assertEqual(sorted(crates.one_by_one("play")), sorted(crates.reached("play")))
        self.assertNotIn("demands", crates.reached("play"))


if __name__ == "__main__":
    unittest.main()
