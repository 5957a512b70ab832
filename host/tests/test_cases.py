"""``./stick cases``: the papers' cases agree, and one that does not is told."""

from __future__ import annotations

import io
import re
import unittest
from collections.abc import Callable
from contextlib import redirect_stderr, redirect_stdout
from unittest import mock

from fixlomand import cases, command
from fixlomand.cases import Bench, Case

from .running import NO_PLAY, PLAY, last_line, run


def played(*functions: Callable[[Bench], None]) -> tuple[int, list[str]]:
    """The end status and the lines of the command with these cases in place of the papers'."""
    output = io.TextIOWrapper(io.BytesIO(), encoding="utf-8")
    those = [Case("nowhere", "no rule", function) for function in functions]
    with mock.patch.object(cases, "CASES", those), redirect_stdout(output), redirect_stderr(io.StringIO()):
        status = command.main(["cases"])
    output.seek(0)
    return status, output.read().splitlines()


def true_case(bench: Bench) -> None:
    bench.editor()
    bench.put(b"A")
    bench.row(0, b"A")


def false_cell(bench: Bench) -> None:
    bench.open(b"S:", 8, 3)
    bench.put(b"\x05")
    bench.same(5, bench.state.screen[0])


def false_status(bench: Bench) -> None:
    bench.open(b"E:", 8, status=0x81)


def false_key(bench: Bench) -> None:
    bench.keyboard()
    bench.key(0x3F, 0x61)


def false_record(bench: Bench) -> None:
    bench.editor()
    bench.put(b"AB\x9b\x1c")
    bench.get_record(2, b"A\x9b")


def compares_nothing(bench: Bench) -> None:
    pass


@unittest.skipUnless(PLAY, NO_PLAY)
class Cases(unittest.TestCase):
    def test_all_agree(self) -> None:
        done = run("cases")
        lines = done.stdout.decode().splitlines()
        self.assertEqual(lines[-1], f"{len(cases.CASES)} cases, 0 wrong")
        self.assertEqual((done.returncode, len(lines)), (0, len(cases.CASES) + 1))
        for number, line in enumerate(lines[:-1], 1):
            self.assertRegex(line, rf"^ok {number}  \S.*: \S")

    def test_every_bench_case(self) -> None:
        numbers = [re.match(r"01-scope case (\d+)", each.place) for each in cases.CASES]
        self.assertEqual([int(found[1]) for found in numbers if found], list(range(1, 13)))

    def test_a_false_expectation(self) -> None:
        status, lines = played(true_case, false_cell, true_case)
        self.assertEqual(status, 1)
        self.assertEqual(
            lines,
            [
                "ok 1  nowhere: no rule",
                "WRONG 2  nowhere: no rule: expected 5, got 1",
                "ok 3  nowhere: no rule",
                "3 cases, 1 wrong",
            ],
        )

    def test_what_was_expected_and_what_came(self) -> None:
        for function, words in (
            (false_status, "expected status $81 count 0 A $00, got status $01 count 0 A $00"),
            (
                false_key,
                "expected (key $3F, status $01 count 0 A $61), got (key $3F, status $01 count 0 A $41)",
            ),
            (false_record, "expected status $01 count 2 A $00, got status $89 count 2 A $00"),
            (compares_nothing, "expected something compared, got nothing"),
        ):
            with self.subTest(function=function.__name__):
                self.assertEqual(
                    played(function), (1, [f"WRONG 1  nowhere: no rule: {words}", "1 cases, 1 wrong"])
                )


class Words(unittest.TestCase):
    def test_help_and_bad_words(self) -> None:
        self.assertIn(b"  stick cases ", run("--help").stdout)
        done = run("cases", "twice")
        self.assertEqual((done.returncode, done.stdout), (2, b""))
        self.assertEqual(last_line(done), "stick: cases takes no more words (try ./stick --help)")

    def test_a_play_that_ends(self) -> None:
        done = run("cases", FIXLOMAND_PLAY="true")
        self.assertEqual((done.returncode, last_line(done)), (1, "stick: play has ended"))


if __name__ == "__main__":
    unittest.main()
