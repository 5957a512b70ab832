"""The words behind a word of the command: its options and operands."""

from __future__ import annotations

from .errors import StickError


class Usage(StickError):
    """Words that make no sense."""


def operands(
    word: str,
    words: list[str],
    count: int,
    what: str = "no more words",
    more: int | None = 0,
    help_word: str = "",
) -> None:
    """Nothing but so many operands is left, or a few more; or any number."""
    wrong = [each for each in words if each.startswith("-") and each != "-"]
    help_word = help_word or (f"{word} --help" if " " in word else "--help")
    if wrong:
        raise Usage(f"{word} has no option '{wrong[0]}' (try ./stick {help_word})")
    if len(words) < count or more is not None and len(words) > count + more:
        end = " and no more words" if (count or more) and more is not None else ""
        raise Usage(f"{word} takes {what}{end} (try ./stick {help_word})")


def option(words: list[str], name: str) -> tuple[list[str], str | None]:
    """The words without an option, and its operand."""
    if name not in words:
        return words, None
    at = words.index(name)
    if at + 1 == len(words):
        raise Usage(f"{name} needs a word after it")
    return words[:at] + words[at + 2 :], words[at + 1]


def options(words: list[str], name: str) -> tuple[list[str], list[str]]:
    """The words without an option that may be given several times, and its
    operands."""
    found = []
    while name in words:
        words, operand = option(words, name)
        found += [] if operand is None else [operand]
    return words, found


def flag(words: list[str], name: str) -> tuple[list[str], bool]:
    """The words without an option that has no operand, and whether it was
    there."""
    return [word for word in words if word != name], name in words
