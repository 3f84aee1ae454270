"""Words and signs of the text of a dictionary of link-parser."""
from collections.abc import Iterator
from dataclasses import dataclass
from pathlib import Path

from .errors import unreadable

SIGNS = "(){};[]&^|:"


@dataclass(frozen=True)
class Token:
    """A sign, or a word without its quotes, and the line that it begins on."""

    text: str
    line: int
    is_sign: bool = False


def tokens(text: str, path: Path) -> Iterator[Token]:
    """The tokens of a text; a comment runs from `%` to the end of its line."""
    at, line = 0, 1
    while at < len(text):
        char = text[at]
        if char == "%":
            at = end_of_line(text, at)
        elif char.isspace():
            line += char == "\n"
            at += 1
        elif char in SIGNS:
            yield Token(char, line, True)
            at += 1
        else:
            word, at = word_at(text, at, path, line)
            yield Token(word, line)


def end_of_line(text: str, at: int) -> int:
    """Where the line that holds a place ends."""
    end = text.find("\n", at)
    return len(text) if end < 0 else end


def word_at(text: str, at: int, path: Path, line: int) -> tuple[str, int]:
    """The word that begins at a place, and the place after it; a part in quotes ends it."""
    start = at
    while at < len(text) and text[at] not in SIGNS + "%" and not text[at].isspace():
        if text[at] == '"':
            end = closing_quote(text, at + 1)
            if end < 0:
                raise unreadable(path, line, "a quote that is not closed")
            return text[start:at] + text[at + 1:end], end + 1
        at += 1
    return text[start:at], at


def closing_quote(text: str, at: int) -> int:
    """The first quote on the line, from a place on, with white space, `:`, `;` or nothing after it; -1 without one."""
    limit = end_of_line(text, at)
    end = text.find('"', at, limit)
    while end >= 0 and end + 1 < len(text) and not (text[end + 1] in ":;" or text[end + 1].isspace()):
        end = text.find('"', end + 1, limit)
    return end
