"""How words are written: their subscripts, the special words, and quotes."""
import re

SPECIAL_WORDS = ("UNKNOWN-WORD", "NUMBERS", "CAPITALIZED-WORDS", "HYPHENATED-WORDS")
WALLS = ("LEFT-WALL", "RIGHT-WALL")

SUBSCRIPT = re.compile(r"[a-z][a-z0-9_-]*$")
IN_BRACKETS = re.compile(r"<([A-Z0-9-]+)>(\..*)?$")
PLAIN = re.compile(r"[^\W_][\w.'-]*$")
OPERATORS = ("and", "or", "sym")


def split_word(word: str) -> tuple[str, str | None]:
    """The stem and the subscript as link-parser sees them: behind the last point, unless a digit or no ASCII follows it."""
    at = word.rfind(".")
    if at < 0 or at + 1 == len(word) or not word[at + 1].isascii() or word[at + 1].isdigit():
        return word, None
    return word[:at], word[at + 1:]


def is_idiom(word: str) -> bool:
    """Whether a word stands for a row of words, which underscores part."""
    return "_" in split_word(word)[0][1:]


def class_and_word(word: str) -> tuple[str, str]:
    """The name that a word would have as a special word, and the word without angle brackets around that name."""
    found = IN_BRACKETS.match(word)
    return (found.group(1), found.group(1) + (found.group(2) or "")) if found else (split_word(word)[0], word)


def with_seen_subscript(word: str) -> str:
    """The word with a subscript that lgparse sees, where link-parser sees one."""
    stem, subscript = split_word(word)
    if subscript is None or SUBSCRIPT.match(subscript):
        return word
    return f"{stem}.x-" + re.sub(r"[^a-z0-9_-]", "", subscript.lower()).lstrip("-")


def numbered(word: str, number: int) -> str:
    """An idiom that is defined again, with a subscript of its own."""
    return f"{word}{'.i' if split_word(word)[1] is None else '-'}{number}"


def item_text(word: str) -> str:
    """A word as an entry has it, in quotes where it needs them; it has no quote in it."""
    return word if PLAIN.match(word) and word not in OPERATORS else f'"{word}"'
