"""The files of regular expressions and of affixes: which parts have a counterpart in fixed rules of lgparse."""
from __future__ import annotations

import re
from dataclasses import dataclass
from pathlib import Path

from .dictionary import Dictionary, Entry
from .errors import read_optional, unreadable
from .formula import Connector, walk
from .report import Kind, Place, Report
from .words import SPECIAL_WORDS

NAME = re.compile(r"<?([A-Z0-9-]+)>?\s*:\s*")
PATTERN = re.compile(r"!?/(?:\\.|[^/\\])*/(?:\.\\[0-9])?")

# What lgparse cuts off a piece, by the name of the list there.
CUT_OFF = {"RPUNC": set(".,;:!?)]}\"'"), "LPUNC": set("([{\"'"), "SUF": {"'s"}}


@dataclass(frozen=True)
class Class:
    """A regular expression and the special word that it stands for."""

    name: str
    pattern: str
    line: int


def read_classes(path: Path) -> list[Class]:
    """The regular expressions of a file, in their order."""
    text, at, found = read_optional(path), 0, []
    while (at := next_item(text, at)) < len(text):
        line = text.count("\n", 0, at) + 1
        name = NAME.match(text, at)
        pattern = PATTERN.match(text, name.end()) if name else None
        if name is None or pattern is None:
            raise unreadable(path, line, "NAME: /EXPRESSION/ wanted")
        found.append(Class(name.group(1), pattern.group(), line))
        at = pattern.end()
    return found


def next_item(text: str, at: int) -> int:
    """The place of what comes after white space and comments."""
    return re.compile(r"(?:\s|%[^\n]*)*").match(text, at).end()  # type: ignore[union-attr]


def report_classes(classes: list[Class], path: Path, report: Report) -> None:
    """Says which expressions have a counterpart."""
    for item in classes:
        kind = Kind.REGEX if item.name in SPECIAL_WORDS else Kind.REGEX_NONE
        report.add(kind, Place(path, item.line), f"{item.name}: {item.pattern}")


def report_affixes(folder: Path, report: Report) -> None:
    """Says which affixes are not cut off here, and which are cut off here alone."""
    path = folder / "4.0.affix"
    if not path.exists():
        return
    affixes = Dictionary(folder, Report(), {})
    affixes.read(path)
    missing = {name: set(signs) for name, signs in CUT_OFF.items()}
    for entry in affixes.entries:
        for name in list_names(entry):
            here = CUT_OFF.get(name, set())
            lost = [word for word in entry.words() if word not in here]
            missing.get(name, set()).difference_update(entry.words())
            if lost:
                report.add(Kind.AFFIX, entry.place, f"{name}: {' '.join(lost)}")
    for name, signs in missing.items():
        if signs:
            report.add(Kind.AFFIX_ADDED, Place(path, 1), f"{name}: {' '.join(sorted(signs))}")


def list_names(entry: Entry) -> list[str]:
    """The lists that an entry of the affix file belongs to."""
    return [part.letters for part in walk(entry.formula) if isinstance(part, Connector)]
