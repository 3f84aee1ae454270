"""The knowledge file of link-parser, and the rules of lgparse that come nearest to it."""
from __future__ import annotations

import re
from dataclasses import dataclass, field
from pathlib import Path

from .errors import unreadable
from .labels import Lean, Links
from .report import Kind, Place, Report

TOKEN = re.compile(r';[^\n]*|"[^"]*"|,|[^\s,;"]+')
PATTERN = re.compile(r"([A-Z]+)([a-z#*]*)$")

STARTS = "STARTING_LINK_TYPE_TABLE"
INSIDE = "DOMAIN_CONTAINS_LINKS"
IGNORED = "IGNORE_THESE_LINKS"
TO_THE_LEFT = ("URFL_DOMAIN_STARTER_LINKS", "URFL_ONLY_DOMAIN_STARTER_LINKS", "LEFT_DOMAIN_STARTER_LINKS")
CYCLES = "FORM_A_CYCLE_RULES"
CONTAINS = {"CONTAINS_ONE_RULES": "one-in-group", "CONTAINS_NONE_RULES": "none-in-group"}
BOUNDED = "BOUNDED_RULES"
LOST = ("RESTRICTED_LINKS",)


@dataclass(frozen=True)
class Piece:
    """A token of the file, and its line."""

    text: str
    line: int


@dataclass(frozen=True)
class Rule:
    """What a rule looks at, what it asks for or forbids, if it has such a part, and what is said where it is broken."""

    links: list[Piece]
    others: list[Piece]
    message: str


Sections = dict[str, list[Piece]]


def read_sections(text: str, path: Path) -> Sections:
    """The tokens of each section, by its name; those with `@` stand for all tokens of another section, which is put in."""
    found: Sections = {}
    current: list[Piece] | None = None
    for match in TOKEN.finditer(text):
        piece = Piece(match.group(), text.count("\n", 0, match.start()) + 1)
        if piece.text.startswith(";"):
            continue
        if piece.text.endswith(":"):
            current = found.setdefault(piece.text[:-1], [])
        elif current is None:
            raise unreadable(path, piece.line, f"a section wanted, {piece.text} found")
        elif piece.text.startswith("@"):
            current.extend(members(found, piece, path))
        else:
            current.append(piece)
    return found


def members(found: Sections, piece: Piece, path: Path) -> list[Piece]:
    """The tokens of the set that a token with `@` names; their line is that of the name."""
    if piece.text[1:] not in found:
        raise unreadable(path, piece.line, f"no section before this line is named {piece.text[1:]}")
    return [Piece(member.text, piece.line) for member in found[piece.text[1:]]]


def groups(pieces: list[Piece]) -> list[list[Piece]]:
    """The parts of a section between its commas; nothing may follow the last comma."""
    parts: list[list[Piece]] = [[]]
    for piece in pieces:
        if piece.text == ",":
            parts.append([])
        else:
            parts[-1].append(piece)
    return parts if parts[-1] else parts[:-1]


def patterns_in(sections: Sections) -> list[tuple[str, str]]:
    """All patterns that the statements here may have: capital letters, and what comes after them."""
    used = (STARTS, IGNORED, CYCLES, *CONTAINS)
    found = [PATTERN.match(piece.text) for section in used for piece in sections.get(section, [])]
    return [(match.group(1), match.group(2)) for match in found if match]


@dataclass
class Translator:
    """Writes the statements of lgparse; `links` tells which labels there can be."""

    sections: Sections
    path: Path
    links: Links
    report: Report
    lines: list[str] = field(default_factory=list)
    kinds: list[str] = field(default_factory=list)

    def text(self) -> str:
        """All statements."""
        self.sections_without_counterpart()
        self.starts()
        self.ignored()
        for name in self.sections:
            if name == CYCLES:
                self.cycles()
            elif name in CONTAINS:
                self.contains(name)
            elif name == BOUNDED:
                self.bounded()
        return "".join(line + "\n" for line in self.lines)

    def note(self, kind: Kind, piece: Piece, text: str) -> None:
        """A change at a token."""
        self.report.add(kind, Place(self.path, piece.line), text)

    def fault(self, piece: Piece, message: str) -> Exception:
        """An error at a token."""
        return unreadable(self.path, piece.line, message)

    def sections_without_counterpart(self) -> None:
        """Notes each of them that is not empty."""
        for name in LOST:
            if pieces := self.sections.get(name):
                self.note(Kind.KNOWLEDGE_SECTION, pieces[0], f"{name}: {joined(pieces)}")

    def names(self, *sections: str) -> set[str]:
        """The tokens of some sections."""
        return {piece.text for section in sections for piece in self.sections.get(section, [])}

    def starts(self) -> None:
        """The start links of each kind of domain, in the order of the kinds."""
        pieces = self.sections.get(STARTS, [])
        if len(pieces) % 2:
            raise self.fault(pieces[-1], f"a kind of domain wanted after {pieces[-1].text}")
        found: dict[str, list[str]] = {}
        for pattern, kind in zip(pieces[::2], pieces[1::2]):
            if not re.match("[a-z]$", kind.text):
                raise self.fault(kind, f"a kind of domain is one small letter: {kind.text}")
            if self.starts_here(pattern):
                found.setdefault(kind.text, []).extend(self.patterns(pattern, Lean.WIDER))
        for letter, patterns in found.items():
            self.lines.append(f"start: {letter} {' '.join(unique(patterns))};")
        self.kinds = list(found)

    def starts_here(self, pattern: Piece) -> bool:
        """Whether a start link has a domain to its right; notes where it has not, and where it is not in its own domain."""
        if pattern.text in self.names(*TO_THE_LEFT):
            self.note(Kind.START_LEFT, pattern, pattern.text)
            return False
        if pattern.text not in self.names(INSIDE):
            self.note(Kind.START_INSIDE, pattern, pattern.text)
        return True

    def ignored(self) -> None:
        """The links that are not followed."""
        patterns = [text for piece in self.sections.get(IGNORED, []) for text in self.patterns(piece, Lean.NARROWER)]
        if patterns:
            self.lines.append(f"ignore: {' '.join(unique(patterns))};")

    def cycles(self) -> None:
        """Links that are part of a cycle."""
        for rule in self.rules(CYCLES, 2):
            if len(rule.links) > 1:
                self.note(Kind.CYCLE, rule.links[0], joined(rule.links))
            patterns = [text for piece in rule.links for text in self.patterns(piece, Lean.NARROWER)]
            self.lines += [f"cycle: {text}; % {rule.message}" for text in unique(patterns)]

    def contains(self, section: str) -> None:
        """Rules that ask for some link of a list, or for none, among the links of a domain."""
        lean = Lean.WIDER if CONTAINS[section] == "one-in-group" else Lean.NARROWER
        for rule in self.rules(section, 3):
            if len(rule.links) != 1:
                raise self.fault(rule.links[1], f"a comma wanted, {rule.links[1].text} found")
            wanted = unique([text for piece in rule.others for text in self.patterns(piece, lean)])
            triggers = self.patterns(rule.links[0], Lean.NARROWER)
            if not wanted or not triggers:
                self.note(Kind.RULE_NONE, rule.links[0], f"{rule.links[0].text} {rule.message}")
                continue
            self.lines += [f"{CONTAINS[section]}: {text} {{ {' '.join(wanted)} }}; % {rule.message}" for text in triggers]

    def bounded(self) -> None:
        """Kinds of domains whose links stay to the right of their root."""
        for rule in self.rules(BOUNDED, 2):
            kind = rule.links[0]
            if kind.text in self.kinds:
                self.lines.append(f"bounded: {kind.text}; % {rule.message}")
            else:
                self.note(Kind.BOUNDED_LEFT, kind, f"{kind.text} {rule.message}")

    def rules(self, section: str, count: int) -> list[Rule]:
        """The rules of a section, which have two parts or three."""
        parts = groups(self.sections[section])
        if not all(parts) or len(parts) % count:
            raise self.fault(self.sections[section][-1], f"{section}: a rule has {count} parts with commas between them")
        found = [parts[at:at + count] for at in range(0, len(parts), count)]
        return [Rule(rule[0], rule[1] if count == 3 else [], message_of(rule[-1])) for rule in found]

    def patterns(self, piece: Piece, lean: Lean) -> list[str]:
        """What a pattern becomes; notes where it fits other labels."""
        match = PATTERN.match(piece.text)
        if match is None:
            raise self.fault(piece, f"a pattern wanted, {piece.text} found")
        found = self.links.translated(match.group(1), match.group(2), lean)
        if found.changed:
            kind = Kind.PATTERN_WIDER if lean is Lean.WIDER else Kind.PATTERN_NARROWER if found.patterns else Kind.PATTERN_NONE
            self.note(kind, piece, f"{piece.text} becomes {' '.join(found.patterns) or 'nothing'}: {' '.join(found.changed)}")
        return list(found.patterns)


def joined(pieces: list[Piece]) -> str:
    """The texts of some tokens."""
    return " ".join(piece.text for piece in pieces)


def message_of(pieces: list[Piece]) -> str:
    """The message of a rule, without quotes and on one line."""
    return " ".join(joined(pieces).strip('"').split())


def unique(texts: list[str]) -> list[str]:
    """Each text once, in the order of the first."""
    return list(dict.fromkeys(texts))
