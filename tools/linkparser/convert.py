"""A dictionary of link-parser as one of lgparse: what is kept of it, and how its words are written."""
from __future__ import annotations

from dataclasses import dataclass, field
from itertools import count
from pathlib import Path

from .dictionary import Dictionary, Entry, Item, is_macro
from .formula import Connector, Formula, Limit, Macro, walk, written
from .labels import Links
from .report import Kind, Place, Report
from .words import SPECIAL_WORDS, WALLS, class_and_word, is_idiom, item_text, numbered, with_seen_subscript

WIDTH = 120


@dataclass(frozen=True)
class Kept:
    """An entry and what is left of its formula within the cost limit."""

    entry: Entry
    formula: Formula


@dataclass
class Group:
    """The words of an entry as they are written: in the text, and in word files."""

    place: Place
    macros: list[str] = field(default_factory=list)
    words: list[str] = field(default_factory=list)
    files: dict[str, list[str]] = field(default_factory=dict)


@dataclass
class Converter:
    """A conversion.

    `classes` has the names of regular expressions, `limit` is the highest cost of a disjunct, in thousandths, and connectors
    have further letters for `patterns`.
    """

    dictionary: Dictionary
    classes: set[str]
    limit: int
    patterns: list[tuple[str, str]]
    report: Report
    links: Links = field(default_factory=Links)
    seen: set[str] = field(default_factory=set)
    written: set[str] = field(default_factory=set)
    files: dict[str, list[str]] = field(default_factory=dict)

    def text(self) -> str:
        """The dictionary in the format of lgparse; the words of its word files come into `files`."""
        entries = self.kept()
        self.links = Links.of(connectors(entries), self.patterns)
        self.report_marks(entries)
        used = {part.name for kept in entries for part in walk(kept.formula) if isinstance(part, Macro)}
        rows = [row for kept in entries for row in self.rows(kept, used)]
        words = sum(len(group) for group in self.files.values())
        macros = sum(is_macro(word) for word in self.written)
        self.report.figures.append(
            f"{len(entries)} entries, {len(self.written) - macros} words, {words} of them in {len(self.files)} word files, {macros} macros")
        return "".join(rows)

    def kept(self) -> list[Kept]:
        """The entries of which something is left within the limit."""
        limit = Limit(self.limit)
        found = []
        for entry in self.dictionary.entries:
            if is_length_limit(entry):
                self.report.add(Kind.LENGTH_LIMIT, entry.place, shortened(entry))
                continue
            formula = limit.cut(entry.formula)
            for word in filter(is_macro, entry.words()):
                if word not in limit.bodies:
                    limit.define(word, entry.formula)
            if formula is None:
                self.report.add(Kind.COST_LIMIT_ENTRY, entry.place, shortened(entry))
            else:
                found.append(Kept(entry, formula))
                if formula != entry.formula:
                    self.report.add(Kind.COST_LIMIT, entry.place, shortened(entry))
        return found

    def report_marks(self, entries: list[Kept]) -> None:
        """Notes the entries with marks of heads and dependents, and what became of these."""
        for kept in entries:
            marked = {part.letters for part in walk(kept.formula) if isinstance(part, Connector) and part.mark}
            if marked:
                names = [f"{letters} (a further letter)" if letters in self.links.marked else letters for letters in sorted(marked)]
                self.report.add(Kind.MARK, kept.entry.place, f"{shortened(kept.entry)}: {', '.join(names)}")

    def rows(self, kept: Kept, used: set[str]) -> list[str]:
        """The entries that one becomes: its macros, and then its words, which name the first of them."""
        group = Group(kept.entry.place)
        for item in kept.entry.items:
            for word in item.words:
                self.place(group, item, word, used)
        formula = written(kept.formula, self.links.spelled)
        rows = []
        if group.macros:
            rows.append(entry_text(group.macros, formula))
        items = group.words + [f"/{name}" for name in group.files]
        if items:
            rows.append(entry_text(items, group.macros[0] if group.macros else formula))
        for name, words in group.files.items():
            self.files[name] = words
        return rows

    def place(self, group: Group, item: Item, word: str, used: set[str]) -> None:
        """Puts a word where it is written, or notes why it is not."""
        if word in self.seen and not is_idiom(word):
            self.report.add(Kind.DUPLICATE, group.place, word)
            return
        if word in used:
            group.macros.append(word)
            self.written.add(word)
        name, bare = class_and_word(word)
        if name in SPECIAL_WORDS or name in WALLS:
            self.put(group, item, bare)
        elif name in self.classes:
            self.report.add(Kind.CLASS, group.place, word)
        elif not is_macro(word):
            self.put(group, item, self.own(group, word))
        elif word not in used:
            self.report.add(Kind.UNUSED_MACRO, group.place, word)
        self.seen.add(word)

    def own(self, group: Group, word: str) -> str:
        """The word, with a subscript of its own where it is an idiom that was there before."""
        if not is_idiom(word):
            return word
        self.report.add(Kind.IDIOM, group.place, word)
        if word not in self.seen:
            return word
        again = next(name for name in (numbered(word, number) for number in count(2)) if name not in self.seen)
        self.seen.add(again)
        self.report.add(Kind.IDIOM_AGAIN, group.place, f"{word} becomes {again}")
        return again

    def put(self, group: Group, item: Item, word: str) -> None:
        """Writes a word into its word file or into the text."""
        spelled = with_seen_subscript(word)
        if spelled != word:
            self.report.add(Kind.SUBSCRIPT, group.place, f"{word} becomes {spelled}")
        if spelled in self.written:
            self.report.add(Kind.COLLISION, group.place, f"{word} as {spelled}")
            return
        if any(char.isspace() for char in spelled):
            self.report.add(Kind.UNWRITABLE, group.place, word)
            return
        self.written.add(spelled)
        if item.file is not None:
            group.files.setdefault(self.file_name(group, item.file), []).append(spelled)
        elif '"' in spelled:
            group.files.setdefault(f"words/quotes-{group.place.line}", []).append(spelled)
        else:
            group.words.append(item_text(spelled))

    def file_name(self, group: Group, path: Path) -> str:
        """The name of a word file; one that another entry has too gets a name of its own."""
        name = f"words/{path.name}"
        return f"{name}-{group.place.line}" if name in self.files else name


def connectors(entries: list[Kept]) -> set[Connector]:
    """All connectors that are left."""
    return {part for kept in entries for part in walk(kept.formula) if isinstance(part, Connector)}


def is_length_limit(entry: Entry) -> bool:
    """Whether an entry says how long links may be."""
    return any(word == "UNLIMITED-CONNECTORS" or word.startswith("LENGTH-LIMIT-") for word in entry.words())


def shortened(entry: Entry) -> str:
    """The first words of an entry, for the report."""
    words = list(entry.words())
    return " ".join(words[:4]) + (f" .. ({len(words)} words)" if len(words) > 4 else "")


def entry_text(items: list[str], formula: str) -> str:
    """An entry: its words on lines of some length, and its formula on a line of its own."""
    lines = [""]
    for item in items:
        if lines[-1] and len(lines[-1]) + len(item) >= WIDTH:
            lines.append("")
        lines[-1] += (" " if lines[-1] else "") + item
    return "\n".join(lines) + f":\n  {formula};\n"
