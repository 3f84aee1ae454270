"""The entries of a dictionary of link-parser, with the files that it includes and the word files that it names."""
from __future__ import annotations

import re
from collections.abc import Iterator, Mapping
from dataclasses import dataclass, field
from decimal import Decimal
from itertools import permutations
from pathlib import Path

from .dialect import NEVER
from .errors import read_text, unreadable
from .formula import And, Connector, Cost, Empty, Formula, Macro, Maybe, Or
from .report import Kind, Place, Report
from .tokens import Token, tokens
from .words import is_idiom

CONNECTOR = re.compile(r"(@?)([hd]?)([A-Z]+)([a-z0-9*]*)([+-])$")
NUMBER = re.compile(r"[-+]?([0-9]+\.?[0-9]*|\.[0-9]+)$")
DIALECT = re.compile(r"[a-z][\w-]*$")
AFFIX_REGEX = re.compile(r"/.*/\.\\[0-9]$")
OPERATORS = {"&": "and", "and": "and", "|": "or", "or": "or", "^": "sym", "sym": "sym"}
CLOSING = {"(": ")", "[": "]", "{": "}"}
MOST_SYMMETRIC = 5


@dataclass(frozen=True)
class Item:
    """A word of an entry, or the words of a word file."""

    words: tuple[str, ...]
    file: Path | None = None


@dataclass(frozen=True)
class Entry:
    """Words, macros among them, with their formula."""

    place: Place
    items: tuple[Item, ...]
    formula: Formula

    def words(self) -> Iterator[str]:
        """All words, those of word files too."""
        for item in self.items:
            yield from item.words


@dataclass
class Dictionary:
    """The entries in their order, the lines `#define`, and the first formula of each word."""

    folder: Path
    report: Report
    dialects: Mapping[str, int]
    entries: list[Entry] = field(default_factory=list)
    defines: dict[str, str] = field(default_factory=dict)
    formulas: dict[str, Formula] = field(default_factory=dict)

    def read(self, path: Path, above: tuple[Path, ...] = ()) -> None:
        """Reads a file and all that it includes; `above` are the files that include it."""
        Reader(self, path, (*above, path)).read()

    def find(self, name: str) -> Path:
        """The file of an include or of a word file: a name after a `/` begins beside the folder, another one in it."""
        inside, beside = self.folder / name.lstrip("/"), self.folder.parent / name.lstrip("/")
        order = (beside, inside) if name.startswith("/") else (inside, beside)
        return next((path for path in order if path.exists()), order[0])

    def add(self, entry: Entry) -> None:
        """Adds an entry. Of a word that is not an idiom the first formula stays."""
        self.entries.append(entry)
        for word in entry.words():
            if is_idiom(word):
                self.formulas[word] = entry.formula
            else:
                self.formulas.setdefault(word, entry.formula)


class Reader:
    """The reader of one file."""

    def __init__(self, dictionary: Dictionary, path: Path, above: tuple[Path, ...]) -> None:
        self.dictionary = dictionary
        self.path = path
        self.above = above
        text = read_text(path)
        self.tokens = list(tokens(text, path))
        self.end = Token("", text.count("\n") + 1, True)
        self.at = 0

    def peek(self) -> Token:
        """The next token, or an empty sign at the end."""
        return self.tokens[self.at] if self.at < len(self.tokens) else self.end

    def take(self) -> Token:
        """The next token, which is passed."""
        token = self.peek()
        self.at += 1
        return token

    def want(self, sign: str) -> None:
        """Passes a sign, which must stand here."""
        token = self.take()
        if not token.is_sign or token.text != sign:
            raise self.fault(token, f"{sign} wanted, {token.text or 'the end'} found")

    def fault(self, token: Token, message: str) -> Exception:
        """An error at a token."""
        return unreadable(self.path, token.line, message)

    def note(self, kind: Kind, token: Token, text: str) -> None:
        """A change at a token."""
        self.dictionary.report.add(kind, Place(self.path, token.line), text)

    def read(self) -> None:
        """All lines that begin with `#` and all entries."""
        while self.at < len(self.tokens):
            token = self.peek()
            if token.text == "#define" and not token.is_sign:
                self.define()
            elif token.text == "#include" and not token.is_sign:
                self.include()
            else:
                self.dictionary.add(self.entry())

    def define(self) -> None:
        """`#define NAME VALUE;`"""
        start, name, value = self.take(), self.take().text, self.take().text
        self.want(";")
        self.dictionary.defines[name] = value
        self.note(Kind.DEFINE, start, f"{name} {value}")

    def include(self) -> None:
        """`#include FILE`, with a semicolon or without."""
        start, name = self.take(), self.take()
        if self.peek().is_sign and self.peek().text == ";":
            self.take()
        path = self.dictionary.find(name.text)
        if path in self.above:
            raise self.fault(start, f"{name.text} includes itself")
        self.dictionary.read(path, self.above)

    def entry(self) -> Entry:
        """`WORD .. : FORMULA ;`"""
        start, items = self.peek(), []
        while not (self.peek().is_sign and self.peek().text == ":"):
            token = self.take()
            if token.is_sign:
                raise self.fault(token, f"a word or : wanted, {token.text or 'the end'} found")
            items.append(self.item(token))
        self.want(":")
        formula = self.formula()
        self.want(";")
        return Entry(Place(self.path, start.line), tuple(items), formula)

    def item(self, token: Token) -> Item:
        """A word, or a word file where it begins with `/`."""
        text = token.text
        if len(text) < 2 or text[0] != "/" or text[1] == "." or AFFIX_REGEX.match(text):
            return Item((text,))
        path = self.dictionary.find(text)
        return Item(tuple(read_text(path).split()), path)

    def formula(self) -> Formula:
        """Parts with one operator between them."""
        parts, operator = [self.part()], None
        while (found := self.operator()) is not None:
            if operator not in (None, found):
                raise self.fault(self.peek(), "different operators without brackets")
            operator = found
            self.take()
            parts.append(self.part())
        return self.joined(parts, operator)

    def operator(self) -> str | None:
        """The operator that stands here, if one does."""
        return OPERATORS.get(self.peek().text)

    def joined(self, parts: list[Formula], operator: str | None) -> Formula:
        """Parts under their operator."""
        if operator is None:
            return parts[0]
        if operator == "or":
            return Or(tuple(parts))
        if operator == "and":
            return And(tuple(parts))
        if len(parts) > MOST_SYMMETRIC:
            raise self.fault(self.peek(), f"a symmetric and of more than {MOST_SYMMETRIC} parts")
        self.note(Kind.SYMMETRIC, self.peek(), f"{len(parts)} parts")
        return Or(tuple(And(order) for order in permutations(parts)))

    def part(self) -> Formula:
        """A connector, a name, brackets, or nothing before a closing bracket."""
        token = self.peek()
        if not token.is_sign:
            return self.named(self.take())
        if token.text in CLOSING.values():
            return Empty()
        if token.text not in CLOSING:
            raise self.fault(token, f"a formula wanted, {token.text or 'the end'} found")
        self.take()
        body = self.formula()
        self.want(CLOSING[token.text])
        if token.text == "{":
            return Maybe(body)
        return body if token.text == "(" else self.priced(body)

    def priced(self, body: Formula) -> Formula:
        """A formula in square brackets, with the number or the dialect that may come behind them."""
        token = self.peek()
        if token.is_sign or token.text in OPERATORS:
            return Cost(body, 1000)
        if NUMBER.match(token.text):
            exact = Decimal(self.take().text) * 1000
            if exact != round(exact):
                self.note(Kind.ROUNDED, token, token.text)
            return Cost(body, round(exact)) if round(exact) else body
        if not DIALECT.match(token.text):
            raise self.fault(token, f"a cost wanted, {token.text} found")
        cost = self.dictionary.dialects.get(self.take().text, NEVER)
        self.note(Kind.DIALECT, token, f"{token.text}: {'never used' if cost >= NEVER else cost / 1000}")
        return Cost(body, cost) if cost else body

    def named(self, token: Token) -> Formula:
        """A connector, a macro or a word of an earlier entry."""
        if match := CONNECTOR.match(token.text):
            multi, mark, letters, subscript, sign = match.groups()
            if re.search("[0-9]", subscript):
                raise self.fault(token, f"a digit in a connector has no counterpart: {token.text}")
            return Connector(bool(multi), mark, letters, subscript.rstrip("*"), sign)
        if token.text not in self.dictionary.formulas:
            raise self.fault(token, f"neither a connector nor a word of an earlier entry: {token.text}")
        if is_macro(token.text):
            return Macro(token.text)
        self.note(Kind.NAMED_WORD, token, token.text)
        return self.dictionary.formulas[token.text]


def is_macro(word: str) -> bool:
    """Whether a word is a name in angle brackets."""
    return len(word) > 2 and word[0] == "<" and word[-1] == ">"
