"""Formulas: what they are, what a limit of costs leaves of them, and how lgparse writes them."""
from __future__ import annotations

from collections.abc import Callable, Iterator
from dataclasses import dataclass
from typing import Union


@dataclass(frozen=True)
class Empty:
    """Nothing."""


@dataclass(frozen=True)
class Connector:
    """A connector; `mark` is `h`, `d` or empty, and the subscript has no `*` at its end."""

    multi: bool
    mark: str
    letters: str
    subscript: str
    sign: str


@dataclass(frozen=True)
class Macro:
    """The formula of a macro, by its name in angle brackets."""

    name: str


@dataclass(frozen=True)
class Maybe:
    """A formula or nothing."""

    body: Formula


@dataclass(frozen=True)
class Cost:
    """A formula at a cost, in thousandths."""

    body: Formula
    thousandths: int


@dataclass(frozen=True)
class And:
    """All of some formulas, in this order."""

    parts: tuple[Formula, ...]


@dataclass(frozen=True)
class Or:
    """One of some formulas."""

    parts: tuple[Formula, ...]


Formula = Union[Empty, Connector, Macro, Maybe, Cost, And, Or]
Spelling = Callable[[Connector], str]


def walk(formula: Formula) -> Iterator[Formula]:
    """A formula and all its parts."""
    waiting = [formula]
    while waiting:
        part = waiting.pop()
        yield part
        if isinstance(part, (And, Or)):
            waiting.extend(reversed(part.parts))
        elif isinstance(part, (Maybe, Cost)):
            waiting.append(part.body)


class Limit:
    """A limit of costs, after link-parser's: it holds for each part of a choice alone, with all brackets around that part."""

    def __init__(self, limit: int) -> None:
        self.limit = limit
        self.bodies: dict[str, Formula] = {}
        self.cuts: dict[tuple[str, int], Formula | None] = {}

    def define(self, name: str, body: Formula) -> Formula | None:
        """Gives a macro its formula, and returns what is left of it where no bracket stands around its name."""
        self.bodies[name] = body
        return self.macro(name, self.limit)

    def macro(self, name: str, room: int) -> Formula | None:
        """What is left of the formula of a macro."""
        if (name, room) not in self.cuts:
            self.cuts[name, room] = self.within(self.bodies[name], room)
        return self.cuts[name, room]

    def cut(self, formula: Formula) -> Formula | None:
        """The formula without what is dearer than the limit; nothing where no choice is left."""
        return self.within(formula, self.limit)

    def within(self, formula: Formula, room: int) -> Formula | None:
        """The same, where the brackets around the formula leave `room`."""
        if isinstance(formula, Cost):
            body = self.within(formula.body, room - formula.thousandths)
            return None if body is None else Cost(body, formula.thousandths)
        if isinstance(formula, And):
            return self.all_within(formula, room)
        if isinstance(formula, Or):
            kept = [part for part in (self.within(part, room) for part in formula.parts) if part is not None]
            return (kept[0] if len(kept) == 1 else Or(tuple(kept))) if kept else None
        if isinstance(formula, Macro):
            left = self.macro(formula.name, room)
            return formula if left is not None and left == self.macro(formula.name, self.limit) else left
        if isinstance(formula, Maybe) and room >= 0:
            body = self.within(formula.body, room)
            return Empty() if body is None else Maybe(body)
        return formula if room >= 0 else None

    def all_within(self, formula: And, room: int) -> Formula | None:
        """The same for an `and`: each part must have a choice left; parts of which nothing is left to link are dropped."""
        kept = [self.within(part, room) for part in formula.parts]
        if None in kept:
            return None
        parts = tuple(part for part, before in zip(kept, formula.parts) if part is not None and (part != Empty() or part == before))
        return (parts[0] if len(parts) == 1 else And(parts)) if parts else Empty()


def written(formula: Formula, spelling: Spelling) -> str:
    """A formula in the format of lgparse."""
    if isinstance(formula, (And, Or)):
        sign = " & " if isinstance(formula, And) else " or "
        return sign.join(bracketed(part, spelling) for part in formula.parts)
    if isinstance(formula, Maybe):
        return "{" + written(formula.body, spelling) + "}"
    if isinstance(formula, Cost):
        return "[" + written(formula.body, spelling) + "]" + cost_text(formula.thousandths)
    if isinstance(formula, Macro):
        return formula.name
    return spelling(formula) if isinstance(formula, Connector) else "()"


def bracketed(formula: Formula, spelling: Spelling) -> str:
    """A part of an `and` or an `or`, in round brackets where it is one itself."""
    text = written(formula, spelling)
    return f"({text})" if isinstance(formula, (And, Or)) else text


def cost_text(thousandths: int) -> str:
    """The number behind a square bracket; none for a cost of 1."""
    if thousandths == 1000:
        return ""
    sign, (whole, rest) = "-" * (thousandths < 0), divmod(abs(thousandths), 1000)
    return sign + f"{whole}.{rest:03d}".rstrip("0").rstrip(".")
