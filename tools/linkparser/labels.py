"""The labels that links can have by a dictionary, marks of heads and dependents, and patterns of the knowledge."""
from __future__ import annotations

from collections.abc import Iterable
from dataclasses import dataclass, field
from enum import Enum, auto

from .formula import Connector


# The further letter for a place without a letter.
NONE = "n"


class Lean(Enum):
    """What a pattern becomes that has no exact counterpart."""

    WIDER = auto()
    NARROWER = auto()


@dataclass(frozen=True)
class Translation:
    """The patterns here for one there, and the labels that it fits too many or too few."""

    patterns: tuple[str, ...]
    changed: tuple[str, ...]


@dataclass
class Links:
    """The connectors of a dictionary, by their capital letters, and what follows from them."""

    connectors: dict[str, set[Connector]] = field(default_factory=dict)
    marked: set[str] = field(default_factory=set)
    widths: dict[str, int] = field(default_factory=dict)
    labels: dict[str, frozenset[str]] = field(default_factory=dict)
    told: dict[str, list[int]] = field(default_factory=dict)

    @classmethod
    def of(cls, connectors: Iterable[Connector], patterns: Iterable[tuple[str, str]] = ()) -> Links:
        """What a set of connectors allows. For the patterns, connectors tell by further letters where they have no letter."""
        links = cls()
        for connector in connectors:
            links.connectors.setdefault(connector.letters, set()).add(connector)
        for letters, group in links.connectors.items():
            links.widths[letters] = max(len(connector.subscript) for connector in group)
            links.labels[letters] = frozenset(labels_of(group))
            if marks_decide(group):
                links.marked.add(letters)
        for letters, rest in patterns:
            if links.excess(letters, rest):
                places = [at for at, letter in enumerate(rest) if letter == "*"]
                links.told[letters] = sorted({*links.told.get(letters, []), *places})
        return links

    def spelled(self, connector: Connector) -> str:
        """A connector as lgparse reads it."""
        return ("@" if connector.multi else "") + connector.letters + self.subscript(connector) + connector.sign

    def subscript(self, connector: Connector) -> str:
        """The subscript of a connector, with further letters where they are needed.

        Where marks decide, one differs where the marks are equal. For each place where a pattern asks for no letter, two
        letters tell whether the connector to the right has none there, and whether the one to the left has none.
        """
        letters, width = connector.letters, self.widths[connector.letters]
        subscript = connector.subscript.ljust(width, "*")
        if letters in self.marked:
            subscript += {"": "*", "h+": "h", "d-": "h"}.get(connector.mark and connector.mark + connector.sign, "d")
        for place in self.told.get(letters, []):
            none = NONE if subscript[place] == "*" else "*"
            subscript += none + "*" if connector.sign == "+" else "*" + none
        return subscript.rstrip("*")

    def told_exactly(self, letters: str, rest: str) -> str:
        """A pattern that asks by the further letters whether a place has no letter."""
        told = self.told.get(letters, [])
        pattern = rest.replace("#", "*").ljust(self.widths.get(letters, 0) + (letters in self.marked), "*")
        return letters + (pattern + "".join(2 * (NONE if rest[place:place + 1] == "*" else "*") for place in told)).rstrip("*")

    def wanted(self, letters: str, rest: str) -> frozenset[str]:
        """The labels that a pattern fits there."""
        return frozenset(label for label in self.labels.get(letters, ()) if fits_there(rest, label))

    def excess(self, letters: str, rest: str) -> frozenset[str]:
        """The labels that it would fit here alone, with `*` in place of `#`."""
        fitted = frozenset(label for label in self.labels.get(letters, ()) if fits_here(widened(rest), label))
        return fitted - self.wanted(letters, rest)

    def translated(self, letters: str, rest: str, lean: Lean) -> Translation:
        """A pattern: `#` there is `*` here, and `*` there, no letter, has a counterpart only if no label has one at its place."""
        excess = self.excess(letters, rest)
        if excess and letters in self.told:
            return Translation((self.told_exactly(letters, rest),), ())
        if not excess or lean is Lean.WIDER:
            return Translation((letters + widened(rest),), tuple(letters + label for label in sorted(excess)))
        labels, wanted = self.labels[letters], self.wanted(letters, rest)
        kept = tellable(labels, wanted)
        lost = [label for label in sorted(wanted) if not any(fits_here(pattern, label) for pattern in kept)]
        return Translation(tuple(letters + pattern for pattern in kept), tuple(letters + label for label in lost))


def widened(rest: str) -> str:
    """A pattern without its capital letters, with `*` in place of `#`."""
    return rest.replace("#", "*").rstrip("*")


def tellable(labels: frozenset[str], wanted: frozenset[str]) -> list[str]:
    """Labels of a set that, as patterns here, fit no label outside it; none that another one covers."""
    kept: list[str] = []
    for label in sorted(wanted, key=lambda text: (len(text), text)):
        fitted = {other for other in labels if fits_here(label, other)}
        if fitted <= wanted and not any(fits_here(pattern, label) for pattern in kept):
            kept.append(label)
    return kept


def labels_of(group: set[Connector]) -> set[str]:
    """The subscripts of the labels of all links that connectors of the same capital letters can make."""
    return {joined(left.subscript, right.subscript) for left, right in pairs(group) if may_link(left, right)}


def marks_decide(group: set[Connector]) -> bool:
    """Whether equal marks are all that keeps some two connectors apart."""
    return any(left.mark and left.mark == right.mark for left, right in pairs(group))


def pairs(group: set[Connector]) -> list[tuple[Connector, Connector]]:
    """A connector to the right and one to the left, whose subscripts agree."""
    right = [connector for connector in group if connector.sign == "-"]
    left = [connector for connector in group if connector.sign == "+"]
    return [(a, b) for a in left for b in right if agree(a.subscript, b.subscript)]


def may_link(left: Connector, right: Connector) -> bool:
    """Whether the marks let two connectors meet."""
    return not left.mark or left.mark != right.mark


def agree(left: str, right: str) -> bool:
    """Whether two subscripts have no different letters at one place."""
    return all(a == b or "*" in (a, b) for a, b in zip(left, right))


def joined(left: str, right: str) -> str:
    """The letters of two subscripts that agree."""
    width = max(len(left), len(right))
    both = zip(left.ljust(width, "*"), right.ljust(width, "*"))
    return "".join(b if a == "*" else a for a, b in both).rstrip("*")


def fits_there(pattern: str, label: str) -> bool:
    """Whether a pattern of link-parser fits, behind equal capital letters: `#` is any letter or none, `*` is none."""
    return all(want == "#" or want == have for want, have in zip(pattern, label.ljust(len(pattern), "*")))


def fits_here(pattern: str, label: str) -> bool:
    """Whether a pattern of lgparse fits, behind equal capital letters: `*` is any letter or none."""
    return all(want == "*" or want == have for want, have in zip(pattern, label.ljust(len(pattern), "*")))
