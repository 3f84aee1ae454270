"""What a document of lgparse holds, as objects. docs/OUTPUT.md has its grammar."""

from __future__ import annotations

import dataclasses
from decimal import Decimal
from typing import Any, Dict, List, NamedTuple, Optional, Tuple, Union


class Place(NamedTuple):
    """The number of a session and that of a command in it, both from 1."""

    session: int
    command: int

    def __str__(self) -> str:
        return f"{self.session}.{self.command}"


class Word(NamedTuple):
    """A token of a linkage. `word`, the dictionary's word, is None where the token stays unlinked.

    `left` and `right` are its connectors from near to far, without `-` and `+`.
    """

    position: int
    text: str
    word: Optional[str] = None
    left: Tuple[str, ...] = ()
    right: Tuple[str, ...] = ()
    cost: Decimal = Decimal("0.000")

    @property
    def is_linked(self) -> bool:
        return self.word is not None


class Link(NamedTuple):
    """A link of the words at the positions `left` < `right`.

    It is the connector of the number `left_place` of the right side of the first, and `right_place` of the left side of the second.
    """

    left: int
    right: int
    label: str
    left_place: int
    right_place: int


class Stats(NamedTuple):
    """The disjuncts of the words of a sentence, and how many of them pruning kept."""

    disjuncts: int
    kept: int


class Bound(NamedTuple):
    """Why a sentence was not parsed: too many `words` or too many `choices`, and their number."""

    what: str
    number: int


class Failed(NamedTuple):
    """A linkage that breaks a rule: its number, that of the rule, from 1, and the words of the link at which it does."""

    number: int
    rule: int
    left: int
    right: int


@dataclasses.dataclass(frozen=True)
class Linkage:
    """A linkage that passed. `diagram` has the lines of its drawing, if it was asked for."""

    number: int
    unused: int
    cost: Decimal
    length: int
    words: Tuple[Word, ...]
    links: Tuple[Link, ...]
    diagram: Tuple[str, ...] = ()

    def links_of(self, position: int) -> List[Link]:
        """The links of a word."""
        return [link for link in self.links if position in (link.left, link.right)]

    def unlinked(self) -> List[Word]:
        """The words that stay unlinked."""
        return [word for word in self.words if word.word is None]

    def to_dot(self) -> str:
        """The linkage as a graph for Graphviz: a node a word, in the order of the sentence, and an edge a link.

        Bytes that are not UTF-8 are written as `\\xff`.
        """
        lines = ["graph linkage {", "  node [shape=plaintext];", "  { rank=same;"]
        for word in self.words:
            style = "" if word.is_linked else " fontcolor=gray"
            lines.append(f"    {word.position} [label={_quoted(word.word or word.text)}{style}];")
        for left, right in zip(self.words, self.words[1:]):
            lines.append(f"    {left.position} -- {right.position} [style=invis];")
        lines.append("  }")
        for link in self.links:
            lines.append(f"  {link.left} -- {link.right} [label={_quoted(link.label)} constraint=false];")
        return "\n".join([*lines, "}", ""])

    def to_dict(self) -> Dict[str, Any]:
        """The linkage as JSON has it; costs are numbers, and an unlinked word has null for its dictionary word."""
        fields: Dict[str, Any] = {
            "linkage": self.number,
            "unused": self.unused,
            "cost": float(self.cost),
            "length": self.length,
            "words": [
                {**word._asdict(), "left": list(word.left), "right": list(word.right), "cost": float(word.cost)}
                for word in self.words
            ],
            "links": [link._asdict() for link in self.links],
        }
        if self.diagram:
            fields["diagram"] = list(self.diagram)
        return fields


def _quoted(text: str) -> str:
    """A string of DOT."""
    shown = text.encode("utf-8", "surrogateescape").decode("utf-8", "backslashreplace")
    return '"' + shown.replace("\\", "\\\\").replace('"', '\\"').replace("\n", "\\n") + '"'


@dataclasses.dataclass(frozen=True)
class Listing:
    """The answer to `one`, `parse`, `list` or `more`.

    `items` are what was looked at, in order; `linkages` those that passed and `failed` those that broke a rule. `next` is the number
    of the linkage behind them, and `has_ended` says that there is none: where it is false the page is full, and there may be others.
    Where `bound` is there, the sentence was not parsed. `place`, `kind` and `version` are None in a document of `one`.
    """

    place: Optional[Place] = None
    kind: Optional[str] = None
    version: Optional[int] = None
    stats: Optional[Stats] = None
    items: Tuple[Union[Linkage, Failed], ...] = ()
    next: int = 1
    has_ended: bool = True
    bound: Optional[Bound] = None

    @property
    def linkages(self) -> List[Linkage]:
        return [item for item in self.items if isinstance(item, Linkage)]

    @property
    def failed(self) -> List[Failed]:
        return [item for item in self.items if isinstance(item, Failed)]

    @property
    def examined(self) -> int:
        return len(self.items)


class Edited(NamedTuple):
    """An accepted edit, with the version that it made. `kind` is `set`, `macro` or `del`."""

    place: Place
    kind: str
    version: int


class Refused(NamedTuple):
    """A refused edit, with the version that refused it, and the cause as it is printed."""

    place: Place
    kind: str
    version: int
    cause: str


class Told(NamedTuple):
    """The answer to `version`."""

    place: Place
    version: int


class NothingHeld(NamedTuple):
    """The answer to a `more` before which nothing was listed."""

    place: Place


@dataclasses.dataclass(frozen=True)
class Journal:
    """The end of a document of `run`: the places of the edits, of which the first made version 1.

    `word_usage` and `label_usage` are what `--usage on` counts; without it they are empty.
    """

    edits: Tuple[Place, ...] = ()
    word_usage: Dict[str, int] = dataclasses.field(default_factory=dict)
    label_usage: Dict[str, int] = dataclasses.field(default_factory=dict)


class Sums(NamedTuple):
    """A document of `gen`."""

    seed: int
    words: int
    asked: int
    sentences: int
    examined: int
    shown: int
    unused: int
    length: int


Answer = Union[Listing, Edited, Refused, Told, NothingHeld, Journal, Sums]
