"""What a conversion left out or changed, by kind, each with its line."""
from dataclasses import dataclass, field
from enum import Enum
from pathlib import Path


class Kind(Enum):
    """A kind of change; the text is the heading of its part of the report."""

    DEFINE = "#define has no counterpart: left out"
    COST_LIMIT = "dearer than the cost limit: such alternatives were left out"
    COST_LIMIT_ENTRY = "dearer than the cost limit as a whole: the entry was left out, and each use of it"
    ROUNDED = "a cost with more than three digits after the point: rounded"
    DIALECT = "the cost of a dialect: the number of the section [default] was put in its place"
    MARK = "marks of heads and dependents: dropped from a type whose equal marks never meet, else written as a further letter"
    SYMMETRIC = "a symmetric and: written as all its orders"
    NAMED_WORD = "a word named in a formula: its own formula was put in its place"
    LENGTH_LIMIT = "limits of the length of links: left out"
    UNUSED_MACRO = "a macro that no formula names: left out"
    CLASS = "a class of regular expressions without a counterpart: the word was left out"
    DUPLICATE = "a word defined again: left out, as link-parser does"
    IDIOM_AGAIN = "an idiom defined again: it got a subscript of its own"
    SUBSCRIPT = "a subscript that lgparse would not see: rewritten"
    COLLISION = "a word that would be written as another one is: left out"
    UNWRITABLE = "a word that no text can hold: left out"
    IDIOM = "an idiom: kept as a word with underscores"
    REGEX = "a regular expression: the fixed rule of the special word stands in its place"
    REGEX_NONE = "a regular expression without a counterpart: left out"
    AFFIX = "an affix that lgparse does not cut off: left out"
    AFFIX_ADDED = "an affix that lgparse cuts off, though it is not in the lists here"
    KNOWLEDGE_SECTION = "a section of the knowledge without a counterpart: left out"
    START_INSIDE = "a start link that is not in its own domain there, and is here"
    START_LEFT = "a start link whose domain reaches to the left side there: left out"
    BOUNDED_LEFT = "a bounded domain that no link starts here: the rule was left out"
    CYCLE = "links that must stay connected without each other: here each link must be part of some cycle"
    PATTERN_WIDER = "a pattern that asks for no letter: here it fits more labels"
    PATTERN_NARROWER = "a pattern that asks for no letter: here it fits fewer labels"
    PATTERN_NONE = "a pattern that asks for no letter and fits nothing alone: left out"
    RULE_NONE = "a rule without a pattern that is left: left out"


@dataclass(frozen=True, order=True)
class Place:
    """A line of a file, from 1."""

    path: Path
    line: int


@dataclass
class Report:
    """The changes so far, and the figures of what was written."""

    changes: dict[Kind, list[tuple[Place, str]]] = field(default_factory=dict)
    figures: list[str] = field(default_factory=list)

    def add(self, kind: Kind, place: Place, text: str) -> None:
        """Notes a change of an entry."""
        self.changes.setdefault(kind, []).append((place, text))

    def count(self, kind: Kind) -> int:
        """How many changes there are of a kind."""
        return len(self.changes.get(kind, []))

    def text(self, base: Path) -> str:
        """The report; files are named from the folder `base`."""
        lines = [*self.figures, ""]
        kinds = [kind for kind in Kind if kind in self.changes]
        lines += [f"{self.count(kind):7d}  {kind.value}" for kind in kinds]
        for kind in kinds:
            lines += ["", f"{kind.value} ({self.count(kind)})"]
            lines += [f"  {named(place.path, base)}:{place.line}: {text}" for place, text in self.changes[kind]]
        return "\n".join(lines) + "\n"


def named(path: Path, base: Path) -> str:
    """A path as seen from a folder, if it lies in it."""
    return str(path.relative_to(base)) if path.is_relative_to(base) else str(path)
