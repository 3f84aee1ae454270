"""Reads documents of lgparse, by the grammar of docs/OUTPUT.md, one answer at a time."""

from __future__ import annotations

import functools
import io
import re
from decimal import Decimal
from typing import BinaryIO, Dict, Iterable, Iterator, List, Optional, Tuple, Union

from .errors import DocumentError
from .model import Answer, Bound, Edited, Failed, Journal, Link, Linkage, Listing, NothingHeld, Place, Refused, Stats, Sums, Told, Word

EDITS = ("set", "macro", "del")
LISTINGS = ("parse", "list", "more")

_PLACE = re.compile(r"([1-9][0-9]*)\.([1-9][0-9]*)\Z")
_NUMBER = re.compile(r"(?:0|[1-9][0-9]*)\Z")
_COST = re.compile(r"-?(?:0|[1-9][0-9]*)\.[0-9]{3}\Z")
_JOINT = r"id[0-9]+\.[0-9]+\.[0-9]+"
_LABEL = re.compile(rf"(?:[A-Z]+[a-z*]*|{_JOINT})\Z")
_CONNECTOR = rf"(?:@?[A-Z]+[a-z*]*|{_JOINT})"
_SIDE = re.compile(rf"-\Z|{_CONNECTOR}(?:,{_CONNECTOR})*\Z")


def read(document: Union[bytes, BinaryIO, Iterable[bytes]]) -> Iterator[Answer]:
    """Reads a document, which is bytes, a binary stream, or its lines, and yields its answers in order.

    A document of `one` is one `Listing` with no place. A document of `run` is the answers of its commands and then a `Journal`. One of
    `gen` is `Sums`. Documents may follow one another, as those of the parts of a large text do. What is no document, or a front part of
    one, raises `DocumentError` with the number of the line, after the answers before it.

    Tokens are decoded as UTF-8; a byte that is none becomes a lone surrogate, and `text.encode("utf-8", "surrogateescape")` gives the
    bytes again.
    """
    lines = _Lines(io.BytesIO(document) if isinstance(document, (bytes, bytearray)) else document)
    if lines.peek() is None:
        raise DocumentError(1, "the document is empty")
    while lines.peek() is not None:
        first = lines.first()
        if first == "gen":
            yield _sums(lines)
        elif first == "journal" or _PLACE.match(first):
            yield from _run(lines)
        else:
            yield _listing(lines)


class _Lines:
    """The lines of a document, with one looked at ahead. `number` is that of the line that was last taken or looked at."""

    def __init__(self, lines: Iterable[bytes]) -> None:
        self._lines = iter(lines)
        self._ahead: Optional[str] = None
        self._is_ahead = False
        self.number = 0

    def peek(self) -> Optional[str]:
        """The next line, or None at the end."""
        if not self._is_ahead:
            line = next(self._lines, None)
            self.number += 1
            if line is not None and not line.endswith(b"\n"):
                raise DocumentError(self.number, "the document is cut within this line")
            self._ahead = None if line is None else line[:-1].decode("utf-8", "surrogateescape")
            self._is_ahead = True
        return self._ahead

    def first(self) -> str:
        """The first field of the next line, and nothing at the end."""
        return (self.peek() or "").partition(" ")[0]

    def take(self, wanted: str) -> str:
        line = self.peek()
        if line is None:
            raise DocumentError(self.number, f"the document is cut before this line, where {wanted} should stand")
        self._is_ahead = False
        return line

    def fail(self, wanted: str, line: str) -> DocumentError:
        """The error of the line that was taken last."""
        shown = line.encode("utf-8", "surrogateescape").decode("utf-8", "backslashreplace")
        if shown.endswith("\r"):
            return DocumentError(self.number, "the line ends in a carriage return: a document has line feeds alone")
        if len(shown) > 60:
            shown = shown[:57] + "..."
        return DocumentError(self.number, f"{shown!r} stands where {wanted} should")


def _run(lines: _Lines) -> Iterator[Answer]:
    """One document of `run`."""
    before = Place(0, 0)
    while _PLACE.match(lines.first()):
        place = _place(lines.first())
        if place != (before.session, before.command + 1) and not (place.session > before.session and place.command == 1):
            raise DocumentError(lines.number, f"the answer {place} follows {f'the answer {before}' if before.session else 'nothing'}")
        yield _reply(lines, place)
        before = place
    yield _journal(lines)


def _reply(lines: _Lines, place: Place) -> Union[Listing, Edited, Refused, Told, NothingHeld]:
    wanted = "an answer"
    line = lines.take(wanted)
    fields = line.split(" ")[1:]
    if fields == ["more", "nothing", "held"]:
        return NothingHeld(place)
    if len(fields) == 2 and fields[0] == "version" and _NUMBER.match(fields[1]):
        return Told(place, int(fields[1]))
    kind = fields[0] if fields else ""
    if kind in EDITS and len(fields) == 3 and fields[1] == "version" and _NUMBER.match(fields[2]):
        return Edited(place, kind, int(fields[2]))
    if kind in EDITS and fields[1:3] == ["refused", "at"]:
        at, colon, cause = " ".join(fields[3:]).partition(": ")
        if colon and _NUMBER.match(at) and not cause.endswith("\r"):
            return Refused(place, kind, int(at), cause)
    if kind in LISTINGS and len(fields) >= 3 and fields[1] == "version" and _NUMBER.match(fields[2]):
        version = int(fields[2])
        if len(fields) == 3:
            return _page(lines, place, kind, version)
        bound = _bound(fields[3:])
        if bound:
            return Listing(place, kind, version, bound=bound)
    raise lines.fail(wanted, line)


def _place(field: str) -> Place:
    match = _PLACE.match(field)
    assert match
    return Place(int(match[1]), int(match[2]))


def _bound(fields: List[str]) -> Optional[Bound]:
    if len(fields) == 4 and fields[:2] == ["too", "many"] and fields[2] in ("words", "choices") and _NUMBER.match(fields[3]):
        return Bound(fields[2], int(fields[3]))
    return None


def _listing(lines: _Lines) -> Listing:
    """A document of `one`."""
    if lines.first() != "too":
        return _page(lines, None, None, None)
    line = lines.take("a bound")
    bound = _bound(line.split(" "))
    if not bound:
        raise lines.fail("a bound", line)
    return Listing(bound=bound)


def _page(lines: _Lines, place: Optional[Place], kind: Optional[str], version: Optional[int]) -> Listing:
    stats = None
    if lines.first() == "stats":
        stats = Stats(*_numbers(lines, "stats", ("stats", "disjuncts", None, "kept", None)))
    items: List[Union[Linkage, Failed]] = []
    while lines.first() in ("linkage", "fail"):
        start = lines.number
        if lines.first() == "linkage":
            items.append(_linkage(lines))
        else:
            items.append(Failed(*_numbers(lines, "a broken rule", ("fail", None, "rule", None, "link", None, None))))
        if len(items) > 1 and items[-1].number != items[-2].number + 1:
            raise DocumentError(start, f"linkage {items[-1].number} follows linkage {items[-2].number}")
    return _foot(lines, Listing(place, kind, version, stats, tuple(items)))


def _foot(lines: _Lines, listing: Listing) -> Listing:
    """The listing with what the line `page` says of it."""
    wanted = "linkage, fail or page"
    line = lines.take(wanted)
    fields = line.split(" ")
    shape = ("page", "shown", None, "examined", None, "next", None)
    if len(fields) != 8 or fields[7] not in ("end", "more") or not _fits(fields[:7], shape):
        raise lines.fail(wanted, line)
    shown, examined, following = (int(fields[i]) for i in (2, 4, 6))
    if (shown, examined) != (len(listing.linkages), len(listing.items)) or listing.items and following != listing.items[-1].number + 1:
        raise lines.fail("the page of the linkages before it", line)
    return Listing(listing.place, listing.kind, listing.version, listing.stats, listing.items, following, fields[7] == "end")


def _linkage(lines: _Lines) -> Linkage:
    wanted = "a linkage"
    line = lines.take(wanted)
    fields = line.split(" ")
    cost = _cost(fields[5]) if _fits(fields, ("linkage", None, "unused", None, "cost", "", "length", None)) else None
    if cost is None:
        raise lines.fail(wanted, line)
    words: List[Word] = []
    while lines.first() == "word":
        words.append(_word(lines, len(words)))
    links: List[Link] = []
    while lines.first() == "link":
        links.append(_link(lines, links, len(words)))
    diagram = tuple(_drawn(lines, words, links)) if (lines.peek() or "").startswith(">") else ()
    return Linkage(int(fields[1]), int(fields[3]), cost, int(fields[7]), tuple(words), tuple(links), diagram)


def _word(lines: _Lines, position: int) -> Word:
    """A line of a word, with the lines that follow where the token has line feeds: a whole one has four fields at least."""
    wanted = f"word {position}"
    line = lines.take(wanted)
    while line.count(" ") < 3:
        line += "\n" + lines.take("the rest of a token")
    fields = line.split(" ")
    if fields[1] == str(position):
        if len(fields) == 4 and fields[3] == "null":
            return Word(position, fields[2])
        if len(fields) == 7:
            left, right, cost = _side(fields[4]), _side(fields[5]), _cost(fields[6])
            if left is not None and right is not None and cost is not None:
                return Word(position, fields[2], fields[3], left, right, cost)
    raise lines.fail(wanted, line)


# (a document has few different sides, costs and labels, and many of each)
@functools.lru_cache(maxsize=4096)
def _side(field: str) -> Optional[Tuple[str, ...]]:
    if not _SIDE.match(field):
        return None
    return () if field == "-" else tuple(field.split(","))


@functools.lru_cache(maxsize=4096)
def _cost(field: str) -> Optional[Decimal]:
    return Decimal(field) if _COST.match(field) else None


def _link(lines: _Lines, before: List[Link], words: int) -> Link:
    wanted = "a link"
    line = lines.take(wanted)
    fields = line.split(" ")
    if _fits(fields, ("link", None, None, "", None, None)) and _LABEL.match(fields[3]):
        link = Link(int(fields[1]), int(fields[2]), fields[3], int(fields[4]), int(fields[5]))
        if link.left < link.right < words and (not before or before[-1][:2] < link[:2]):
            return link
    raise lines.fail(wanted, line)


def _drawn(lines: _Lines, words: List[Word], links: List[Link]) -> Iterator[str]:
    """The lines of a diagram. Where a token has line feeds, so has the line of words, which may then not begin with `>`."""
    feeds = sum(word.text.count("\n") for word in words)
    rows = _height(links) if feeds else None
    while rows != 0 and (lines.peek() or "").startswith(">"):
        yield lines.take("a diagram")[1:]
        rows = None if rows is None else rows - 1
    if feeds:
        yield "\n".join(lines.take("the words of a diagram") for _ in range(feeds + 1))[1:]


def _height(links: List[Link]) -> int:
    """The lines of links of a diagram: a link stands one above the highest one within its span."""
    heights: Dict[Link, int] = {}
    for link in sorted(links, key=lambda link: link.right - link.left):
        within = (heights[one] for one in heights if link.left <= one.left and one.right <= link.right)
        heights[link] = 1 + max(within, default=0)
    return max(heights.values(), default=0)


def _journal(lines: _Lines) -> Journal:
    (count,) = _numbers(lines, "an answer or the journal", ("journal", None))
    edits = []
    for number in range(1, count + 1):
        wanted = f"edit {number}"
        line = lines.take(wanted)
        fields = line.split(" ")
        if len(fields) != 3 or fields[:2] != ["edit", str(number)] or not _PLACE.match(fields[2]):
            raise lines.fail(wanted, line)
        edits.append(_place(fields[2]))
    journal = Journal(tuple(edits))
    while lines.first() == "usage":
        line = lines.take("usage")
        fields = line.split(" ")
        if len(fields) != 4 or fields[1] not in ("word", "label") or not _NUMBER.match(fields[3]):
            raise lines.fail("usage", line)
        (journal.word_usage if fields[1] == "word" else journal.label_usage)[fields[2]] = int(fields[3])
    line = lines.take("done")
    if line != "done":
        raise lines.fail("done", line)
    return journal


def _sums(lines: _Lines) -> Sums:
    head = _numbers(lines, "gen", ("gen", None, None, None))
    rest = [_numbers(lines, name, (name, None))[0] for name in ("sentences", "examined", "shown", "unused", "length")]
    return Sums(*head, *rest)


def _fits(fields: List[str], shape: Tuple[Optional[str], ...]) -> bool:
    """Whether the fields have the words of a shape; None stands for a number and "" for any field."""
    if len(fields) != len(shape):
        return False
    for field, word in zip(fields, shape):
        if not _NUMBER.match(field) if word is None else word and word != field:
            return False
    return True


def _numbers(lines: _Lines, wanted: str, shape: Tuple[Optional[str], ...]) -> List[int]:
    """The numbers of a line of words and numbers."""
    line = lines.take(wanted)
    fields = line.split(" ")
    if not _fits(fields, shape):
        raise lines.fail(wanted, line)
    return [int(field) for field, word in zip(fields, shape) if word is None]
