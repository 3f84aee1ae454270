"""Linkages by the definition: the four rules and the sums, tried one by one, for the tests that check the program slowly.

A connector is written as in the output, without its sign: `@` if it is multi, then its name. A name that does not begin with a capital letter is
the joint of an idiom, and matches itself alone.
"""
from __future__ import annotations

import itertools
import re
from typing import NamedTuple

Side = tuple[str, ...]


class Disjunct(NamedTuple):
    """A word, its connectors to the left and to the right, from near to far, and its cost in thousandths."""

    word: str
    left: Side
    right: Side
    cost: int


class Link(NamedTuple):
    """Two positions, and the places of the link in the right list of the one and in the left list of the other."""

    a: int
    b: int
    p: int
    q: int


Formula = list[tuple[Side, Side, int]]
Choice = tuple["Disjunct | None", ...]


# ---- connectors


def is_multi(connector: str) -> bool:
    return connector.startswith("@")


def parts(connector: str) -> tuple[str, str]:
    """The capital letters of the name, and what follows them."""
    found = re.match(r"@?([A-Z]*)(.*)", connector)
    return (found[1], found[2]) if found else ("", "")


def matches(x: str, y: str) -> bool:
    (caps, subs), (other_caps, other_subs) = parts(x), parts(y)
    if not caps:
        return subs == other_subs and not other_caps
    return caps == other_caps and all(s == t or "*" in (s, t) for s, t in zip(subs, other_subs))


def label(x: str, y: str) -> str:
    """The label of a link between these connectors."""
    (caps, subs), (_, other_subs) = parts(x), parts(y)
    letters = (({s, t} - {"*"} or {"*"}).pop() for s, t in itertools.zip_longest(subs, other_subs, fillvalue="*"))
    return caps + "".join(letters).rstrip("*")


# ---- words


def stem(word: str) -> str:
    return word.partition(".")[0]


def spellings(tokens: list[str], i: int) -> set[str]:
    """What the token may stand for: itself, and the first one with a small letter too."""
    return {tokens[i], tokens[i].lower()} if i == 0 else {tokens[i]}


def disjuncts(word: str, formula: Formula) -> list[Disjunct]:
    """The disjuncts of a formula, each at its least cost."""
    least: dict[tuple[Side, Side], int] = {}
    for left, right, cost in formula:
        least[left, right] = min(cost, least.get((left, right), cost))
    return [Disjunct(word, left, right, cost) for (left, right), cost in least.items()]


# ---- the rules


def crossing(x: Link, y: Link) -> bool:
    return x.a < y.a < x.b < y.b or y.a < x.a < y.b < x.b


def is_served(side: Side, ends: list[tuple[int, int]]) -> bool:
    """Whether each connector has its link or links, and those of a nearer connector end nearer; an end is a place and a distance."""
    counts = [sum(place == at for at, _ in ends) for place in range(len(side))]
    served = all(count == 1 or (count > 1 and is_multi(c)) for c, count in zip(side, counts))
    return served and all(d < e for (p, d), (q, e) in itertools.permutations(ends, 2) if p < q)


def is_connected(linked: list[int], links: list[Link]) -> bool:
    reached, more = set(linked[:1]), True
    while more:
        ends = {end for link in links if {link.a, link.b} & reached for end in (link.a, link.b)}
        more = not ends <= reached
        reached |= ends
    return reached == set(linked)


def is_satisfied(chosen: Choice, links: list[Link]) -> bool:
    """Whether all connectors are served, and linked words hang together. That links match and do not cross is not asked."""
    for i, d in enumerate(chosen):
        if d and not is_served(d.right, [(link.p, link.b - i) for link in links if link.a == i]):
            return False
        if d and not is_served(d.left, [(link.q, i - link.a) for link in links if link.b == i]):
            return False
    return is_connected([i for i, d in enumerate(chosen) if d], links)


# ---- what is shown


def cost_text(cost: int) -> str:
    return f"{'-' * (cost < 0)}{abs(cost) // 1000}.{abs(cost) % 1000:03d}"


def side_text(side: Side) -> str:
    return ",".join(side) or "-"


def written(formula: Formula) -> str:
    """The formula as a dictionary has it."""
    texts = []
    for left, right, cost in formula:
        text = " & ".join([c + "-" for c in left] + [c + "+" for c in right]) or "()"
        texts.append(f"[{text}]{cost / 1000}" if cost else text)
    return " or ".join(texts)
