"""The audit of a document by its definition, without speed: shape, journal, and then each answer, by session and then by command.

Of dictionaries it knows formulas that are alternatives of connectors and names of macros, and sentences of plain words.
"""
from __future__ import annotations

import functools
import re
from typing import NamedTuple

from linkages import Choice, Disjunct, Formula, Link, cost_text, crossing, disjuncts, is_satisfied, label, matches, parts, side_text, spellings, stem

# A formula before its macros are put in: alternatives, and names of macros.
Raw = list["tuple[tuple[str, ...], tuple[str, ...], int] | str"]


class Command(NamedTuple):
    """What a command is, and what it says: a sentence with its first candidate, or words with a formula, or a word."""

    kind: str
    first: int = 1
    tokens: tuple[str, ...] = ()
    words: tuple[str, ...] = ()
    formula: tuple = ()


class Rule(NamedTuple):
    kind: str
    pattern: str
    others: tuple[str, ...] = ()


class Knowledge(NamedTuple):
    starts: list[tuple[str, str]]
    ignored: list[str]
    rules: list[Rule]


class Dictionary(NamedTuple):
    words: dict[str, Formula]
    macros: dict[str, Formula]


Place = tuple[int, int]


class Item(NamedTuple):
    """A candidate: its number, and either the lines of its linkage or the numbers of its line `fail`."""

    number: int
    sums: tuple[int, str, int] = (0, "", 0)
    words: tuple[tuple[str, ...], ...] = ()
    links: tuple[tuple[str, ...], ...] = ()
    failed: tuple[int, int, int] | None = None


class Page(NamedTuple):
    items: list[Item]
    shown: int
    examined: int
    next: int
    end: bool


class Reply(NamedTuple):
    """An answer: its version, or none; and a page, a bound, or the cause of a refusal."""

    form: str
    version: int | None = None
    page: Page | None = None
    cause: str = ""


# ---- shape


class Misshapen(Exception):
    pass


COST = r"-?(?:0|[1-9][0-9]*)\.[0-9]{3}"
NUMBER = r"0|[1-9][0-9]*"
LARGE, SMALL, GREATEST_COST = 2**64, 2**32, 10**16


def number(text: str, limit: int = LARGE) -> int:
    if not re.fullmatch(NUMBER, text) or len(text) > 20 or int(text) >= limit:
        raise Misshapen
    return int(text)


def check_cost(text: str) -> None:
    digits = text.lstrip("-").replace(".", "")
    if not re.fullmatch(COST, text) or text == "-0.000" or len(digits) > 20 or int(digits) > GREATEST_COST:
        raise Misshapen


class Reader:
    """The lines of a document, one after another."""

    def __init__(self, text: str) -> None:
        if not text.endswith("\n"):
            raise Misshapen
        self.lines = text.split("\n")[:-1]
        self.at = 0

    def peek(self) -> str:
        return self.lines[self.at] if self.at < len(self.lines) else ""

    def line(self) -> str:
        if self.at == len(self.lines):
            raise Misshapen
        self.at += 1
        return self.lines[self.at - 1]

    def begins(self, front: str) -> bool:
        return self.at < len(self.lines) and self.peek().startswith(front)

    def fields(self, front: str, pattern: str) -> tuple[str, ...]:
        found = re.fullmatch(front + pattern, self.line(), re.DOTALL)
        if not found:
            raise Misshapen
        return found.groups()


def read_item(lines: Reader) -> Item:
    if lines.begins("fail "):
        n, rule, left, right = lines.fields("fail ", r"(\S*) rule (\S*) link (\S*) (\S*)")
        return Item(number(n), failed=(number(rule, SMALL), number(left, SMALL), number(right, SMALL)))
    n, unused, cost, length = lines.fields("linkage ", r"(\S*) unused (\S*) cost (\S*) length (\S*)")
    check_cost(cost)
    words, links = [], []
    while lines.begins("word "):
        found = re.fullmatch(r"word ([^ ]*) ([^ ]*) (?:null|(.*) ([^ ]*) ([^ ]*) ([^ ]*))", lines.line(), re.DOTALL)
        if not found:
            raise Misshapen
        number(found[1])
        if found[3] is not None:
            check_cost(found[6])
        words.append(tuple(found.groups()))
    while lines.begins("link "):
        fields = lines.fields("link ", r"([^ ]*) ([^ ]*) ([^ ]*) ([^ ]*) ([^ ]*)")
        for i in (0, 1, 3, 4):
            number(fields[i], SMALL)
        links.append(fields)
    while lines.begins(">"):
        lines.line()
    return Item(number(n), (number(unused), cost, number(length)), tuple(words), tuple(links))


def read_page(lines: Reader) -> Page:
    items = []
    while not lines.begins("page "):
        items.append(read_item(lines))
    shown, examined, following, end = lines.fields("page ", r"shown (\S*) examined (\S*) next (\S*) (end|more)")
    return Page(items, number(shown), number(examined), number(following), end == "end")


def read_cause(text: str) -> None:
    if text == "no such word" or text.startswith("unknown macro "):
        return
    for front, limit in (("too deep ", SMALL), ("too many nodes ", LARGE), ("too many choices ", LARGE), ("too many connectors on a side ", SMALL)):
        if text.startswith(front):
            number(text.removeprefix(front), limit)
            return
    raise Misshapen


def read_reply(lines: Reader, place: Place, kind: str) -> Reply:
    (told,) = lines.fields(re.escape(f"{place[0]}.{place[1]} {kind} "), "(.*)")
    if kind == "version":
        return Reply("at", number(told))
    if kind == "more" and told == "nothing held":
        return Reply("nothing")
    refused = re.fullmatch(r"refused at ([^:]*): (.*)", told, re.DOTALL)
    if kind in ("set", "macro", "del") and refused:
        read_cause(refused[2])
        return Reply("refused", number(refused[1]), cause=refused[2])
    found = re.fullmatch(r"version ([^ ]*)(?: too many (?:words|choices) ([^ ]*))?", told)
    if not found:
        raise Misshapen
    version = number(found[1])
    if kind in ("set", "macro", "del"):
        if found[2] is not None:
            raise Misshapen
        return Reply("published", version)
    if found[2] is not None:
        if kind == "more":
            raise Misshapen
        number(found[2])
        return Reply("beyond", version)
    if kind != "more" and lines.begins("stats "):
        lines.line()
    return Reply("listed", version, read_page(lines))


def read_document(text: str, scripts: list[list[Command]]) -> tuple[list[list[Reply]], list[Place]]:
    lines = Reader(text)
    replies = [[read_reply(lines, (s, c), command.kind) for c, command in enumerate(script, 1)] for s, script in enumerate(scripts, 1)]
    (count,) = lines.fields("journal ", "(.*)")
    journal = []
    for i in range(1, number(count) + 1):
        n, session, command = lines.fields("edit ", r"([^ ]*) ([^ .]*)\.([^ .]*)")
        if number(n) != i:
            raise Misshapen
        journal.append((number(session, SMALL), number(command, SMALL)))
    while lines.begins("usage "):
        lines.line()
    if lines.line() != "done" or lines.at < len(lines.lines):
        raise Misshapen
    return replies, journal


# ---- journal


EDITS = ("set", "macro", "del")


def journal_holds(scripts: list[list[Command]], replies: list[list[Reply]], journal: list[Place]) -> bool:
    for s, c in journal:
        if not (1 <= s <= len(scripts) and 1 <= c <= len(scripts[s - 1]) and scripts[s - 1][c - 1].kind in EDITS):
            return False
    return all(
        [p for p in journal if p[0] == s] == [(s, c) for c, r in enumerate(answers, 1) if r.form == "published"]
        for s, answers in enumerate(replies, 1)
    )


# ---- edits


def put_in(dictionary: Dictionary, formula: Raw) -> Formula | str:
    """The formula with its macros put in, or the first that is not known."""
    alternatives: Formula = []
    for part in formula:
        if not isinstance(part, str):
            alternatives.append(part)
        elif part in dictionary.macros:
            alternatives += dictionary.macros[part]
        else:
            return part
    return alternatives


def refusal(dictionary: Dictionary, edit: Command) -> str | None:
    """Why the dictionary refuses the edit, as it is printed."""
    if edit.kind == "del":
        return None if edit.words[0] in dictionary.words else "no such word"
    formula = put_in(dictionary, list(edit.formula))
    return f"unknown macro {formula}" if isinstance(formula, str) else None


def edited(dictionary: Dictionary, edit: Command) -> Dictionary:
    words, macros = dict(dictionary.words), dict(dictionary.macros)
    if edit.kind == "del":
        words.pop(edit.words[0], None)
        return Dictionary(words, macros)
    formula = put_in(dictionary, list(edit.formula))
    if not isinstance(formula, str):
        (words if edit.kind == "set" else macros).update(dict.fromkeys(edit.words, formula))
    return Dictionary(words, macros)


# ---- post-processing


def fits(pattern: str, name: str) -> bool:
    """Whether the pattern fits a label."""
    (caps, subs), (other_caps, other_subs) = parts(pattern), parts(name)
    padded = other_subs.ljust(len(subs), "*")
    return caps == other_caps and all(p == "*" or p == s for p, s in zip(subs, padded))


Labelled = list[tuple[Link, str]]


def domain(know: Knowledge, links: Labelled, start: int) -> set[int]:
    """The numbers of the links in the domain that this link starts."""
    root, reach = links[start][0].a, {links[start][0].b}
    followed = [i for i, (_, name) in enumerate(links) if not any(fits(p, name) for p in know.ignored)]
    more = True
    while more:
        ends = {x for i in followed for x in links[i][0][:2] if {links[i][0].a, links[i][0].b} & reach} - {root}
        more = not ends <= reach
        reach |= ends
    return {start} | {i for i in followed if {links[i][0].a, links[i][0].b} & reach}


def domains(know: Knowledge, links: Labelled) -> list[tuple[str, int, set[int]]]:
    kinds = sorted({kind for kind, _ in know.starts})
    return [
        (kind, i, domain(know, links, i))
        for kind in kinds
        for i, (_, name) in enumerate(links)
        if any(fits(p, name) for k, p in know.starts if k == kind)
    ]


def is_on_cycle(links: Labelled, i: int) -> bool:
    """Whether the ends of the link are joined by the other links."""
    reached, more = {links[i][0].a}, True
    while more:
        ends = {x for j, (link, _) in enumerate(links) if j != i and {link.a, link.b} & reached for x in link[:2]}
        more = not ends <= reached
        reached |= ends
    return links[i][0].b in reached


def keeps(know: Knowledge, links: Labelled, rule: Rule) -> bool:
    found = domains(know, links)
    if rule.kind == "bounded":
        return all(links[j][0].a >= links[start][0].a for kind, start, inside in found if kind == rule.pattern for j in inside)
    triggers = [i for i, (_, name) in enumerate(links) if fits(rule.pattern, name)]
    if rule.kind == "cycle":
        return all(is_on_cycle(links, i) for i in triggers)

    def group(i: int) -> list[int]:
        if not rule.kind.endswith("-in-group"):
            return list(range(len(links)))
        lies = [[j in inside for _, _, inside in found] for j in range(len(links))]
        return [j for j in range(len(links)) if lies[j] == lies[i]]

    wanted = rule.kind.startswith("one")
    return all(any(fits(p, links[j][1]) for j in group(i) for p in rule.others) == wanted for i in triggers)


# ---- pages


def words_of(dictionary: Dictionary, tokens: list[str], i: int) -> list[str]:
    found = [word for word in dictionary.words if {word, stem(word)} & spellings(tokens, i)]
    return found or [word for word in dictionary.words if stem(word) == "UNKNOWN-WORD"]


class Shown(NamedTuple):
    """A linkage as it was checked, with the keys of its order."""

    unused: int
    cost: int
    length: int
    chosen: Choice
    links: list[Link]


def compare(x: Shown, y: Shown) -> int:
    def choice_key(d: Disjunct | None) -> tuple:
        return (1, d.word.encode(), d.left, d.right) if d else (0,)

    keys = [(s.unused, s.cost, s.length, [choice_key(d) for d in s.chosen]) for s in (x, y)]
    if keys[0] != keys[1]:
        return -1 if keys[0] < keys[1] else 1
    for pair in sorted({(link.a, link.b) for link in x.links + y.links}):
        places = [[(link.p, link.q) for link in s.links if (link.a, link.b) == pair] for s in (x, y)]
        if places[0] != places[1]:
            return -1 if places[0] < places[1] else 1
    return 0


def chosen_at(dictionary: Dictionary, tokens: list[str], i: int, line: tuple[str, ...]) -> Disjunct | None:
    """What the position uses. A line that is wrong raises ValueError."""
    position, text, word, left, right, cost = line
    if position != str(i) or text != tokens[i]:
        raise ValueError
    if word is None:
        return None
    for d in disjuncts(word, dictionary.words[word]) if word in words_of(dictionary, tokens, i) else []:
        if (side_text(d.left), side_text(d.right), cost_text(d.cost)) == (left, right, cost):
            return d
    raise ValueError


def checked(know: Knowledge, dictionary: Dictionary, tokens: list[str], item: Item) -> Shown:
    """The linkage of an item, if it is right. Else it raises ValueError."""
    if len(item.words) != len(tokens):
        raise ValueError
    chosen = tuple(chosen_at(dictionary, tokens, i, line) for i, line in enumerate(item.words))
    links = [Link(int(a), int(b), int(p), int(q)) for a, b, _, p, q in item.links]
    if links != sorted(set(links)) or any(crossing(x, y) for x in links for y in links):
        raise ValueError
    labelled = []
    for link, (_, _, name, _, _) in zip(links, item.links):
        left, right = (chosen[link.a], chosen[link.b]) if link.a < link.b < len(tokens) else (None, None)
        if not (left and right and link.p < len(left.right) and link.q < len(right.left) and matches(left.right[link.p], right.left[link.q])):
            raise ValueError
        if name != label(left.right[link.p], right.left[link.q]):
            raise ValueError
        labelled.append((link, name))
    if not is_satisfied(chosen, links) or not all(keeps(know, labelled, rule) for rule in know.rules):
        raise ValueError
    shown = Shown(chosen.count(None), sum(d.cost for d in chosen if d), sum(link.b - link.a for link in links), chosen, links)
    if item.sums != (shown.unused, cost_text(shown.cost), shown.length):
        raise ValueError
    return shown


def linkages_of(know: Knowledge, dictionary: Dictionary, tokens: list[str], first: int, before: list[Shown], page: Page) -> list[Shown]:
    """The linkages that a page shows, if it is right. Else it raises ValueError."""
    shown = []
    for i, item in enumerate(page.items):
        if item.number != first + i:
            raise ValueError
        if item.failed is None:
            shown.append(checked(know, dictionary, tokens, item))
        elif not (1 <= item.failed[0] <= len(know.rules) and item.failed[1] < item.failed[2] < len(tokens)):
            raise ValueError
    follows = page.next == first + len(page.items) if page.items else 2 <= page.next <= first and page.end
    rises = all(compare(x, y) < 0 for x, y in zip((before + shown)[:-1], (before + shown)[1:]))
    if not (follows and rises) or (page.examined, page.shown) != (len(page.items), len(shown)):
        raise ValueError
    return shown


# ---- answers


class Held(NamedTuple):
    version: int
    tokens: list[str]
    next: int
    shown: list[Shown]


def right_reply(
    know: Knowledge, versions: list[Dictionary], journal: list[Place], place: Place, held: Held | None, command: Command, reply: Reply
) -> Held | None:
    """What is held after the answer, if it is right. Else it raises ValueError."""
    version = reply.version or 0
    if command.kind in EDITS:
        at = version - 1 if reply.form == "published" else version
        if reply.form == "published" and (version == 0 or journal[version - 1] != place):
            raise ValueError
        if refusal(versions[at], command) != (reply.cause or None):
            raise ValueError
        return held
    if command.kind == "version":
        return held
    if command.kind == "more":
        if held is None or reply.page is None:
            if held is None and reply.form == "nothing":
                return None
            raise ValueError
        if version != held.version or (not reply.page.items and reply.page.next != held.next):
            raise ValueError
        shown = linkages_of(know, versions[version], held.tokens, held.next, held.shown, reply.page)
        return Held(version, held.tokens, reply.page.next, held.shown + shown)
    if reply.page is None:
        raise ValueError
    tokens = list(command.tokens)
    shown = linkages_of(know, versions[version], tokens, command.first, [], reply.page)
    return Held(version, tokens, reply.page.next, shown)


def first_wrong(
    know: Knowledge, versions: list[Dictionary], journal: list[Place], session: int, script: list[Command], replies: list[Reply]
) -> int | None:
    held, named = None, 0
    for c, (command, reply) in enumerate(zip(script, replies), 1):
        version = reply.version or 0
        try:
            if version > len(journal):
                raise ValueError
            if command.kind != "more":
                if version < named + (reply.form == "published" and c > 1 and any(other.kind != "more" for other in script[: c - 1])):
                    raise ValueError
                named = version
            held = right_reply(know, versions, journal, (session, c), held, command, reply)
        except ValueError:
            return c
    return None


def audit(base: Dictionary, know: Knowledge, scripts: list[list[Command]], document: bytes) -> str:
    """The line of the audit."""
    try:
        replies, journal = read_document(document.decode("latin-1"), scripts)
    except Misshapen:
        return "audit no shape"
    if not journal_holds(scripts, replies, journal):
        return "audit no journal"
    edits = [scripts[s - 1][c - 1] for s, c in journal]
    versions = [functools.reduce(edited, edits[:k], base) for k in range(len(edits) + 1)]
    for s, (script, answers) in enumerate(zip(scripts, replies), 1):
        wrong = first_wrong(know, versions, journal, s, script, answers)
        if wrong is not None:
            return f"audit no at {s}.{wrong}"
    return f"audit yes {sum(item.failed is None for answers in replies for r in answers if r.page for item in r.page.items)}"
