"""The file of dialects: what each of their names costs where nothing else is asked for."""
import re
from decimal import Decimal
from pathlib import Path

from .errors import read_optional, unreadable

# What a name costs that no section gives a number: nothing can be used at that cost.
NEVER = 10_000_000

SECTION = re.compile(r"\[\s*([a-z][\w-]*)\s*\]$")
ITEM = re.compile(r"([a-z][\w-]*)\s*(?:(:)\s*(-?[0-9.]+)?)?$")

Costs = dict[str, int]


def default_costs(path: Path) -> Costs:
    """The cost of each name by the section `[default]`, in thousandths."""
    return resolved("default", sections(path), ())


def sections(path: Path) -> dict[str, list[tuple[str, int | None]]]:
    """The sections of the file: names with a cost, or without one where another section is meant."""
    found: dict[str, list[tuple[str, int | None]]] = {}
    current: list[tuple[str, int | None]] | None = None
    for number, raw in enumerate(read_optional(path).splitlines(), 1):
        line = raw.split("%")[0].strip()
        if not line:
            continue
        if heading := SECTION.match(line):
            current = found.setdefault(heading.group(1), [])
        elif (item := ITEM.match(line)) and current is not None:
            current.append((item.group(1), item_cost(item)))
        else:
            raise unreadable(path, number, f"neither a section nor a name: {line}")
    return found


def item_cost(item: re.Match[str]) -> int | None:
    """The cost of a line, in thousandths; none where the line names a section."""
    if item.group(2) is None:
        return None
    return NEVER if item.group(3) is None else round(Decimal(item.group(3)) * 1000)


def resolved(name: str, found: dict[str, list[tuple[str, int | None]]], above: tuple[str, ...]) -> Costs:
    """The costs of a section and of those that it names; a section within itself adds nothing."""
    costs: Costs = {}
    for item, cost in found.get(name, []):
        if cost is not None:
            costs[item] = cost
        elif item not in above:
            costs.update(resolved(item, found, (*above, name)))
    return costs
