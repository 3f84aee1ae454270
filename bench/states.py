#!/usr/bin/env python3
"""Looks whether each public function that may answer an error says what then holds of all that was lent to it by `&mut`.

    bench/states.py [--list]

Public is a function of a public module, one that the crate's root gives on, and one of a type or a trait that it gives on. Of each that takes `&mut` and
answers a `Result` or a status it wants, for each such parameter, a clause that speaks of what the parameter is in the end and that holds after an error
too: one that is not said of an answer alone, as `IfOk` and `OnOk` are. `--list` prints each function with the names of these clauses, a table as
`docs/PROVING.md` has it. Status 1: some clause is missing.
"""
import re
import sys
from pathlib import Path

TOP = Path(__file__).resolve().parent.parent

# The first line of a function.
FIRST = re.compile(r"^ *(?P<public>pub )?fn (?P<name>\w+)")
LENT = re.compile(r"(?:(\w+): )?&(?:'\w+ )?mut (self\b)?")
CLAUSE = re.compile(r"ensures (?:(\w+) )?\{(.*?)\}(?=\s*(?:ensures|requires|//|$|;))", re.S)
# A block of functions that belong to a type or a trait, and what the root of a crate gives on.
BLOCK = re.compile(r"^(?:impl(?:<[^\n]*?>)? (?P<type>\w+)|pub trait (?P<trait>\w+))(?P<body>[^\n]*\{\n.*?^\})", re.M | re.S)
GIVEN_ON = re.compile(r"^pub use (\w+)::(?:\{([^}]*)\}|(\w+));", re.M | re.S)
PUBLIC_MODULE = re.compile(r"^pub mod (\w+);", re.M)


def heads(text: str) -> list[tuple[int, bool, str, str]]:
    """Each function: where it begins, whether it says `pub`, its name, and its head up to the body or the semicolon."""
    found, lines, offset = [], text.split("\n"), 0
    for i, line in enumerate(lines):
        if first := FIRST.match(line):
            head = []
            for more in lines[i:]:
                if more.strip() == "{":
                    break
                head.append(more)
                whole = "\n".join(head)
                if (more.endswith(";") and whole.count("{") == whole.count("}")) or (more == line and more.endswith(" {")):
                    break
            found.append((offset, first["public"] is not None, first["name"], "\n".join(head)))
        offset += len(line) + 1
    return found


def lent_by(head: str) -> list[str]:
    """The parameters that a function may change."""
    front = re.split(r"\n\s+(?:ensures|requires) ", head, maxsplit=1)[0]
    parameters = front[front.index("(") :].split("->")[0]
    return ["self" if own else name for name, own in LENT.findall(parameters)]


def answers_error(head: str) -> bool:
    return re.search(r"->\s*(?:Result<|Status\b)", head) is not None


def clauses_of(head: str) -> list[tuple[str, str]]:
    return [(name or "a clause", " ".join(text.split())) for name, text in CLAUSE.findall(head + "\n")]


def holds_after_error(text: str) -> bool:
    """Whether the clause says something where the answer is an error."""
    return not re.match(r"(\([^()]*\) → )*(\([^→]*\) → )*(IfOk|OnOk|IsOk) ", text)


def speaks_of(text: str, parameter: str) -> bool:
    return re.search(rf"\b{parameter}\.new\b", text) is not None


def given_on(root: str) -> set[str]:
    """The names that the root of a crate gives on."""
    names: set[str] = set()
    for _, several, one in GIVEN_ON.findall(root):
        names.update(name.strip() for name in (several or one).split(",") if name.strip())
    return names


def functions() -> list[tuple[str, str]]:
    """Each public function with its head, by crate and name."""
    found = []
    for path in sorted(TOP.glob("crates/*/src/**/*.rt")):
        crate, module = path.relative_to(TOP / "crates").parts[0], path.relative_to(TOP / "crates").parts[2].removesuffix(".rt")
        if crate.startswith("lg_check"):
            continue
        root = (TOP / "crates" / crate / "src" / "lib.rt")
        root_text = root.read_text(encoding="utf-8") if root.exists() else ""
        names, is_open = given_on(root_text), module in PUBLIC_MODULE.findall(root_text)
        text = path.read_text(encoding="utf-8")
        blocks = [(match.span("body"), match["type"] or match["trait"], match["trait"] is not None) for match in BLOCK.finditer(text)]
        for begin, is_public, name, head in heads(text):
            owner, of_trait = next(((owner, trait) for (start, end), owner, trait in blocks if start <= begin < end), (None, False))
            if (is_public or of_trait) and (is_open or (owner or name) in names):
                found.append((f"{crate}::{owner + '::' if owner else ''}{name}", head))
    return found


def main() -> int:
    missing = 0
    for name, head in functions():
        if not answers_error(head):
            continue
        for parameter in lent_by(head):
            said = [clause for clause, text in clauses_of(head) if speaks_of(text, parameter) and holds_after_error(text)]
            if not said:
                missing += 1
                print(f"{name}: nothing is said of `{parameter}` after an error")
            elif "--list" in sys.argv:
                print(f"| `{name}` | `{parameter}` | {', '.join(f'`{clause}`' for clause in dict.fromkeys(said))} |")
    return missing > 0


sys.exit(main())
