"""Runs lgparse, a Link Grammar parser, and reads its documents.

    import lgparse

    for listing in lgparse.parse(["the cat ran"], "samples/first.dict"):
        for linkage in listing.linkages:
            print(linkage.cost, [(link.label, linkage.words[link.left].text) for link in linkage.links])

`read` reads a document that is there already, `run` runs scripts. `python3 -m lgparse` prints a line of JSON for each linkage.
"""

from .document import read
from .errors import DocumentError, LgparseError, ProgramError, ProgramNotFound
from .model import (
    Answer,
    Bound,
    Edited,
    Failed,
    Journal,
    Link,
    Linkage,
    Listing,
    NothingHeld,
    Place,
    Refused,
    Stats,
    Sums,
    Told,
    Word,
)
from .program import parse, run

__all__ = [
    "Answer",
    "Bound",
    "DocumentError",
    "Edited",
    "Failed",
    "Journal",
    "LgparseError",
    "Link",
    "Linkage",
    "Listing",
    "NothingHeld",
    "Place",
    "ProgramError",
    "ProgramNotFound",
    "Refused",
    "Stats",
    "Sums",
    "Told",
    "Word",
    "parse",
    "read",
    "run",
]
