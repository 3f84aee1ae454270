"""Prints a line of JSON for each linkage.

    python3 -m lgparse read [DOCUMENT]                                    of a document, or of standard input
    python3 -m lgparse parse [OPTIONS] DICT [KNOWLEDGE] [-- WORD..]       of the sentences of standard input, one a line

Each line has "sentence", the number of the listing from 1, and, in a document of `run`, "place" and "version"; the rest is the linkage.
Words behind `--` are options of the program. A sentence without a linkage has no line.
"""

from __future__ import annotations

import argparse
import contextlib
import json
import os
import sys
from typing import Any, Dict, Generator, Iterable, Iterator, List, Optional

from .document import read
from .errors import LgparseError
from .model import Answer, Listing
from .program import parse


def arguments(words: List[str]) -> argparse.Namespace:
    parser = argparse.ArgumentParser(prog="python3 -m lgparse", description=__doc__, formatter_class=argparse.RawDescriptionHelpFormatter)
    commands = parser.add_subparsers(dest="command", required=True)
    reading = commands.add_parser("read", help="the linkages of a document")
    reading.add_argument("document", nargs="?", help="without it standard input")
    parsing = commands.add_parser("parse", help="the linkages of the sentences of standard input")
    parsing.add_argument("dictionary")
    parsing.add_argument("knowledge", nargs="?")
    parsing.add_argument("--want", type=int, default=10)
    parsing.add_argument("--program", help="without it LGPARSE, or lgparse on PATH")
    at = words.index("--") if "--" in words else len(words)
    given = parser.parse_args(words[:at])
    given.options = words[at + 1 :]
    return given


def answers(given: argparse.Namespace) -> Generator[Answer, None, None]:
    if given.command == "parse":
        sentences = (line.rstrip(b"\n") for line in sys.stdin.buffer)
        yield from parse(sentences, given.dictionary, given.knowledge, given.want, options=given.options, program=given.program)
    elif given.document is None:
        yield from read(sys.stdin.buffer)
    else:
        with open(given.document, "rb") as file:
            yield from read(file)


def lines(given: Iterable[Answer], has_place: bool) -> Iterator[str]:
    number = 0
    for answer in given:
        if not isinstance(answer, Listing):
            continue
        number += 1
        head: Dict[str, Any] = {"sentence": number}
        if has_place and answer.place:
            head.update(place=str(answer.place), version=answer.version)
        for linkage in answer.linkages:
            yield json.dumps({**head, **linkage.to_dict()})


def main(words: Optional[List[str]] = None) -> int:
    given = arguments(sys.argv[1:] if words is None else words)
    try:
        with contextlib.closing(answers(given)) as found:
            for line in lines(found, given.command == "read"):
                print(line)
        sys.stdout.flush()
    except BrokenPipeError:
        os.dup2(os.open(os.devnull, os.O_WRONLY), sys.stdout.fileno())
        return 4
    except (LgparseError, ValueError, OSError) as error:
        print(f"lgparse: {error}", file=sys.stderr)
        return 1
    return 0


if __name__ == "__main__":
    sys.exit(main())
