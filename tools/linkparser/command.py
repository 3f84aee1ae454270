"""The command line of tools/from-link-parser."""
from __future__ import annotations

import argparse
import sys
from decimal import Decimal, InvalidOperation
from pathlib import Path

from .classes import read_classes, report_affixes, report_classes
from .convert import Converter
from .dialect import NEVER, default_costs
from .dictionary import Dictionary
from .errors import MISSING, Fault, read_optional
from .knowledge import Translator, patterns_in, read_sections
from .report import Report
from .words import SPECIAL_WORDS

DESCRIPTION = """\
Turns the data directory of a language of link-parser 5 into files of lgparse.

DIR is such a directory, as /usr/share/link-grammar/en: 4.0.dict with the files that it includes and its word files, and,
where they are there, 4.0.dialect, 4.0.regex, 4.0.affix and 4.0.knowledge. It writes

  OUT/en.dict      the dictionary
  OUT/words/       its word files
  OUT/en.know      the rules of post-processing
  OUT/report.txt   what was left out or changed, by kind, each with its line

The name of the first and the third is that of DIR. Run lgparse in OUT: word files are sought from there."""

EPILOG = "Statuses: 0 all was written, 1 a file cannot be read as what it is (with its line), 2 usage, 3 a file is missing."


def parse(words: list[str]) -> argparse.Namespace:
    """The words of the command line; ends with 2 where they are not in form."""
    parser = argparse.ArgumentParser(
        prog="from-link-parser", description=DESCRIPTION, epilog=EPILOG, formatter_class=argparse.RawDescriptionHelpFormatter)
    parser.add_argument("dir", metavar="DIR", type=Path, help="a data directory of link-parser")
    parser.add_argument("out", metavar="OUT", type=Path, help="the directory to write to; it is made if it is not there")
    parser.add_argument(
        "--cost-limit", metavar="N", type=cost_limit,
        help="leave out what costs more than N with the brackets around it; N may be none; without it the max-disjunct-cost of 4.0.dict, if any")
    parser.add_argument(
        "--exact-rules", action="store_true",
        help="give connectors further letters, so that patterns that ask for no letter have an exact counterpart; labels get longer")
    return parser.parse_args(words)


def cost_limit(text: str) -> int:
    """A cost limit in thousandths."""
    if text == "none":
        return NEVER - 1
    try:
        return min(NEVER - 1, round(Decimal(text) * 1000))
    except (InvalidOperation, ValueError, OverflowError) as error:
        raise argparse.ArgumentTypeError(f"{text} is neither a number nor none") from error


def limit_of(dictionary: Dictionary, asked: int | None) -> int:
    """The limit that was asked for, else that of the dictionary, else none."""
    return asked if asked is not None else cost_limit(dictionary.defines.get("max-disjunct-cost", "none"))


def convert(folder: Path, out: Path, limit: int | None = None, exact: bool = False) -> Report:
    """Reads all files of a directory, and then writes all files."""
    report = Report()
    dictionary = Dictionary(folder, report, default_costs(folder / "4.0.dialect"))
    dictionary.read(folder / "4.0.dict")
    classes = read_classes(folder / "4.0.regex")
    knowledge = folder / "4.0.knowledge"
    sections = read_sections(read_optional(knowledge), knowledge)
    names = {item.name for item in classes} | set(SPECIAL_WORDS)
    converter = Converter(dictionary, names, limit_of(dictionary, limit), patterns_in(sections) if exact else [], report)
    text = converter.text()
    report_classes(classes, folder / "4.0.regex", report)
    report_affixes(folder, report)
    rules = Translator(sections, knowledge, converter.links, report).text()
    language = folder.resolve().name
    write(out, {f"{language}.dict": text, f"{language}.know": rules, "report.txt": report.text(folder)})
    write(out, {name: "".join(word + "\n" for word in words) for name, words in converter.files.items()})
    return report


def write(out: Path, files: dict[str, str]) -> None:
    """Writes files below a directory."""
    for name, text in files.items():
        path = out / name
        path.parent.mkdir(parents=True, exist_ok=True)
        path.write_text(text, encoding="utf-8")


def main(words: list[str]) -> int:
    """The command; its status."""
    options = parse(words)
    try:
        report = convert(options.dir, options.out, options.cost_limit, options.exact_rules)
    except Fault as fault:
        print(f"from-link-parser: {fault}", file=sys.stderr)
        return fault.status
    except OSError as error:
        print(f"from-link-parser: cannot write {error.filename}: {error.strerror}", file=sys.stderr)
        return MISSING
    print("\n".join(report.figures))
    return 0
