#!/usr/bin/env python3
"""Compares programs of this repository, as they were before and after a change, on files of sentences, in turn.

    bench/turns.py [--rounds N] [--count] FOLDER FILE.. -- PROGRAM..

FOLDER is that of english.py, which has the dictionary or gets it. Each FILE has a sentence a line; all its sentences are one run. `fifty-1` and the
like are no files, but so many words (`thirty` or `fifty`) that are drawn by this seed from the words of all files before them. For each file and
program it prints the least and the median of N rounds (3), in user seconds beyond those for the dictionary alone, the megabytes, and whether the
document is that of the first program. With --count it prints millions of instructions beyond the dictionary, by callgrind, which takes some fifty
times as long, and tells programs apart that seconds do not. `tools/native` makes a program of sources that are not proved yet.
"""
import argparse
import os
import random
import statistics
import sys
from pathlib import Path

sys.dont_write_bytecode = True

from beside import instructions, lines_of, make_english, measured, script_of  # noqa: E402

LIMIT = 600
DRAWN = {"thirty": 30, "fifty": 50}


def command(program, script):
    return [program, "run", "--want", "10", "en.dict", os.devnull, script]


def sentences_of(name, words):
    """The sentences of a file, or one of words that are drawn."""
    kind, _, seed = name.partition("-")
    if kind in DRAWN and not Path(name).exists():
        return [" ".join(random.Random(int(seed)).sample(words, DRAWN[kind]))]
    return lines_of(name)


def counted(folder, programs, sentences):
    with script_of(sentences) as script:
        return [instructions(folder, command(program, script.name)) for program in programs]


def timed(folder, programs, sentences, rounds):
    """The runs of each program, where each round runs each program once."""
    with script_of(sentences) as script:
        runs = [[measured(folder, command(program, script.name), "", LIMIT, 1) for program in programs] for _ in range(rounds)]
    return list(zip(*runs))


def show_counts(name, programs, counts, bases):
    for program, count, base in zip(programs, counts, bases):
        print(f"{name:16} {Path(program).name:12} {count - base:10.1f} Minsn", flush=True)


def show_times(name, programs, runs, bases):
    for program, own, base in zip(programs, runs, bases):
        seconds = [run.user - min(it.user for it in base) for run in own]
        same = "same" if own[0].shown == runs[0][0].shown else "DIFFERENT"
        megabytes = max(run.megabytes for run in own)
        print(f"{name:16} {Path(program).name:12} {min(seconds):8.3f} s {statistics.median(seconds):8.3f} s {megabytes:6.0f} MB  {same}", flush=True)


def main():
    cut = sys.argv.index("--") if "--" in sys.argv else len(sys.argv)
    parser = argparse.ArgumentParser(description=__doc__, formatter_class=argparse.RawDescriptionHelpFormatter)
    parser.add_argument("--rounds", type=int, default=3)
    parser.add_argument("--count", action="store_true")
    parser.add_argument("folder")
    parser.add_argument("files", nargs="+")
    given = parser.parse_args(sys.argv[1:cut])
    programs = [str(Path(program).resolve()) for program in sys.argv[cut + 1 :]]
    if not programs:
        parser.error("no program behind --")
    make_english(given.folder)
    of = (lambda it: counted(given.folder, programs, it)) if given.count else (lambda it: timed(given.folder, programs, it, given.rounds))
    bases, words = of([]), []
    for name in given.files:
        sentences = sentences_of(name, words)
        if Path(name).exists():
            words += [word for sentence in sentences for word in sentence.split()]
        show = show_counts if given.count else show_times
        show(Path(name).name, programs, of(sentences), bases)


main()
