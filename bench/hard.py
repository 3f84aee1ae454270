#!/usr/bin/env python3
"""Times what takes long, beside link-parser with the same dictionary, where that is installed; words may stay unlinked.

    bench/hard.py FOLDER FILE..

FOLDER is that of english.py, which has the dictionary or gets it. Each FILE has a sentence a line, as damaged ones, and is a row: all its sentences
in one run. Then come rows of 30 and 50 words that are drawn from the words of all files by fixed seeds, three of each; and 240 words `x` of
`x: () or X+ or X-;`. A row has for both programs the processor seconds beyond those for the dictionary alone, in brackets how many of them are the
program's own and not the system's, and the megabytes with the dictionary; then, for shuffled words, how many stay unlinked in this program. Each row is
of one run, the dictionary alone of the least of five. The program is the one that `bin/lgparse --build` builds. A run that takes ten minutes or four
gigabytes is ended, and has a `-`.
"""
import os
import random
import re
import resource
import subprocess
import sys
import tempfile
from pathlib import Path

sys.dont_write_bytecode = True

from beside import PROGRAM, TOP, lines_of, make_english, make_language, measured, ours_of, theirs_of  # noqa: E402

LIMIT = 600
MEMORY = 4 << 30
SEEDS = (1, 2, 3)
LENGTHS = (30, 50)
LOOSE = "240"


def shown(run, base):
    """What a run takes beyond the dictionary."""
    if run is None or base is None:
        return f"{'-':>27}"
    return f"{max(run.seconds - base.seconds, 0):7.2f} s ({max(run.user - base.user, 0):6.2f}) {run.megabytes:4.0f} MB"


def row(name, runs, bases, more=""):
    here, there = (shown(run, base) for run, base in zip(runs, bases))
    print(f"{name:28} {here}   {there}  {more}", flush=True)


def both(folder, sentences, runs=1):
    """All sentences in one run of each program."""
    return ours_of(folder, sentences, LIMIT, runs), theirs_of(folder, sentences, LIMIT, runs)


def unlinked(run):
    found = re.search(r"^linkage 1 unused (\d+)", run.shown, re.MULTILINE) if run else None
    return f"{found.group(1)} unlinked" if found else ""


def shuffled(folder, sentences, bases):
    """Rows of words that are drawn from the sentences, each word as often as it stands there."""
    words = [word for sentence in sentences for word in sentence.split()]
    for length in LENGTHS:
        for seed in SEEDS:
            runs = both(folder, [" ".join(random.Random(seed).sample(words, length))])
            row(f"{length} shuffled words, seed {seed}", runs, bases, unlinked(runs[0]))


def loose():
    """Words that may be joined to any other one, by a dictionary of their own, with the time from start to end."""
    with tempfile.TemporaryDirectory() as folder:
        subprocess.run([TOP / "bench/sentences.py", "loose", LOOSE, folder], check=True)
        text, sentence = (open(f"{folder}/{name}", encoding="utf-8").read() for name in "ds")
        make_language(Path(folder) / "lp", text)
        here = measured(folder, [PROGRAM, "one", "--want", "10", "d", sentence.strip()], "", LIMIT, 1)
        there = theirs_of(folder, [sentence.strip()], LIMIT)
        nothing = measured(folder, [PROGRAM, "one", "d", ""], "", LIMIT, 1), theirs_of(folder, [""], LIMIT)
        row(f"{LOOSE} words x", (here, there), nothing)


def main():
    folder, files = os.path.abspath(sys.argv[1]), sys.argv[2:]
    make_english(folder)
    resource.setrlimit(resource.RLIMIT_AS, (MEMORY, MEMORY))
    bases = both(folder, [], 5)
    print(f"{'':28} {'lgparse':>27}   {'link-parser':>27}")
    row("the dictionary alone", bases, [base and base._replace(seconds=0, user=0) for base in bases])
    for path in files:
        row(os.path.basename(path), both(folder, lines_of(path)), bases)
    loose()
    shuffled(folder, [sentence for path in files for sentence in lines_of(path)], bases)


main()
