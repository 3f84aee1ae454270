#!/usr/bin/env python3
"""Times sentences by a large dictionary, beside link-parser with the same one, where that is installed.

    bench/english.py FOLDER [LIMIT [WORD]]

FOLDER may have files `sentences-N.txt` with a sentence of about N words a line; `thirty.txt`, which stands beside this script, comes behind them. It
has the dictionary: `en.dict` for this program and `lp` for link-parser. Where there is no `en.dict` yet and link-parser's English is installed, both
are made of that by `tools/from-link-parser`, in three seconds. The program is the one that `bin/lgparse --build` builds. For each file it prints, for
each sentence, the numbers of disjuncts before and after pruning (by a run that counts them, which is not timed), and the processor milliseconds and
the megabytes of both programs beyond those that they take for the dictionary alone; and then the medians. Each figure is the least of three runs, and
that of the dictionary alone, which is taken from all others, the least of fifteen. A run ends after LIMIT seconds (60). With WORD, as `of`, that word
is put into the middle of each sentence, so that most of them have a word that stays unlinked. Behind the medians it prints the means: what all
sentences of the file take in one run beyond the dictionary, over their number, in processor milliseconds and in millions of instructions by
callgrind; and how many millions the first sentence takes without idioms and with them, with the dictionary.
"""
import glob
import os
import re
import statistics
import sys

sys.dont_write_bytecode = True

from beside import BASE_RUNS, PROGRAM, RUNS, TOP, instructions, lines_of, make_english, measured  # noqa: E402
from beside import our_command, ours_of, script_of, their_command, theirs_of  # noqa: E402


def ours(folder, sentence, limit, *options, runs=RUNS):
    return measured(folder, [PROGRAM, "one", "--want", "10", *options, "en.dict", sentence], "", limit, runs)


def beyond(run, base):
    if run is None or base is None:
        return None
    return max(run.seconds - base.seconds, 0.0), max(run.megabytes - base.megabytes, 0.0)


def shown(pair):
    return "         -         -" if pair is None else f"{1000 * pair[0]:7.0f} ms {pair[1]:6.0f} MB"


def middle(pairs):
    ended = [pair for pair in pairs if pair is not None]
    if len(ended) < len(pairs) or not ended:
        return None
    return statistics.median(p[0] for p in ended), statistics.median(p[1] for p in ended)


def with_word(sentence, word):
    words = sentence.split()
    return " ".join(words[:len(words) // 2] + [word] + words[len(words) // 2:])


def with_idioms(folder, sentence):
    off, on = (instructions(folder, [PROGRAM, "one", "--idioms", idioms, "en.dict", sentence]) for idioms in ("off", "on"))
    return "-" if off is None or on is None else f"{off:.0f} and {on:.0f} Minsn, {on / off:.2f} times"


def counted(folder, sentences):
    """Millions of instructions of both programs for all sentences in one run."""
    with script_of(sentences) as script:
        here = instructions(folder, our_command(script.name))
    return here, instructions(folder, their_command(folder), "".join(f"{it}\n" for it in sentences))


def mean(all_of_them, base, number, unit):
    return f"{'-':>7} {unit}" if all_of_them is None or base is None else f"{max(all_of_them - base, 0.0) / number:7.0f} {unit}"


def means(folder, sentences, limit, bases, base_counts):
    """What a sentence takes beyond the dictionary, in a run of all of them: processor milliseconds and instructions of both programs."""
    runs = ours_of(folder, sentences, limit * len(sentences), RUNS), theirs_of(folder, sentences, limit * len(sentences), RUNS)
    told = []
    for run, count, base, base_count in zip(runs, counted(folder, sentences), bases, base_counts):
        milliseconds = mean(run and 1000 * run.seconds, base and 1000 * base.seconds, len(sentences), "ms")
        told.append(f"{milliseconds} {mean(count, base_count, len(sentences), 'Minsn')}")
    return "   ".join(told)


def beside(folder, sentence, limit, bases):
    """Prints what a sentence takes in both programs, and gives it."""
    run = ours(folder, sentence, limit)
    with_stats = ours(folder, sentence, limit, "--stats", "on", runs=1)
    found = re.match(r"stats disjuncts (\d+) kept (\d+)", with_stats.shown) if with_stats else None
    counts = found.groups() if found else ("-", "-")
    both = beyond(run, bases[0]), beyond(theirs_of(folder, [sentence], limit, RUNS), bases[1])
    print(f"{len(sentence.split()):3d} words {counts[0]:>8} {counts[1]:>7}", shown(both[0]), shown(both[1]), flush=True)
    return both


def main():
    folder, limit = os.path.abspath(sys.argv[1]), float(sys.argv[2]) if len(sys.argv) > 2 else 60.0
    word = sys.argv[3] if len(sys.argv) > 3 else None
    make_english(folder)
    bases = ours(folder, "", limit, runs=BASE_RUNS), theirs_of(folder, [""], limit, BASE_RUNS)
    base_counts = counted(folder, [])
    alone = [shown(base and (base.seconds, base.megabytes)) for base in bases]
    print("dictionary alone:   lgparse", alone[0], "  link-parser", alone[1], flush=True)
    for path in [*sorted(glob.glob(f"{folder}/sentences-*.txt")), TOP / "bench/thirty.txt"]:
        print(os.path.basename(path))
        sentences = [with_word(it, word) if word else it for it in lines_of(path)]
        both = [beside(folder, sentence, limit, bases) for sentence in sentences]
        print("     medians              ", shown(middle([b[0] for b in both])), shown(middle([b[1] for b in both])), flush=True)
        print("     means                ", means(folder, sentences, limit, bases, base_counts), flush=True)
        print("     without idioms and with", with_idioms(folder, sentences[0]), flush=True)


main()
