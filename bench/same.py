#!/usr/bin/env python3
"""Lists random sentences by 1, 3 and 16 workers, with pruning and without, and compares the documents.

    bench/same.py [RUNS [SEED]]

Each of the runs (200 by default) has a made dictionary of up to 12 words, whose formulas are drawn from few connectors, and a sentence of
up to 40 of them and of words that nothing joins. What must hold: all six documents are the same.
"""
import os
import random
import subprocess
import sys
import tempfile

TOP = os.path.dirname(os.path.dirname(os.path.realpath(__file__)))
PROGRAM = os.path.join(TOP, "crates", "lgparse", "out", "lgparse")


def side(rng, sign):
    parts = []
    for _ in range(rng.randint(0, 2)):
        names = " or ".join(rng.choice(["", "@"]) + rng.choice("ABCD") + sign for _ in range(rng.randint(1, 2)))
        parts.append(f"{{{names}}}" if rng.randrange(3) else f"({names})")
    return parts


def formula(rng):
    parts = side(rng, "-") + side(rng, "+")
    cost = rng.choice(["", "", "[", "[["])
    return cost + (" & ".join(parts) or "()") + "]" * len(cost)


def document(folder, sentence, workers, prune):
    command = [PROGRAM, "one", "--want", "50", "--workers", str(workers), "--prune", prune, "d", sentence]
    return subprocess.run(command, cwd=folder, capture_output=True, check=True, timeout=600).stdout


def main():
    runs = int(sys.argv[1]) if len(sys.argv) > 1 else 200
    rng = random.Random(int(sys.argv[2]) if len(sys.argv) > 2 else 1)
    linked = 0
    for number in range(runs):
        with tempfile.TemporaryDirectory() as folder:
            words = [f"w{i}" for i in range(rng.randint(3, 12))]
            with open(os.path.join(folder, "d"), "w", encoding="utf-8") as out:
                out.writelines(f"{word}: {formula(rng)};\n" for word in words)
            sentence = " ".join(rng.choice(words + ["none"]) for _ in range(rng.randint(2, 40)))
            documents = {document(folder, sentence, workers, prune) for workers in (1, 3, 16) for prune in ("on", "off")}
            if len(documents) != 1:
                sys.exit(f"run {number}: {len(documents)} documents of {sentence!r}")
            linked += b"\nlink " in documents.pop()
    print(f"{runs} sentences, {linked} of them with links, each with one document")


main()
