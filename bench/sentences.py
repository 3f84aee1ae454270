#!/usr/bin/env python3
"""Makes the inputs of forest.sh and rank.sh.

    bench/sentences.py KIND WORDS FOLDER

Writes FOLDER/d, a dictionary, FOLDER/s, the sentence alone, and FOLDER/lp/4.0.*, the same dictionary for link-parser.

    chain      each word may be joined to the next one and to many before it
    ambiguous  each word is joined to the next one in two ways
    phrases    a subject, a verb, an object, and phrases that may be attached to several words
    made       words of the made dictionary, drawn by its own generator from the number 5
    unlinked   the same phrases; each third word has a connector that nothing matches
    rich       words with some 500 disjuncts each
    loose      each word may be joined to any other one, by one link, so that all but two stay unlinked
"""
import os
import sys

PHRASES = """the: D+;
n: {D-} & {@M+} & (S+ or O- or J-);
v: S- & {O+} & {@M+};
p: M- & J+;
"""


def phrases(words):
    """`the n v the n`, and then `p the n` again and again."""
    return (["the", "n", "v", "the", "n"] + ["p", "the", "n"] * words)[:words]


def draws(seed):
    """The numbers of the generator of made input: a draw below m is m's rest of the next one."""
    while True:
        seed = (1664525 * seed + 1013904223) % 2**32
        yield seed // 65536


def made(words):
    shapes = ["D+", "{D-} & {@M+} & (S+ or O- or J-)", "S- & {O+} & {@M+}", "M- & J+"]
    lines = [f"w{i}: {shapes[i % 4]};" for i in range(400)]
    source = draws(5)
    return "\n".join(lines) + "\n", [f"w{next(source) % 400}" for _ in range(words)]


def rich(words):
    """Thirty words; each has optional connectors of 26 kinds, drawn by the same generator."""
    source = draws(7)
    kinds = "ABCDEFGHIJKLMNOPQRSTUVWXYZ"
    lines = []
    for i in range(30):
        drawn = [kinds[next(source) % 26] for _ in range(12)]
        left = f"{{{drawn[0]}- or {drawn[1]}- or {drawn[2]}-}} & {{{drawn[3]}- or {drawn[4]}-}} & {{@{drawn[5]}-}}"
        right = f"{{{drawn[6]}+ or {drawn[7]}+ or {drawn[8]}+}} & {{{drawn[9]}+ or {drawn[10]}+}} & {{@{drawn[11]}+}}"
        lines.append(f"r{i}: {left} & {right};")
    return "\n".join(lines) + "\n", [f"r{next(source) % 30}" for _ in range(words)]


def problem(kind, words):
    """The text of the dictionary, and the words of the sentence."""
    if kind == "chain":
        return "x: {@X-} & {X+};\n", ["x"] * words
    if kind == "ambiguous":
        return "f: A+ or [B+];\nm: (A- or B-) & (A+ or [B+]);\nl: A- or B-;\n", ["f"] + ["m"] * (words - 2) + ["l"]
    if kind == "phrases":
        return PHRASES, phrases(words)
    if kind == "unlinked":
        text = PHRASES + "z: Z+;\n"
        linked = iter(phrases(words))
        return text, ["z" if i % 3 == 2 else next(linked) for i in range(words)]
    if kind == "loose":
        return "x: () or X+ or X-;\n", ["x"] * words
    return {"made": made, "rich": rich}[kind](words)


def main():
    kind, words, folder = sys.argv[1], int(sys.argv[2]), sys.argv[3]
    text, sentence = problem(kind, words)
    os.makedirs(f"{folder}/lp", exist_ok=True)
    with open(f"{folder}/d", "w", encoding="utf-8") as out:
        out.write(text)
    with open(f"{folder}/s", "w", encoding="utf-8") as out:
        out.write(" ".join(sentence) + "\n")
    for name in ("regex", "affix", "knowledge"):
        open(f"{folder}/lp/4.0.{name}", "w", encoding="utf-8").close()
    with open(f"{folder}/lp/4.0.dict", "w", encoding="utf-8") as out:
        out.write("#define dictionary-version-number v5v12v0+;\n#define dictionary-locale C;\n" + text)


main()
