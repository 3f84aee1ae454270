#!/usr/bin/env python3
"""Measures inputs that make pruning look at the same formulas again and again.

    bench/rounds.py

`choices`: two words of N choices, and each round of expression pruning takes one choice of each word away, until `K` alone is left. `subscripts`: two
words of N choices, connectors with the same capital letters and N subscripts, which all stay. For each N it writes a dictionary and a script of one
sentence, and prints the user seconds and the megabytes of one run. The program is the one that `bin/lgparse --build` builds.
"""
import os
import subprocess
import sys
import tempfile

sys.dont_write_bytecode = True

from beside import our_command  # noqa: E402

MEASURED = ["/usr/bin/time", "-q", "-f", "%U %M", "timeout", "600"]


def letters(number, first):
    """Four letters that tell the number, the first letter of the alphabet as given."""
    return "".join(chr(ord(first) + number // 26**place % 26) for place in range(4))


def choices(count):
    """Choice i of `l` needs a partner in choice i - 1 of `r`, and choice i of `r` one in choice i of `l`; choice 0 of `l` has none."""
    names = [letters(i, "A") for i in range(count + 1)]
    left = [f"(X{names[i]}+ & Y{names[i]}+)" for i in range(count)]
    right = [f"(Y{names[i]}- & X{names[i + 1]}-)" for i in range(count)]
    return f"l: {' or '.join(['K+', *left])};\nr: {' or '.join(['K-', *right])};\n"


def subscripts(count):
    """Each connector of `l` has one partner in `r`."""
    names = [letters(i, "a") for i in range(count)]
    return f"l: {' or '.join(f'X{name}+' for name in names)};\nr: {' or '.join(f'X{name}-' for name in names)};\n"


def measure(kind, count):
    with tempfile.TemporaryDirectory() as folder:
        for name, text in {"en.dict": kind(count), "script": "parse l r\n"}.items():
            with open(os.path.join(folder, name), "w", encoding="utf-8") as out:
                out.write(text)
        run = subprocess.run([*MEASURED, *our_command("script")], cwd=folder, stdout=subprocess.DEVNULL, stderr=subprocess.PIPE, text=True, check=True)
    user, most = run.stderr.split()
    print(f"{kind.__name__:10} {count:6} {float(user):8.2f} user s {int(most) / 1024:6.1f} MB", flush=True)


def main():
    for kind, counts in (choices, (1000, 2000, 4000)), (subscripts, (4000, 8000, 16000)):
        for count in counts:
            measure(kind, count)


main()
