#!/usr/bin/env python3
"""Runs random scripts as sessions at once, and checks each document that comes of them.

    bench/stress.py [RUNS [SEED]]

Each of the runs (200 by default) has 8 scripts of up to 40 random commands over 6 words. What must hold whatever the
interleaving: the journal's lines are numbered from 1, each names an edit command of a script, no edit stands twice, and those
of one session stand in the order of its script; an edit stands there exactly where it was answered with a version, and that is its number; no version is above
the number of edits; the versions of a session never fall, but for `more`, which has the version of its listing; and a
listing's version is at least every version that its session was answered before. There is no parser in this.
"""
import os
import random
import re
import subprocess
import sys
import tempfile

TOP = os.path.dirname(os.path.dirname(os.path.realpath(__file__)))
PROGRAM = os.path.join(TOP, "crates", "lgparse", "out", "lgparse")
WORDS = ["u", "v", "w", "x", "y", "z"]
NAMES = ["A", "B", "C"]
REPLY = re.compile(r"(\d+)\.(\d+) (parse|list|more|set|macro|del|version)(?: (.*))?$")


def formula(rng):
    parts = [rng.choice(["", "@"]) + rng.choice(NAMES) + rng.choice("+-") for _ in range(rng.randint(1, 3))]
    return rng.choice([" & ", " or "]).join(parts)


def command(rng):
    kind = rng.randrange(10)
    if kind < 3:
        return f"set {rng.choice(WORDS)}: {rng.choice(['<m>', formula(rng)])};"
    if kind == 3:
        return f"macro <m>: {formula(rng)};"
    if kind == 4:
        return f"del {rng.choice(WORDS)}"
    if kind == 5:
        return "more"
    if kind == 6:
        return "version"
    sentence = " ".join(rng.choice(WORDS) for _ in range(rng.randint(0, 5)))
    return f"parse {sentence}" if kind < 9 else f"list {rng.randint(1, 3)} {rng.randint(1, 3)} {sentence}"


def replies_and_journal(text):
    lines = text.split("\n")
    end = max(i for i, line in enumerate(lines) if line.startswith("journal "))
    replies = {}
    for line in lines[:end]:
        found = REPLY.match(line)
        if found:
            replies[int(found[1]), int(found[2])] = (found[3], found[4] or "")
    count = int(lines[end].split()[1])
    edits = lines[end + 1 : end + 1 + count]
    assert lines[end + 1 + count :] == ["done", ""], "the document goes on behind its journal"
    return replies, edits


def version_of(kind, rest):
    """The version that a reply names, or None."""
    found = re.match(r"(?:refused at (\d+):|version (\d+)|(\d+)$)", rest)
    if kind == "version":
        return int(rest)
    return int(found[1] or found[2]) if found else None


def check(scripts, text):
    replies, edits = replies_and_journal(text)
    journal = []
    for number, line in enumerate(edits, 1):
        found = re.match(r"edit (\d+) (\d+)\.(\d+)$", line)
        assert found and int(found[1]) == number, f"journal line {number}: {line}"
        journal.append((int(found[2]), int(found[3])))
    assert len(set(journal)) == len(journal), "an edit stands twice"
    for session, script in enumerate(scripts, 1):
        own = [place for place in journal if place[0] == session]
        assert own == sorted(own), f"session {session}: edits out of order"
        check_session(session, script, replies, journal)
    assert len(replies) == sum(map(len, scripts)), "as many answers as commands"


def check_session(session, script, replies, journal):
    reached = 0
    held = None
    for number, asked in enumerate(script, 1):
        kind, rest = replies[session, number]
        assert kind == asked.split()[0], f"{session}.{number}: {kind} answers {asked}"
        version = version_of(kind, rest)
        published = kind in ("set", "macro", "del") and rest.startswith("version ")
        assert published == ((session, number) in journal), f"{session}.{number}: {rest}"
        if kind == "more":
            assert version == held, f"{session}.{number}: {rest}, held {held}"
            continue
        assert version <= len(journal), f"{session}.{number}: version {version}"
        if published:
            assert journal[version - 1] == (session, number) and version > reached, f"{session}.{number}: {rest}"
        assert version >= reached, f"{session}.{number}: version {version} after {reached}"
        reached = version
        if kind in ("parse", "list"):
            held = None if " too many " in rest else version


def main():
    runs = int(sys.argv[1]) if len(sys.argv) > 1 else 200
    rng = random.Random(int(sys.argv[2]) if len(sys.argv) > 2 else 1)
    if not os.path.exists(PROGRAM):
        sys.exit("build the program first: bin/lgparse --build")
    journals = set()
    for run in range(runs):
        scripts = [[command(rng) for _ in range(rng.randint(0, 40))] for _ in range(8)]
        with tempfile.TemporaryDirectory() as folder:
            for name, text in [("d", "u: A+; v: A- or B+;\n"), ("k", "")]:
                with open(os.path.join(folder, name), "w", encoding="utf-8") as file:
                    file.write(text)
            names = []
            for number, script in enumerate(scripts, 1):
                names.append(f"s{number}")
                with open(os.path.join(folder, names[-1]), "w", encoding="utf-8") as file:
                    file.write("".join(line + "\n" for line in script))
            ran = subprocess.run([PROGRAM, "run", "d", "k", *names], cwd=folder, capture_output=True, text=True, check=True)
        check(scripts, ran.stdout)
        journals.add(ran.stdout[ran.stdout.rindex("journal ") :])
    print(f"{runs} runs, {len(journals)} journals, each as it must be")


main()
