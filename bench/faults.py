#!/usr/bin/env python3
"""Runs the program with one call after another at fault, and judges how each run ends. `faults.sh` calls it, and says how.

What must hold. Each run ends within a minute, by its own status. Where no call that failed was needed, the run ends as usual. Else

    memory refused, once or from then on    as usual, or status 5 with `lgparse: out of memory`
    a file does not open, a read fails      status 3 with `lgparse: cannot read NAME`, of the file that was asked for, and nothing written
    the same for want of memory             status 5
    a write to standard output fails        status 4 with `lgparse: cannot write the output`
    a write to standard error fails         as usual, with a front part of the usual line
    short reads and writes, and those that are interrupted a few times, or a thread that does not start: as usual

and what was written to standard output is a front part of what is written as usual. Where several sessions run, `as usual` is any
document that an interleaving of their commands allows: each interleaving is run as one script, and its answers are put back into their
places. That works for scripts without `more`, which speaks of its own session's listing.
"""
import argparse
import errno
import itertools
import os
import re
import shlex
import shutil
import subprocess
import sys
from concurrent.futures import ThreadPoolExecutor
from dataclasses import dataclass

TOP = os.path.dirname(os.path.dirname(os.path.realpath(__file__)))

# The inputs: a name, and the words of the command line.
INPUTS = [
    ("edits", "run edits.dict none.know edits.script"),
    ("walls", "one --prune on walls.short 'The big cat ran.'"),
    ("walls, not pruned", "one --prune off walls.short 'The big cat ran.'"),
    ("walls, 4 workers", "one --prune off --workers 4 walls.short 'The big cat ran.'"),
    ("walls, 16 workers", "one --workers 16 walls.short 'The big cat ran.'"),
    ("4 workers", "one --want 1 --workers 4 kinds.dict 'f m l'"),
    ("16 workers", "one --want 1 --workers 16 kinds.dict 'f m l'"),
    ("a rule", "run rule.dict rule.know rule.script"),
    ("a session", "run attachment.dict session.know session.script"),
    ("totals", "run --usage on edits.dict none.know edits.script"),
    ("nulls passing", "run --nulls passing first.dict mary.know mary.script"),
    ("a diagram", "one --stats on --diagram on first.dict 'the cat chased a snake'"),
    ("made", "gen 5 8 4"),
    ("a word file", "one files.dict 'q y'"),
    ("a word file of two chunks", "one long.dict 'w1 y'"),
    ("no command", "one first.dict"),
    ("a refused dictionary", "one broken.dict x"),
    ("a refused knowledge file", "run first.dict broken.know mary.script"),
    ("a refused script", "run first.dict none.know broken.script"),
    ("a word file of a refused word", "one twice.dict x"),
    ("an absent file", "one absent.dict x"),
    ("a version", "export edits.dict edits.script 1"),
    ("more versions than there are", "export edits.dict edits.script 9"),
    ("two sessions", "run first.dict none.know two.a.script two.b.script"),
    ("two sessions with one word", "run edits.dict none.know one.script other.script"),
    ("three sessions", "run edits.dict none.know one.script other.script third.script"),
]

KINDS = "ABCDEFGHIJKLMNOPQRST"

# The files that they name and that are no samples. `kinds.dict` has words with so many disjuncts that workers start.
TEXTS = {
    "edits.dict": "x: B+; y: A- or B-;",
    "edits.script": "parse x y\nset x: A+;\nparse x y\nmore\n",
    "walls.short": 'LEFT-WALL: Wd+ & {Xp+}; the: D+; big: A+; cat.n: {@A-} & D- & Wd- & S+; ran.v: S-; ".": Xp-;',
    "kinds.dict": "<r>: " + " or ".join(f"{kind}+" for kind in KINDS) + "; <l>: " + " or ".join(f"{kind}-" for kind in KINDS) + "; f: <r>; m: <l> & <r>; l: <l>;",
    "rule.dict": "x: (A+ & B+) or [C+ & B+]; y: A- or C-; z: B-;",
    "rule.know": "none: A { B };",
    "rule.script": "parse x y z\n",
    "mary.know": "none: S { S };",
    "mary.script": "parse Mary ran\nlist 1 1 Mary ran\nmore\n",
    "files.dict": "/files.words: A+; y: A-;",
    "files.words": "p q",
    "long.dict": "/long.words: A+; y: A-;",
    "long.words": "".join(f"w{i}\n" for i in range(900)),
    "broken.dict": "x: (A+",
    "broken.know": "start: e C",
    "broken.script": "version\nhalt\n",
    "twice.dict": "q: A+;\n/files.words: A+;\n",
    "one.script": "set x: A+;\nversion\n",
    "other.script": "set x: B+;\nparse x y\n",
    "third.script": "del y\n",
}

# What may become of a call: its name, the calls that are at fault of those from N on, and the number for FAULT_HOW. A number of errno is a
# failure, one below zero the most bytes that are moved, and 0 a write that takes nothing.
ONCE, ALL = 1, 1 << 40
FAULTS = [
    ("memory", ONCE, errno.ENOMEM),
    ("memory", ALL, errno.ENOMEM),
    ("open", ONCE, errno.EACCES),
    ("open", ONCE, errno.ENOMEM),
    ("open", ONCE, errno.EINTR),
    ("read", ONCE, errno.EIO),
    ("read", ALL, errno.EIO),
    ("read", ONCE, errno.ENOMEM),
    ("read", ONCE, errno.EINTR),
    ("read", 7, errno.EINTR),
    ("read", ALL, errno.EINTR),
    *(("read", ALL, -count) for count in range(1, 8)),
    ("output", ONCE, errno.ENOSPC),
    ("output", ONCE, errno.EPIPE),
    ("output", ONCE, 0),
    ("output", ONCE, errno.EINTR),
    ("output", 7, errno.EINTR),
    ("output", ALL, errno.EINTR),
    *(("output", ALL, -count) for count in range(1, 8)),
    ("errors", ONCE, errno.ENOSPC),
    ("errors", ALL, errno.EINTR),
    ("errors", ONCE, 0),
    ("errors", ONCE, errno.EINTR),
    *(("errors", ALL, -count) for count in range(1, 8)),
    ("thread", ONCE, errno.EAGAIN),
    ("thread", ALL, errno.EAGAIN),
]

NO_MEMORY = (5, b"lgparse: out of memory\n")
NO_OUTPUT = (4, b"lgparse: cannot write the output\n")


@dataclass(frozen=True)
class Ending:
    status: int
    out: bytes
    err: bytes


@dataclass(frozen=True)
class Told:
    """What the library counted."""

    calls: int
    faults: int
    name: str


class Runner:
    def __init__(self, program, folder):
        self.program = os.path.realpath(program)
        self.library = os.path.join(folder, "faults.so")
        self.folder = os.path.join(folder, "inputs")
        self.numbers = itertools.count()

    def run(self, words, call="", first=0, count=0, how=0):
        """How the program ends, and what was counted."""
        told = os.path.join(os.path.dirname(self.folder), f"told{next(self.numbers)}")
        variables = {
            "LD_PRELOAD": self.library,
            "FAULT_CALL": call,
            "FAULT_FROM": str(first),
            "FAULT_TO": str(first + count - 1),
            "FAULT_HOW": str(how),
            "FAULT_TOLD": told,
        }
        try:
            ran = subprocess.run(
                [self.program, *words], cwd=self.folder, env=variables, stdin=subprocess.DEVNULL, capture_output=True, timeout=60, check=False)
            ending = Ending(ran.returncode, ran.stdout, ran.stderr)
        except subprocess.TimeoutExpired:
            ending = Ending(-999, b"", b"")
        return ending, self.told(told)

    @staticmethod
    def told(path):
        """What the library wrote, which a process that is killed does not let it do."""
        try:
            with open(path, encoding="utf-8") as file:
                calls, faults, name = file.read().rstrip("\n").split(" ", 2)
        except FileNotFoundError:
            return Told(0, 1, "")
        os.remove(path)
        return Told(int(calls), int(faults), os.path.basename(name))


REPLY = re.compile(rb"1\.(\d+) (parse|list|set|macro|del|version|more)\b")


def orders(counts):
    """All interleavings of so many commands of each session, as lists of the sessions."""
    if not any(counts):
        yield []
        return
    for session, count in enumerate(counts):
        if count:
            rest = counts[:session] + [count - 1] + counts[session + 1 :]
            for order in orders(rest):
                yield [session, *order]


def placed(document, places):
    """The document of several sessions, from that of one script with their commands at these places."""
    lines = document.split(b"\n")
    end = next(i for i, line in enumerate(lines) if line.startswith(b"journal "))
    answers = {}
    for line in lines[:end]:
        found = REPLY.match(line)
        if found:
            place = places[int(found[1]) - 1]
            line = b"%d.%d" % place + line[len(b"1.") + len(found[1]) :]
        answers.setdefault(place, []).append(line)
    journal = [re.sub(rb"^(edit \d+ )1\.(\d+)$", lambda m: m[1] + b"%d.%d" % places[int(m[2]) - 1], line) for line in lines[end:]]
    return b"\n".join([line for place in sorted(answers) for line in answers[place]] + journal)


def legal(runner, words):
    """All endings of a run of several sessions."""
    options, scripts = words[:-count_of_scripts(words)], words[-count_of_scripts(words) :]
    commands = []
    for script in scripts:
        with open(os.path.join(runner.folder, script), encoding="utf-8") as file:
            commands.append(file.read().splitlines())
    found = set()
    for order in orders([len(lines) for lines in commands]):
        places, left = [], [iter(enumerate(lines, 1)) for lines in commands]
        with open(os.path.join(runner.folder, "merged.script"), "w", encoding="utf-8") as file:
            for session in order:
                number, line = next(left[session])
                assert line.split() != ["more"], "more speaks of its own session"
                places.append((session + 1, number))
                file.write(line + "\n")
        ending, _ = runner.run([*options, "merged.script"])
        assert ending.status == 0, ending
        found.add(Ending(0, placed(ending.out, places), b""))
    return found


def count_of_scripts(words):
    return sum(word.endswith(".script") for word in words)


def usual(runner, words):
    """The endings of a run without a fault."""
    seen = {runner.run(words)[0] for _ in range(5)}
    if count_of_scripts(words) < 2:
        assert len(seen) == 1, f"{len(seen)} endings of {words}"
        return seen
    found = legal(runner, words)
    assert seen <= found, f"{words} ended as no interleaving does"
    return found


def is_lasting(count, how):
    """Whether calls go on to fail: those that are interrupted a few times are tried again."""
    return how >= 0 and (how != errno.EINTR or count == ALL)


def is_refusal(ending, call, how, told):
    """Whether this is how a run ends in which such a call failed, but for what was written to standard output."""
    end = (ending.status, ending.err)
    if call in ("memory", "thread"):
        return end == NO_MEMORY
    if call == "output":
        return end == NO_OUTPUT
    if how == errno.ENOMEM:
        return end == NO_MEMORY and not ending.out
    return end == (3, f"lgparse: cannot read {told.name}\n".encode()) and not ending.out


def is_front(ending, endings):
    """Whether the line on standard error is cut, and all else as usual."""
    return any((e.status, e.out) == (ending.status, ending.out) and e.err.startswith(ending.err) and e.err != ending.err for e in endings)


def is_right(ending, endings, call, count, how, told):
    """Whether a run with these calls at fault ended as it must."""
    if told.faults == 0 or not is_lasting(count, how):
        return ending in endings
    if call == "errors":
        return is_front(ending, endings)
    if call in ("memory", "thread") and ending in endings:
        return True
    return is_refusal(ending, call, how, told) and any(e.out.startswith(ending.out) for e in endings)


class Tally:
    def __init__(self):
        self.refused = 0
        self.wrong = []

    def add(self, words, call, first, count, how, ending, endings, told):
        self.refused += told.faults > 0
        if not is_right(ending, endings, call, count, how, told):
            last = first + count - 1
            self.wrong.append(f"FAULT_CALL={call} FAULT_FROM={first} FAULT_TO={last} FAULT_HOW={how} {shlex.join(words)}: {ending}")


def numbers_of(calls, most):
    """The numbers of the calls that are tried, and one past the last."""
    step = -(-calls // most) if calls > most else 1
    return [*range(1, calls + 1, step), calls + 1]


def tried(runner, pool, words, endings, call, count, how, most):
    """A tally of the runs in which a call and those after it are at fault, for each call."""
    calls = max(runner.run(words, call)[1].calls for _ in range(3))
    tally = Tally()
    firsts = numbers_of(calls, most)
    for first, (ending, told) in zip(firsts, pool.map(lambda n: runner.run(words, call, n, count, how), firsts)):
        tally.add(words, call, first, count, how, ending, endings, told)
    return tally


def name_of(call, count, how):
    if how < 0:
        return f"{call}, {-how} bytes a call"
    cause = errno.errorcode[how] if how else "nothing taken"
    return f"{call}, {cause}, " + ("once" if count == ONCE else f"{count} times" if count < ALL else "from then on")


def make_inputs(folder):
    shutil.copytree(os.path.join(TOP, "samples"), folder)
    for name, text in TEXTS.items():
        with open(os.path.join(folder, name), "w", encoding="utf-8") as file:
            file.write(text)


def main():
    parser = argparse.ArgumentParser()
    parser.add_argument("program")
    parser.add_argument("folder")
    parser.add_argument("--jobs", type=int, default=2)
    parser.add_argument("--most", type=int, default=10000)
    parser.add_argument("inputs", nargs="*")
    given = parser.parse_intermixed_args()
    runner = Runner(given.program, given.folder)
    make_inputs(runner.folder)
    wrong, sums = [], {}
    with ThreadPoolExecutor(given.jobs) as pool:
        for name, line in INPUTS:
            if given.inputs and name not in given.inputs:
                continue
            words = shlex.split(line)
            endings = usual(runner, words)
            shown = []
            for call, count, how in FAULTS:
                tally = tried(runner, pool, words, endings, call, count, how, given.most)
                sums[call] = sums.get(call, 0) + tally.refused
                shown.append((call, tally.refused))
                wrong += [f"{name_of(call, count, how)}: {text}" for text in tally.wrong]
            told = ", ".join(f"{call} {sum(n for c, n in shown if c == call)}" for call in dict.fromkeys(c for c, _ in shown))
            print(f"{name:30} {len(endings):3} endings, at fault: {told}", flush=True)
    for text in wrong:
        print(f"WRONG {text}")
    print("runs with a fault: " + ", ".join(f"{call} {count}" for call, count in sums.items()))
    print(f"{len(wrong)} not as they must")
    sys.exit(bool(wrong))


main()
