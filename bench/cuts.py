#!/usr/bin/env python3
"""Runs the built program on texts that were cut and changed at random, and judges how each run ends.

    bench/cuts.py [--cases N] [--seed N] [--jobs N] [--keep FOLDER] [--only CASE]

A case is a dictionary, a word file, a knowledge file or a script. It is drawn from the seed and its own number: one of the samples or of the texts
below, of which bytes, lines or the end are cut, doubled or exchanged, bytes are set to 0, to 255 or to another one, and parts are repeated or put
into brackets up to a limit or one past it. Before them come the texts of `LIMITS`, as they are.

What must hold: the status is 0, with nothing on standard error, or 1, with nothing on standard output and one line on standard error that names
a place in a text of the run; or 3, where the dictionary names a word file that is not there. A run takes at most ten processor seconds and 4 GB.
A text of `LIMITS` ends as it says there. What fails is kept in FOLDER, with the words that it was run with; N cases are 10,000 by default.
"""
import argparse
import os
import random
import re
import resource
import shlex
import signal
import subprocess
import sys
import tempfile
import time
from concurrent.futures import ProcessPoolExecutor
from dataclasses import dataclass, field

TOP = os.path.dirname(os.path.dirname(os.path.realpath(__file__)))
PROGRAM = os.path.join(TOP, "crates", "lgparse", "out", "lgparse")
SAMPLES = os.path.join(TOP, "samples")

SECONDS = 10
MEGABYTES = 4096
# No run is let go on past these: by the clock, since other work may hold the processors, and by its addresses.
WAIT = 120
ADDRESSES = 6 << 30

DICTIONARY = """% A text with each form of a dictionary.
<noun>: {@A-} & D- & ([O-]0.5 or S*b+ or [[J-]]);
cat.n dog.n "New York" /words: <noun>; the a: D+ and ();
ran.v-x: S- | Sa- & {MV+};  "%": A+ & [B+]-1.25; it's: ((A+ or B-) & {C+ & {D-}});
LEFT-WALL: Wd+ & {Xp+}; RIGHT-WALL: Xc-; ".": Xp- & {Xc+};
UNKNOWN-WORD.n: <noun>; NUMBERS: A+; CAPITALIZED-WORDS: S+; café-noir: E+;
<m>: <noun> or [A+].5; x y.z_1: <m> & @ABCDEFGHIJKLMNOP*a+;
"""

KNOWLEDGE = """% Each statement.
start: e Ce Cx*; start: s S; ignore: D A;
none: MV { O J }; one: S { D A* };
none-in-group: Ce { S }; one-in-group: S { O J };
bounded: e; cycle: J;
"""

SCRIPT = """% Each command.
parse the cat ran
set cat run.v: <noun> or A+ & {[B-]2.25};
macro <own>: {@A-} & D-; \t
list 2 3 I saw the man with a telescope in the park
more
del park
version
\tmore\r
set "a b" é: () or (A+);
parse
"""

SENTENCES = ["the cat ran .", "I saw the man with a telescope in the park", "a dog chased New York 3.5 it's Zork", "x x y.z_1 % café-noir the dog", ""]


def repeated(front, part, count, back):
    return (front + part * count + back).encode()


# Texts at a limit and one past it: a name, the file that holds it, the text, and the line on standard error, or nothing where it is accepted.
LIMITS = [
    ("200 brackets", "d", repeated("x: " + "(" * 200, "A+", 1, ")" * 200 + ";"), None),
    ("201 brackets", "d", repeated("x: " + "(" * 201, "A+", 1, ")" * 201 + ";"), "d: line 1: too deep"),
    ("200 open brackets", "d", repeated("x: ", "[", 200, "A+"), "d: line 1 column 206: syntax"),
    ("201 open brackets", "d", repeated("x: ", "{", 201, "A+"), "d: line 1: too deep"),
    ("200 levels of macros", "d", repeated("<m0>: A+;\n", "", 0, "".join(f"<m{i}>: <m{i - 1}>;\n" for i in range(1, 201))), None),
    ("201 levels of macros", "d", repeated("<m0>: A+;\n", "", 0, "".join(f"<m{i}>: <m{i - 1}>;\n" for i in range(1, 202))), "d: line 202: too deep"),
    ("255 on a side", "d", repeated("x: A+", " & A+", 254, ";"), None),
    ("256 on a side", "d", repeated("x: A+", " & A+", 255, ";"), "d: line 1: too many connectors on a side 256"),
    ("16 letters", "d", b"x: " + b"A" * 16 + b"+;", None),
    ("17 letters", "d", b"x: " + b"A" * 17 + b"+;", "d: line 1 column 4: syntax"),
    ("1,000,000 nodes", "d", repeated("x: A+", " or A+", 999_998, ";"), None),
    ("1,000,001 nodes", "d", repeated("x: A+", " or A+", 999_999, ";"), "d: line 1: too many nodes 1000001"),
    ("1,000,000 choices", "d", repeated("<t>: A+" + " or A+" * 9 + "; x: <t>", " & <t>", 5, ";"), None),
    ("1,048,576 choices", "d", repeated("x: {A+}", " & {A+}", 19, ";"), "d: line 1: too many choices 1048576"),
    ("cost 10000", "d", b"x: [A+]10000 or [A+]-10000.000;", None),
    ("cost above 10000", "d", b"x: [A+]10000.001;", "d: line 1: cost form"),
    ("cost below -10000", "d", b"x: [A+]-10000.001;", "d: line 1: cost form"),
    ("100,000 edits", "s", b"del x\n" * 100_000, None),
    ("100,001 edits", "s", b"del x\n" * 100_001, "s: more than 100000 edits"),
    ("252 tokens", "s", b"parse" + b" x" * 252, None),
    ("253 tokens", "s", b"parse" + b" x" * 253, None),
    ("list of 1,000,000", "s", b"list 1000000 1000000 x x", None),
    ("list of 1,000,001", "s", b"list 1000000 1000001 x x", "s: line 1: number"),
    ("list from 1,000,001", "s", b"list 1000001 1 x x", "s: line 1: number"),
    ("200 brackets of an edit", "s", repeated("set x: ", "(", 200, "A+" + ")" * 200 + ";"), None),
    ("201 brackets of an edit", "s", repeated("set x: ", "(", 201, "A+" + ")" * 201 + ";"), "s: line 1: edit"),
    ("no bytes", "d", b"", None),
    ("no bytes", "k", b"", None),
    ("no bytes", "s", b"", None),
    ("a byte 0", "d", b"\0", "d: line 1 column 2: syntax"),
    ("a byte 255", "d", b"x: \xffA+;", "d: byte 3 is not UTF-8"),
    ("a byte 255", "k", b"\xff", "k: byte 0 is not UTF-8"),
    ("a byte 255", "s", b"\xff", "s: byte 0 is not UTF-8"),
]

# How often a part is repeated, or a bracket opened: each limit, one below it and one past it.
COUNTS = [2, 3, 15, 16, 17, 63, 64, 65, 199, 200, 201, 251, 252, 253, 254, 255, 256, 1000]
MOST_BYTES = 1 << 20
PIECES = [b"(", b")", b"{", b"}", b"[", b"]", b"[[", b";", b":", b"&", b"|", b" or ", b" and ", b"@", b"+", b"-", b"*", b"%", b'"', b"'", b"<", b">",
          b"<m>", b"/", b"/w", b"//", b".", b".n", b"0", b"9", b"99999", b"10000", b".001", b"-", b"\n", b"\r", b"\t", b" ", b"\xc3", b"\xa9",
          b"\xef\xbb\xbf", b"\xe2\x80\xa8", b"A", b"a", b"()", b"LEFT-WALL", b"UNKNOWN-WORD", b"parse ", b"list 1 1 ", b"more\n", b"set ", b"del ", b"macro <m>:"]


def part_of(rng, text):
    """The ends of a part, a short one more often than a long one."""
    start = rng.randint(0, len(text))
    return start, min(len(text), start + rng.choice([1, 1, 2, 5, 20, 200]))


def cut(rng, text):
    start, end = part_of(rng, text)
    return text[:start] + text[end:]


def doubled(rng, text):
    start, end = part_of(rng, text)
    return text[:end] + text[start:]


def exchanged(rng, text):
    (a, b), (c, d) = sorted([part_of(rng, text), part_of(rng, text)])
    b = min(b, c)
    return text[:a] + text[c:d] + text[b:c] + text[a:b] + text[d:]


def set_byte(rng, text):
    if not text:
        return text
    place = rng.randrange(len(text))
    byte = rng.choice([0, 255, rng.randrange(256)])
    return text[:place] + bytes([byte]) + text[place + 1 :]


def cut_end(rng, text):
    return text[: rng.randint(0, len(text))]


def cut_front(rng, text):
    return text[rng.randint(0, len(text)) :]


def change_lines(rng, text):
    lines = text.split(b"\n")
    first, second = rng.randrange(len(lines)), rng.randrange(len(lines))
    how = rng.randrange(3)
    if how == 0:
        del lines[first]
    elif how == 1:
        lines.insert(second, lines[first])
    else:
        lines[first], lines[second] = lines[second], lines[first]
    return b"\n".join(lines)


def insert(rng, text):
    place = rng.randint(0, len(text))
    return text[:place] + rng.choice(PIECES) + text[place:]


def repeat(rng, text):
    start, end = part_of(rng, text)
    count = min(rng.choice(COUNTS), MOST_BYTES // max(1, end - start))
    return text[:start] + text[start:end] * count + text[end:]


def repeat_word(rng, text):
    """A word or a formula's part and the space before it, again and again."""
    places = [m.span() for m in re.finditer(rb" (?:[&|] |or )?[^ \n]+", text)]
    if not places:
        return text
    start, end = rng.choice(places)
    return text[:end] + text[start:end] * rng.choice(COUNTS) + text[end:]


def nest(rng, text):
    start, end = part_of(rng, text)
    count = rng.choice(COUNTS)
    opening, closing = rng.choice([(b"(", b")"), (b"[", b"]"), (b"{", b"}")])
    return text[:start] + opening * count + text[start:end] + closing * rng.choice([count, count, count - 1]) + text[end:]


CHANGES = [cut, doubled, exchanged, set_byte, cut_end, cut_front, change_lines, insert, insert, repeat, repeat_word, nest]


@dataclass
class Case:
    name: str
    words: list
    # the files, by name
    texts: dict
    # the line on standard error, where it is known: `?` where it is not
    line: str = "?"
    problem: str = ""
    status: int = 0
    seconds: float = 0.0
    megabytes: float = 0.0
    told: bytes = field(default=b"", repr=False)


def sample(name):
    with open(os.path.join(SAMPLES, name), "rb") as file:
        return file.read()


def usual_texts():
    return {
        "d": sample("attachment.dict"),
        "k": sample("session.know"),
        "s": sample("session.script"),
        "words": b"cow.n horse\n",
    }


def limit_case(number):
    name, file, text, line = LIMITS[number]
    texts = usual_texts()
    texts[file] = text
    if file == "s" and text.startswith(b"parse"):
        texts["d"] = b"x: {X-} & {X+};"
    words = ["one", "d", "y z"] if file == "d" else ["run", "d", "k", "s"]
    return Case(f"limit {number}, {name}", words, texts, line if line is None else f"lgparse: {line}\n")


BASES = {
    "d": ["attachment.dict", "costs.dict", "first.dict", "walls.dict", DICTIONARY, DICTIONARY],
    "k": ["session.know", KNOWLEDGE, KNOWLEDGE],
    "s": ["session.script", "two.a.script", "two.b.script", SCRIPT, SCRIPT],
    "words": ["first.txt"],
}


def options(rng, command):
    chosen = []
    for name, values in [("--prune", ["on", "off"]), ("--nulls", ["first", "passing"]), ("--diagram", ["on"]), ("--stats", ["on"]), ("--workers", ["4"]), ("--want", ["3"])]:
        if rng.randrange(4) == 0:
            chosen += [name, rng.choice(values)]
    if command == "run" and rng.randrange(4) == 0:
        chosen += ["--usage", "on"]
    return chosen


def random_case(seed, number):
    rng = random.Random(f"{seed} {number}")
    file = rng.choice(["d", "d", "d", "k", "k", "s", "s", "s", "words"])
    base = rng.choice(BASES[file])
    text = base.encode() if "\n" in base else sample(base)
    for _ in range(rng.choice([1, 1, 1, 2, 3, 5])):
        text = rng.choice(CHANGES)(rng, text)
    texts = usual_texts()
    if file == "words":
        texts["d"] = DICTIONARY.encode()
    texts[file] = text
    if file in ("d", "words") and rng.randrange(2):
        words = ["one", *options(rng, "one"), "d", rng.choice(SENTENCES)]
    else:
        words = ["run", *options(rng, "run"), "d", "k", *["s"] * rng.choice([1, 1, 1, 2])]
    return Case(f"{number}", words, texts)


LINE = re.compile(rb"lgparse: (?P<name>d|k|s|words): (?:line (?P<line>\d+)(?: column (?P<column>\d+))?: (?P<cause>[^\n]+)"
                  rb"|byte (?P<byte>\d+) is not UTF-8"
                  rb"|(?P<word>[^\n]*) is defined on lines (?P<first>\d+) and (?P<second>\d+)"
                  rb"|more than 100000 edits)\n")
ABSENT = re.compile(rb"lgparse: cannot read (?P<name>[^\n]+)\n")
OTHER_FILE = re.compile(rb"lgparse: [^\n]+: byte \d+ is not UTF-8\n")


def names_a_place(case):
    """Whether the line names a place that is in a text of the run, or at its end."""
    found = LINE.fullmatch(case.told)
    if not found:
        return bool(OTHER_FILE.fullmatch(case.told)) and b"/" in case.texts["d"]
    text = case.texts[found["name"].decode()]
    lines = text.split(b"\n")
    if found["byte"]:
        return int(found["byte"]) < len(text)
    if found["first"]:
        return 1 <= int(found["first"]) <= int(found["second"]) <= len(lines)
    if found["line"]:
        line = int(found["line"])
        in_text = 1 <= line <= len(lines)
        return in_text and (not found["column"] or 1 <= int(found["column"]) <= len(lines[line - 1]) + 1)
    return True


def problem_of(case, out):
    """What is wrong with a run that ended, or nothing."""
    if case.seconds > SECONDS:
        return "it took too long"
    if case.megabytes > MEGABYTES:
        return "it took too much memory"
    if case.line != "?" and (case.line or "").encode() != case.told:
        return f"its line is not {case.line!r}"
    if case.status == 0:
        return "" if out.endswith(b"\n") and not case.told else "its output"
    if out:
        return "something was written"
    if case.status == 1:
        return "" if names_a_place(case) else "its line"
    absent = ABSENT.fullmatch(case.told)
    if case.status == 3 and absent and b"/" + absent["name"] in case.texts["d"]:
        return ""
    return "its status"


def bound():
    resource.setrlimit(resource.RLIMIT_AS, (ADDRESSES, ADDRESSES))


def ended(child):
    """How a process ends, and what it used. One that goes on for too long is killed."""
    end = time.monotonic() + WAIT
    pause = 0.0005
    while True:
        pid, status, used = os.wait4(child.pid, os.WNOHANG)
        if pid:
            return status, used
        if time.monotonic() > end:
            os.kill(child.pid, signal.SIGKILL)
        time.sleep(pause)
        pause = min(pause * 1.5, 0.05)


def judge(case, folder):
    """Runs the case in the folder, and notes how it ended."""
    for name, text in case.texts.items():
        with open(os.path.join(folder, name), "wb") as file:
            file.write(text)
    with open(os.path.join(folder, ".out"), "w+b") as out, open(os.path.join(folder, ".err"), "w+b") as err:
        child = subprocess.Popen([PROGRAM, *case.words], cwd=folder, stdin=subprocess.DEVNULL, stdout=out, stderr=err, preexec_fn=bound)
        status, used = ended(child)
        child.returncode = case.status = os.waitstatus_to_exitcode(status)
        case.seconds = used.ru_utime + used.ru_stime
        case.megabytes = used.ru_maxrss / 1024
        out.seek(0)
        err.seek(0)
        case.told = err.read()
        case.problem = problem_of(case, out.read())
    return case


def keep(case, where, seed):
    folder = os.path.join(where, re.sub(r"\W+", "-", case.name))
    os.makedirs(folder, exist_ok=True)
    for name, text in case.texts.items():
        with open(os.path.join(folder, name), "wb") as file:
            file.write(text)
    with open(os.path.join(folder, "told"), "w", encoding="utf-8") as file:
        file.write(f"seed {seed}, case {case.name}: {case.problem}; lgparse {shlex.join(case.words)}: status {case.status}, ")
        file.write(f"{case.seconds:.2f} processor seconds, {case.megabytes:.0f} MB, {case.told!r}\n")


@dataclass
class Sums:
    cases: int = 0
    statuses: dict = field(default_factory=dict)
    failed: list = field(default_factory=list)
    longest: tuple = (0.0, "")
    largest: tuple = (0.0, "")

    def add(self, case):
        self.cases += 1
        self.statuses[case.status] = self.statuses.get(case.status, 0) + 1
        self.longest = max(self.longest, (case.seconds, case.name))
        self.largest = max(self.largest, (case.megabytes, case.name))
        if case.problem:
            self.failed.append(f"case {case.name}: {case.problem}, status {case.status}, {case.seconds:.2f} s, {case.told[:100]!r}")


def work(seed, numbers, where):
    """The sums of these cases; those below 0 are limits."""
    sums = Sums()
    with tempfile.TemporaryDirectory() as folder:
        for number in numbers:
            case = judge(limit_case(-number - 1) if number < 0 else random_case(seed, number), folder)
            sums.add(case)
            if case.problem:
                keep(case, where, seed)
    return sums


def total(parts):
    sums = Sums()
    for part in parts:
        sums.cases += part.cases
        for status, count in part.statuses.items():
            sums.statuses[status] = sums.statuses.get(status, 0) + count
        sums.failed += part.failed
        sums.longest = max(sums.longest, part.longest)
        sums.largest = max(sums.largest, part.largest)
    return sums


def main():
    parser = argparse.ArgumentParser(usage=__doc__)
    parser.add_argument("--cases", type=int, default=10_000)
    parser.add_argument("--seed", type=int, default=1)
    parser.add_argument("--jobs", type=int, default=2)
    parser.add_argument("--keep", help="where what fails is kept; a new folder if it is not given")
    parser.add_argument("--only", type=int)
    given = parser.parse_args()
    if not os.path.exists(PROGRAM):
        sys.exit("build the program first: bin/lgparse --build")
    where = given.keep or tempfile.mkdtemp(prefix="lgparse-cuts-")
    numbers = [given.only] if given.only is not None else [*range(-len(LIMITS), given.cases)]
    chunks = [numbers[i : i + 100] for i in range(0, len(numbers), 100)]
    with ProcessPoolExecutor(given.jobs) as pool:
        sums = total(pool.map(work, [given.seed] * len(chunks), chunks, [where] * len(chunks)))
    for text in sums.failed:
        print(text)
    statuses = ", ".join(f"{count} with status {status}" for status, count in sorted(sums.statuses.items()))
    print(f"seed {given.seed}: {sums.cases} cases, {statuses}; {len(sums.failed)} not as they must be" + (f", kept in {where}" if sums.failed else ""))
    print(f"longest {sums.longest[0]:.2f} processor s (case {sums.longest[1]}), largest {sums.largest[0]:.0f} MB (case {sums.largest[1]})")
    if not given.keep and not sums.failed:
        os.rmdir(where)
    sys.exit(bool(sums.failed))


if __name__ == "__main__":
    main()
