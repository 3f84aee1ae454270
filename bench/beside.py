"""What english.py and hard.py share: a dictionary of English for both programs, and runs by it.

A FOLDER has `en.dict`, a dictionary of this program's format, and `lp`, the same dictionary as a language directory of link-parser. Where
FOLDER has no `en.dict` yet, `tools/from-link-parser` makes it from the English of link-parser, with what costs much left in; for that
link-parser's own data must be installed."""
import os
import re
import shutil
import subprocess
import sys
import tempfile
import threading
from pathlib import Path
from typing import NamedTuple

TOP = Path(__file__).resolve().parent.parent
PROGRAM = str(TOP / "crates/lgparse/out/lgparse")
ENGLISH = Path("/usr/share/link-grammar/en")
PARSER = ["-cost-max=1000", "-short=254", "-limit=1000", "-postscript=0", "-graphics=0", "-links=1", "-timeout=600", "-islands-ok=0", "-null=1"]
HEAD = "#define dictionary-version-number 5.12.0;\n#define dictionary-locale C;\n\n"

# the kinds of words that this program knows by their form, as patterns of link-parser
KINDS = r"""NUMBERS: /^[0-9]([0-9.,]*[0-9])?$/
CAPITALIZED-WORDS: /^[A-Z]/
HYPHENATED-WORDS: /[^-].*-.*[^-]/
UNKNOWN-WORD: /./
"""

# how often each thing is run for its least figures, and the dictionary alone
RUNS = 3
BASE_RUNS = 15


class Run(NamedTuple):
    """Processor seconds of a run, how many of them are the program's own and not the system's, megabytes, and what it wrote.

    A process counts the memory of the one that it was made from, so megabytes are never below those of Python, some 15."""

    seconds: float
    user: float
    megabytes: float
    shown: str


def make_english(folder):
    """Writes the dictionary for both programs, where the folder has none."""
    folder = Path(folder)
    if (folder / "en.dict").exists():
        return
    if not ENGLISH.is_dir():
        sys.exit(f"{folder} has no en.dict, and there is no {ENGLISH} to make it from")
    converter = str(TOP / "tools/from-link-parser")
    subprocess.run([converter, "--cost-limit", "none", str(ENGLISH), str(folder)], stdout=subprocess.DEVNULL, check=True)
    make_language(folder / "lp", (folder / "en.dict").read_text(encoding="utf-8"), KINDS)
    (folder / "lp/words").symlink_to("../words")


def make_language(folder, text, kinds=""):
    """Writes a dictionary as a language directory of link-parser."""
    folder.mkdir(parents=True, exist_ok=True)
    rules = "STARTING_LINK_TYPE_TABLE: \n"
    files = {"dict": HEAD + text, "regex": kinds, "affix": "", "knowledge": rules, "constituent-knowledge": rules}
    for name, content in files.items():
        (folder / f"4.0.{name}").write_text(content, encoding="utf-8")


def one_run(folder, command, words, limit):
    """A run in the folder; nothing where it does not end in time."""
    run = subprocess.Popen(command, cwd=folder, stdin=subprocess.PIPE, stdout=subprocess.PIPE, stderr=subprocess.DEVNULL)
    timer = threading.Timer(limit, run.kill)
    timer.start()
    run.stdin.write(words.encode())
    run.stdin.close()
    shown = run.stdout.read().decode(errors="replace")
    _, status, used = os.wait4(run.pid, 0)
    timer.cancel()
    run.stdout.close()
    run.returncode = os.waitstatus_to_exitcode(status)
    if run.returncode != 0:
        return None
    return Run(used.ru_utime + used.ru_stime, used.ru_utime, used.ru_maxrss / 1024, shown)


def measured(folder, command, words, limit, runs):
    """The least of some runs."""
    all_runs = [one_run(folder, command, words, limit) for _ in range(runs)]
    if None in all_runs:
        return None
    return Run(*(min(column) for column in list(zip(*all_runs))[:3]), all_runs[0].shown)


def our_command(script, *options):
    return [PROGRAM, "run", "--want", "10", *options, "en.dict", os.devnull, script]


def their_command(folder):
    return ["link-parser", f"{folder}/lp", *PARSER]


def ours_of(folder, sentences, limit, runs=1):
    """All sentences in one run of this program."""
    with script_of(sentences) as script:
        return measured(folder, our_command(script.name), "", limit, runs)


def theirs_of(folder, sentences, limit, runs=1):
    """All sentences in one run of link-parser, or nothing where it is not installed."""
    if shutil.which("link-parser") is None:
        return None
    return measured(folder, their_command(folder), "".join(f"{it}\n" for it in sentences), limit, runs)


def script_of(sentences):
    """A script that parses the sentences, as a file that is gone when it is closed."""
    script = tempfile.NamedTemporaryFile("w", suffix=".script", encoding="utf-8")
    script.writelines(f"parse {it}\n" for it in sentences)
    script.flush()
    return script


def instructions(folder, command, words=""):
    """Millions of instructions of a run, or nothing where callgrind or the program is not there."""
    if shutil.which("valgrind") is None or shutil.which(command[0]) is None:
        return None
    counted = ["valgrind", "--tool=callgrind", "--callgrind-out-file=/dev/null", *command]
    run = subprocess.run(counted, cwd=folder, input=words, capture_output=True, text=True, errors="replace", check=True)
    return int(re.search(r"Collected : (\d+)", run.stderr).group(1)) / 1e6


def lines_of(path):
    """The sentences of a file, one a line."""
    return [line for line in Path(path).read_text(encoding="utf-8").splitlines() if line.strip()]
