#!/usr/bin/env python3
"""Sums the processor time of a run of `rt ci`, by crate and by what it is spent on, while the run goes on.

    bench/gate-times.py [FILE] &      and then .ci/run

Each second it looks at the processes of the prover that run for a gate (in a copy below the folder of temporary files, or in a clone of the gate's), and keeps the most
processor time that each was seen to have. It prints a table in minutes when no `rt ci` has run for a minute, and to FILE, if one is named, all the
time. Time after the last look at a process is not seen: at most a second for each.
"""
import collections
import os
import re
import sys
import tempfile
import time

HERTZ = os.sysconf("SC_CLK_TCK")
BELOW = re.escape(tempfile.gettempdir())
PLACES = re.compile(rf"^{BELOW}/rt-(copy|edit)-|/lgparse-gate/")


def read(pid, name):
    with open(f"/proc/{pid}/{name}", encoding="utf-8", errors="replace") as file:
        return file.read()


def kind_of(place, words):
    """What a process of the prover does: it tries an edit, or proves tests, or a crate."""
    if place.startswith(f"{tempfile.gettempdir()}/rt-edit-"):
        return "edits"
    return "tests" if "--test" in words else "proof"


def looked_at(pid):
    """The crate, the kind and the seconds of a process, or None if it is none of the gate's prover."""
    words = read(pid, "cmdline").split("\0")
    if not words[0].endswith("/rattle") or "--crate-name" not in words:
        return None
    place = os.readlink(f"/proc/{pid}/cwd")
    if not PLACES.search(place):
        return None
    fields = read(pid, "stat").rsplit(")", 1)[1].split()
    seconds = (int(fields[11]) + int(fields[12])) / HERTZ
    # (the start tells processes apart that had the same number one after the other)
    return f"{pid} {fields[19]}", words[words.index("--crate-name") + 1], kind_of(place, words), seconds


def is_gate_running():
    for pid in filter(str.isdigit, os.listdir("/proc")):
        try:
            if re.search(r"/rt\0ci\0", read(pid, "cmdline") + "\0"):
                return True
        except OSError:
            pass
    return False


def table(seen):
    """Minutes by crate and kind, and the sums."""
    sums = collections.defaultdict(lambda: collections.Counter())
    for crate, kind, seconds in seen.values():
        sums[crate][kind] += seconds / 60
        sums["in all"][kind] += seconds / 60
    lines = ["| Crate | Proof | Tests | Edits |", "|---|---|---|---|"]
    for crate in sorted(sums, key=lambda name: (name == "in all", name)):
        minutes = (f"{sums[crate][kind]:.1f}" if sums[crate][kind] >= 0.05 else "" for kind in ("proof", "tests", "edits"))
        lines.append(f"| {crate if crate == 'in all' else f'`{crate}`'} | " + " | ".join(minutes) + " |")
    return "\n".join(lines)


def main():
    seen, idle = {}, 0
    while idle < 60:
        for pid in filter(str.isdigit, os.listdir("/proc")):
            try:
                found = looked_at(pid)
            except (OSError, ValueError, IndexError):
                continue
            if found:
                seen[found[0]] = found[1:]
        if len(sys.argv) > 1:
            with open(sys.argv[1], "w", encoding="utf-8") as file:
                print(table(seen), file=file)
        idle = 0 if is_gate_running() else idle + 1
        time.sleep(1)
    print(table(seen))


main()
