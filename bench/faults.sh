#!/usr/bin/env bash
# Lets calls of the built program fail, one after another, and judges how each run ends: memory that is refused, files that do not open, reads and
# writes that fail, move one to seven bytes or are interrupted, and threads that do not start. `faults.py` has the inputs, one a line, and what must
# hold; `faults.c` is loaded before the C library (LD_PRELOAD) and lets the calls fail.
#
#   bench/faults.sh [--jobs N] [--most N] [NAME..]
#
# NAME.. are inputs, all by default; N runs are made side by side (2), and of an input with more than N allocations (10000) every second, third, ..
# one is refused.
source "$(dirname -- "$(readlink -f -- "$0")")/begin.sh"

gcc -O2 -Wall -shared -fPIC -o "$folder/faults.so" faults.c -ldl || exit 70
./faults.py "$program" "$folder" "$@"
