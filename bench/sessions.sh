#!/usr/bin/env bash
# Times many sessions at once over one dictionary:
#   edits   64 scripts of 1,500 edits each, with a `version` after each edit
#   parse   20,000 `parse` commands of eight words in one script, and the same commands in 2 and in 4 scripts
#   both    4 scripts that parse while 4 edit
# Prints one line a run: seconds, processor seconds, the most memory in megabytes, and the number of lines written.
top=$(cd -P -- "$(dirname -- "$(readlink -f -- "$0")")/.." && pwd) || exit 70
program=$top/crates/lgparse/out/lgparse
[[ -x $program ]] || { echo 'build the program first: bin/lgparse --build' >&2; exit 1; }
folder=$(mktemp -d) || exit 70
trap 'rm -rf -- "$folder"' EXIT
cd -- "$folder" || exit 70

cp -- "$top/bench/words.dict" d
: > k

mapfile -t sentences <"$top/bench/words.txt"

# NAME FIRST LAST: the sentences of these numbers, one a command
parses() {
  local i
  for ((i = $2; i < $3; i++)); do echo "parse ${sentences[i % 4]}"; done > "$1"
}

# NAME NUMBER COUNT: so many edits, each of a word of the script's own or of a shared one
edits() {
  local i
  for ((i = 0; i < $3; i++)); do
    echo "set w$(( (i + $2) % 7 )).s$2: A+ or B-;"
    echo version
  done > "$1"
}

timed() {
  local name=$1 lines
  shift
  lines=$({ /usr/bin/time -q -f '%e s %U+%S cpu s %M kB' -o time "$program" run d k "$@" || exit; } | wc -l)
  printf '%-10s %s  %s lines\n' "$name" "$(cat time)" "$lines"
}

for ((s = 0; s < 64; s++)); do edits "e$s" "$s" 1500; done
timed edits e{0..63}

parses p 0 20000
timed parse1 p
for ((s = 0; s < 2; s++)); do parses "p2.$s" $((s * 10000)) $(((s + 1) * 10000)); done
timed parse2 p2.{0..1}
for ((s = 0; s < 4; s++)); do parses "p4.$s" $((s * 5000)) $(((s + 1) * 5000)); done
timed parse4 p4.{0..3}

for ((s = 0; s < 4; s++)); do edits "b$s" "$s" 5000; done
timed both p4.{0..3} b{0..3}
