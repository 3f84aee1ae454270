#!/usr/bin/env bash
# Times sentences of eight words (words.txt, by words.dict: one to thirteen choices a word), by the program that has been built
# (bin/lgparse --build). Prints one line a sentence: milliseconds, the least of five runs, and the page line.
top=$(cd -P -- "$(dirname -- "$(readlink -f -- "$0")")/.." && pwd) || exit 70
program=$top/crates/lgparse/out/lgparse
[[ -x $program ]] || { echo 'build the program first: bin/lgparse --build' >&2; exit 1; }
dictionary=$top/bench/words.dict
time_one() {
  local best=
  for _ in 1 2 3 4 5; do
    local start end
    start=$(date +%s%N)
    page=$("$program" one "$dictionary" "$1" | tail -n 1)
    end=$(date +%s%N)
    local spent=$(( (end - start) / 10000 ))
    [[ -z $best || $spent -lt $best ]] && best=$spent
  done
  printf '%d.%02d ms  %s  (%s)\n' $((best / 100)) $((best % 100)) "$1" "$page"
}
while IFS= read -r sentence; do
  time_one "$sentence"
done <"$top/bench/words.txt"
