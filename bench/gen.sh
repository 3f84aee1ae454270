#!/usr/bin/env bash
# Times made sessions by the program that has been built (bin/lgparse --build): so many words and sentences, from a seed. Prints for each
# the least time of five runs, the most memory, and the program's last line.
source "$(dirname -- "$(readlink -f -- "$0")")/begin.sh"

while read -r seed words sentences; do
  printf 'gen %s %6d words, %6d sentences: ' "$seed" "$words" "$sentences"
  ./measure "$program" gen "$seed" "$words" "$sentences" || exit
done <<'INPUTS'
5 400 2000
5 100000 2000
5 400 20000
INPUTS
