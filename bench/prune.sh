#!/usr/bin/env bash
# Counts what the first linkage of long sentences takes with pruning and without: the numbers of disjuncts, instructions, processor time
# and memory, from the start of the process to its end.
source "$(dirname -- "$(readlink -f -- "$0")")/begin.sh"

while read -r kind words; do
  ./sentences.py "$kind" "$words" "$folder" || exit
  sentence=$(cat "$folder/s")
  printf '%-10s %3d  %s\n' "$kind" "$words" "$("$program" one --want 1 --stats on "$folder/d" "$sentence" | head -n 1)"
  for prune in on off; do
    printf '  --prune %-3s ' "$prune"
    ./instructions /dev/null "$program" one --want 1 --prune "$prune" "$folder/d" "$sentence" || exit
  done
done <<'INPUTS'
chain 120
phrases 41
phrases 119
made 32
unlinked 40
unlinked 80
unlinked 120
rich 10
rich 20
rich 40
INPUTS
