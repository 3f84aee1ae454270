#!/usr/bin/env bash
# Times the first linkage of long sentences by 1, 2 and 4 workers: seconds by the clock, processor seconds and memory, the least of
# five runs each.
source "$(dirname -- "$(readlink -f -- "$0")")/begin.sh"

while read -r kind words; do
  ./sentences.py "$kind" "$words" "$folder" || exit
  sentence=$(cat "$folder/s")
  for workers in 1 2 4; do
    printf '%-10s %3d  %d workers  ' "$kind" "$words" "$workers"
    for _ in 1 2 3 4 5; do
      /usr/bin/time -q -f '%e %U %S %M' "$program" one --want 1 --workers "$workers" "$folder/d" "$sentence" 2>&1 >/dev/null
    done | awk '{ cpu = $2 + $3; if (NR == 1 || $1 < wall) { wall = $1; spent = cpu; most = $4 } }
      END { printf "%7.2f s  %7.2f cpu s  %6.0f MB\n", wall, spent, most / 1024 }'
  done
done <<'INPUTS'
phrases 119
unlinked 80
unlinked 120
chain 120
rich 20
rich 40
INPUTS
