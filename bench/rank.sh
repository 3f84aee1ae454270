#!/usr/bin/env bash
# Counts what the best linkages of long sentences take: instructions, processor time and memory, from the start of the process to its
# end. Where link-parser is installed, it prints as many linkages of the same sentence with the same dictionary; past its limit it
# draws them at random.
source "$(dirname -- "$(readlink -f -- "$0")")/begin.sh"

while read -r kind words want; do
  ./sentences.py "$kind" "$words" "$folder" || exit
  printf '%-10s %3d %5d  lgparse     ' "$kind" "$words" "$want"
  ./instructions /dev/null "$program" one --want "$want" "$folder/d" "$(cat "$folder/s")" || exit
  type link-parser >/dev/null 2>&1 || continue
  printf '%-10s %3d %5d  link-parser ' "$kind" "$words" "$want"
  # link-parser shows the next linkage at each empty line
  { cat "$folder/s"; for ((i = 1; i < want; i++)); do echo; done; } > "$folder/lines"
  ./instructions "$folder/lines" link-parser "$folder/lp" -limit="$want" -graphics=0 -links=1 -islands-ok=0 || exit
done <<'INPUTS'
phrases 41 1
phrases 41 10
phrases 41 1000
ambiguous 120 1
ambiguous 120 10
ambiguous 120 1000
ambiguous 122 3
INPUTS
