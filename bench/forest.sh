#!/usr/bin/env bash
# Counts what the first linkage of long sentences takes: instructions, processor time and memory, from the start of the process to
# its end. Where link-parser is installed, it parses the same sentence with the same dictionary and prints one linkage.
source "$(dirname -- "$(readlink -f -- "$0")")/begin.sh"

while read -r kind words; do
  ./sentences.py "$kind" "$words" "$folder" || exit
  printf '%-10s %3d  lgparse     ' "$kind" "$words"
  ./instructions /dev/null "$program" one --want 1 "$folder/d" "$(cat "$folder/s")" || exit
  type link-parser >/dev/null 2>&1 || continue
  printf '%-10s %3d  link-parser ' "$kind" "$words"
  ./instructions "$folder/s" link-parser "$folder/lp" -limit=1000 -islands-ok=0 -graphics=0 -links=1 -timeout=600 || exit
done <<'INPUTS'
chain 120
phrases 41
phrases 119
made 32
unlinked 40
unlinked 80
unlinked 120
rich 40
INPUTS
