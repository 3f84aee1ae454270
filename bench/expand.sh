#!/usr/bin/env bash
# Times a sentence of one word whose entry has one to six factors of ten alternatives each, so 10 to 1,000,000 choices, which
# is the most that an entry may have: all of them become disjuncts, to be counted, and none of them finds a partner.
source "$(dirname -- "$(readlink -f -- "$0")")/begin.sh"

for factors in 1 2 3 4 5 6; do
  awk -v factors="$factors" 'BEGIN {
    printf "w: ()"
    for (f = 0; f < factors; f++) {
      for (a = 0; a < 10; a++) printf "%s%c%c-", a ? " or " : " & (", 65 + f, 65 + a
      printf ")"
    }
    print ";"
  }' >"$folder/d"
  printf '10^%s disjuncts: ' "$factors"
  ./measure "$program" one --stats on "$folder/d" w || exit
done
