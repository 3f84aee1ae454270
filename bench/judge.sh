#!/usr/bin/env bash
# Times post-processing of a linkage of 251 words, a chain of neighbours: by more and more rules, all of which hold; by more and more
# patterns that are ignored; by rules on bounded domains; and by a rule that each link lies on a cycle, for many linkages.
# The first line of each kind is the same listing without rules.
source "$(dirname -- "$(readlink -f -- "$0")")/begin.sh"

echo 'x: {X-} & {X+};' >"$folder/chain"
echo 'x: {(X- or Y-)} & {(X+ or Y+)};' >"$folder/ways"
sentence=$(printf 'x %.0s' {1..251})
echo "list 1 1 $sentence" >"$folder/one"
echo "list 1 1000 $sentence" >"$folder/thousand"
: >"$folder/none"

# times NAME DICT KNOWLEDGE SCRIPT
times() {
  printf '%-28s ' "$1"
  ./measure "$program" run "$folder/$2" "$folder/$3" "$folder/$4" || exit
}

times 'no rules' chain none one
for rules in 1000 10000 100000; do
  yes 'one: X { X };' | head -n "$rules" >"$folder/rules"
  times "$rules rules" chain rules one
done
for patterns in 100 10000; do
  { printf 'ignore:'; printf ' Q%.0s' $(seq "$patterns"); echo ';'; echo 'start: e X; one-in-group: X { X };'; } >"$folder/ignored"
  times "$patterns ignored patterns" chain ignored one
done
{ printf 'start: e'; printf ' X%.0s' {1..1000}; echo ';'; yes 'bounded: e;' | head -n 3000; } >"$folder/bounded"
times '3000 bounded, 1000 starts' chain bounded one
times 'no rules, 1000 linkages' ways none thousand
echo 'cycle: B;' >"$folder/other"
times 'a cycle of other links' ways other thousand
echo 'cycle: X;' >"$folder/cycle"
times 'a cycle of these links' ways cycle thousand
