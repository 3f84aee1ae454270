#!/usr/bin/env bash
# Times the tokens of one sentence of 10,000, 100,000 and 1,000,000 bytes: words that the dictionary has; one chunk of
# closing signs; one chunk of capital letters and then as many closing signs. Ten times as many bytes are to take about
# ten times as long. The program counts the tokens, and says that they are too many to be listed.
source "$(dirname -- "$(readlink -f -- "$0")")/begin.sh"
echo 'LEFT-WALL: Wd+; the: D+; cat.n: D- & S+; ran.v: S-; UNKNOWN-WORD: S-;' >"$folder/dict"
: >"$folder/know"

repeated() { python3 -c 'import sys; sys.stdout.write(sys.argv[1] * int(sys.argv[2]))' "$1" "$2"; }
sentence() {
  case $1 in
    words) repeated 'the cat ran ' $(($2 / 12)) ;;
    signs) repeated ')' "$2" ;;
    capitals) repeated A $(($2 / 2)) && repeated ')' $(($2 / 2)) ;;
  esac
}
for kind in words signs capitals; do
  for bytes in 10000 100000 1000000; do
    { printf 'parse ' && sentence "$kind" "$bytes" && echo; } >"$folder/script"
    printf '%-8s %7d bytes: ' "$kind" "$bytes"
    ./measure "$program" run "$folder/dict" "$folder/know" "$folder/script" || exit
  done
done
