#!/usr/bin/env bash
# Times runs and the audits of their documents:
#   parse   20,000 `parse` commands of eight words in one script
#   edits   64 scripts of 1,500 edits each, with a `version` after each edit
# Prints for each the run and the audit: seconds, processor seconds, the most memory in megabytes, and the bytes of the document.
source "$(dirname -- "$(readlink -f -- "$0")")/begin.sh"
program=$PWD/$program
mapfile -t sentences <words.txt
cp words.dict "$folder/d" && cd -- "$folder" || exit 70
: >k

# WORD..: a command, whose output goes to the file `written`
timed() {
  /usr/bin/time -q -f '%e s  %U+%S cpu s  %M kB' -o time "$program" "$@" >written || exit
  cat time
}

# NAME SCRIPT..: a run, and the audit of its document
both() {
  local name=$1
  shift
  printf '%-6s run    %s  %s bytes\n' "$name" "$(timed run d k "$@")" "$(stat -c %s written)"
  mv written document
  printf '%-6s audit  %s  %s\n' "$name" "$(timed audit d k document "$@")" "$(cat written)"
}

for ((i = 0; i < 20000; i++)); do echo "parse ${sentences[i % 4]}"; done >parses
both parse parses

for ((s = 0; s < 64; s++)); do
  for ((i = 0; i < 1500; i++)); do
    echo "set w$(((i + s) % 7)).s$s: A+ or B-;"
    echo version
  done >"edits$s"
done
both edits edits{0..63}
