# shellcheck shell=bash
# What the tests in bash share. A failed expectation is told, and the test goes on; it ends with `finish`.
faults=0

fault() {
  printf 'line %s: %s\n' "${BASH_LINENO[1]}" "$1"
  faults=$((faults + 1))
}

# expect STATUS WORD..: runs the words, with what they write kept in the files out and err.
expect() {
  local status
  "${@:2}" >out 2>err
  status=$?
  ((status == $1)) || fault "status $status and not $1 of: ${*:2}: $(head -c 300 err)"
}

# same FILE FILE
same() {
  cmp -- "$1" "$2" >differ 2>&1 || fault "$1 and $2 differ: $(cat differ)"
}

# has FILE LINE: a line of the file is this.
has() {
  grep -qxF -e "$2" -- "$1" || fault "$1 has no line: $2; it has: $(head -c 500 -- "$1")"
}

finish() {
  ((faults == 0))
  exit
}
