# Sourced by the other scripts: goes to this directory, and sets `program`, the built one, and `folder`, which is gone when the script ends.
cd -P -- "$(dirname -- "$(readlink -f -- "${BASH_SOURCE[0]}")")" || exit 70
program=../crates/lgparse/out/lgparse
[[ -x $program ]] || { echo 'build the program first: bin/lgparse --build' >&2; exit 1; }
folder=$(mktemp -d) || exit 70
trap 'rm -rf -- "$folder"' EXIT
