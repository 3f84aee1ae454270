#!/usr/bin/env bash
# Times the program from its start to its end on the sample sentence (bin/lgparse --build builds it), and, where link-parser is
# installed, link-parser on the same dictionary without a sentence.
cd -P -- "$(dirname -- "$(readlink -f -- "$0")")" || exit 70
./measure ../crates/lgparse/out/lgparse one ../samples/first.dict 'the cat chased a snake' || exit
type link-parser >/dev/null 2>&1 || exit 0

folder=$(mktemp -d) || exit 70
trap 'rm -rf -- "$folder"' EXIT
touch "$folder"/4.0.{regex,affix,knowledge}
{
  printf '#define dictionary-version-number v5v12v0+;\n#define dictionary-locale C;\n'
  cat ../samples/first.dict
} >"$folder/4.0.dict"
printf 'link-parser: '
./measure link-parser "$folder" -batch
