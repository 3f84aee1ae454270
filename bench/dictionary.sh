#!/usr/bin/env bash
# Times dictionaries of 1,000 to 1,000,000 words, an entry a word: the text is read and the dictionary is made. Entries of a
# shape write the same expression, as those of a lexicon do, or each writes its own. Where link-parser is installed, it then
# starts with the entries of the first kind.
source "$(dirname -- "$(readlink -f -- "$0")")/begin.sh"

# Entry number n has one of four shapes; of the kind `own` the first connector has the digits of n as small letters.
entries() {
  awk -v words="$2" -v kind="$1" 'BEGIN {
    split("D|{D|S|M", fronts, "|")
    split("+|-} & {@M+} & (S+ or O- or J-)|- & {O+} & {@M+}|- & J+", backs, "|")
    for (n = 0; n < words; n++) {
      letters = ""
      if (kind == "own") {
        split(n, digits, "")
        for (d = 1; d in digits; d++) letters = letters sprintf("%c", 97 + digits[d])
      }
      printf "w%d: %s%s%s;\n", n, fronts[n % 4 + 1], letters, backs[n % 4 + 1]
    }
  }'
}
for kind in same own; do
  for words in 1000 10000 100000 1000000; do
    entries "$kind" "$words" >"$folder/dict"
    printf '%s, %7d words: ' "$kind" "$words"
    ./measure "$program" one "$folder/dict" '' || exit
  done
done
type link-parser >/dev/null 2>&1 || exit 0

touch "$folder"/4.0.{regex,affix,knowledge}
for words in 100000 1000000; do
  {
    printf '#define dictionary-version-number v5v12v0+;\n#define dictionary-locale C;\n'
    entries same "$words"
  } >"$folder/4.0.dict"
  printf 'link-parser, same, %s words: ' "$words"
  ./measure link-parser "$folder" -batch
done
