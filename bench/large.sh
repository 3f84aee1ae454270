#!/usr/bin/env bash
# Times the program (bin/lgparse --build builds it) on the largest inputs: for each limit one at it and one past it, and small inputs that
# could take much. A line for each: its name, the status, seconds by the clock, processor seconds, the most memory, and the last line that was
# written before a journal, cut.
#
#   bench/large.sh [WORD [GIGABYTES]]      those alone whose names have WORD in them
#
# A run is ended after ten minutes, and has at most 12 GB of addresses, or so many whole ones.
source "$(dirname -- "$(readlink -f -- "$0")")/begin.sh"
program=$(readlink -f -- "$program")
cd -- "$folder" || exit 70
only=${1-}
most=$((${2-12} * 1000000))

repeated() { python3 -c 'import sys; sys.stdout.write(sys.argv[1] * int(sys.argv[2]))' "$1" "$2"; }

# filled FILE BYTES PART: so many bytes of a part again and again, and spaces behind the last whole one.
filled() { python3 -c 'import sys; n = int(sys.argv[1]); p = sys.argv[2].encode().decode("unicode_escape").encode(); sys.stdout.buffer.write((p * (n // len(p))).ljust(n))' "$2" "$3" >"$1"; }

wanted() { [[ $1 == *"$only"* ]]; }

# takes NAME WORD..
takes() {
  local name=$1 said status seconds user system memory
  shift
  said=$(
    (ulimit -v "$most"; exec timeout 600 /usr/bin/time -q -o took -f '%e %U %S %M' "$program" "$@") 2>&1 </dev/null |
      awk '!/^(done|edit |journal )/ { last = substr($0, 1, 60) } END { print last }'
    exit "${PIPESTATUS[0]}"
  )
  status=$?
  read -r seconds user system memory < <(tail -n 1 took 2>/dev/null || echo - 0 0 0)
  awk -v n="$name" -v st="$status" -v e="$seconds" -v c="$user" -v s="$system" -v m="$memory" -v said="$said" \
    'BEGIN { printf "%-52s = %3d %8s s %8.2f cpu s %7.0f MB  %s\n", n, st, e, c + s, m / 1024, said }'
  rm -f took
}

: >none
echo 'x: A+; y: A-;' >small
size=67108864

# Dictionaries, word files, knowledge files and scripts of 64 MiB, in each shape, and one byte past that.
# bytes NAME PART KIND: KIND is the file that has the bytes.
bytes() {
  wanted "64 MiB, $1" || return 0
  filled big "$size" "$2"
  case $3 in
    dictionary) takes "64 MiB, $1" one big b ;;
    words)
      echo '/big: A+;' >names
      takes "64 MiB, $1" one names b
      ;;
    knowledge)
      echo 'parse x y' >one
      takes "64 MiB, $1" run small big one
      ;;
    script) takes "64 MiB, $1" run small none big ;;
  esac
  rm -f big
}
bytes 'blanks' ' ' dictionary
bytes 'line feeds' '\n' dictionary
bytes 'a comment' '%' dictionary
bytes 'comments' '%\n' dictionary
bytes 'one word' 'a' dictionary
bytes 'words of one letter' 'a ' dictionary
bytes 'open brackets' '(' dictionary
bytes 'quotes' '"' dictionary
bytes 'semicolons' ';' dictionary
bytes 'one entry again and again' 'a: A+;\n' dictionary
bytes 'letters of two bytes' '\u00e9 ' dictionary
bytes 'words of a word file, all the same' 'a ' words
bytes 'one word of a word file' 'a' words
bytes 'rules' 'none: A { B };\n' knowledge
bytes 'a comment of a knowledge file' '%' knowledge
bytes 'open braces of a knowledge file' '{ ' knowledge
bytes 'commands' 'version\n' script
bytes 'empty sentences' 'parse\n' script
bytes 'comments of a script' '%\n' script
bytes 'edits' 'del x\n' script
bytes 'blanks of a script' ' ' script

# The same with parts that differ. shape NAME END COMMAND: as many whole lines as the command prints, and the end behind them.
shape() {
  local name="64 MiB, $1" end=$2
  wanted "$name" || return 0
  shift 2
  { "$@" | head -c "$((size - 64))" | sed '$d'; echo "$end"; } >big
  takes "$name" one big b
  rm -f big
}
shape 'words, each another' ': A+;' seq -f 'w%.0f' 20000000
shape 'entries, each of another word' '' seq -f 'w%.0f: A+;' 6000000
different() { seq 3000000 | awk '{ printf "w%d: A+ & [B-].%03d or {@C+ & [D-]%d};\n", $1, $1 % 1000, $1 / 1000 }'; }
shape 'entries, each of another formula' '' different
shape 'macros' '' seq -f '<m%.0f>: A+;' 6000000
of_macros() { echo '<m0>: A+;'; seq 1 199 | awk '{ printf "<m%d>: <m%d>;\n", $1, $1 - 1 }'; seq -f 'w%.0f: <m199>;' 6000000; }
shape 'entries of a macro of 200 levels' '' of_macros

# One line. line NAME FRONT PART COUNT BACK
line() {
  wanted "64 MiB, $1" || return 0
  { printf '%s' "$2"; repeated "$3" "$4"; printf '%s' "$5"; } >big
  takes "64 MiB, $1" one big b
  rm -f big
}
line 'one formula' 'a: A+' ' or A+' 11184808 ';'
line 'one side' 'a: A+' ' & A+' 13421770 ';'

if wanted '64 MiB, one rule'; then
  { printf 'none: A {'; repeated ' B' 33554420; printf ' };'; } >big
  echo 'parse x y' >one
  takes '64 MiB, one rule' run small big one
fi
if wanted '64 MiB, one sentence'; then
  { printf 'parse '; repeated 'x ' 33554429; } >big
  takes '64 MiB, one sentence' run small none big
  { printf 'parse '; repeated '(' 67108858; } >big
  takes '64 MiB, one sentence of signs' run small none big
fi
if wanted 'past 64 MiB'; then
  filled big "$((size + 1))" ' '
  echo '/big: A+;' >names
  takes 'past 64 MiB, a dictionary' one big b
  takes 'past 64 MiB, a word file' one names b
  takes 'past 64 MiB, a knowledge file' run small big none
  takes 'past 64 MiB, a script' run small none big
fi
rm -f big

# Limits of an entry. at NAME FRONT PART COUNT BACK
at() {
  wanted "$1" || return 0
  { printf '%s' "$2"; repeated "$3" "$4"; printf '%s\n' "$5"; } >entry
  takes "$1" one entry 'x x'
}
at '1,000,000 nodes' 'x: A+' ' or A+' 999998 ';'
at '1,000,001 nodes' 'x: A+' ' or A+' 999999 ';'
at '1,000,000 nodes, each kind of connector' '<t>: A+ or A- or @B+ or @B- or Cab+ or Cac-; x: A+' ' or <t>' 142856 ';'
at '255 connectors on a side' 'x: A+' ' & A+' 254 ';'
at '256 connectors on a side' 'x: A+' ' & A+' 255 ';'
at '200 levels' 'x: ' '(' 200 "A+$(repeated ')' 200);"
at '201 levels' 'x: ' '(' 201 "A+$(repeated ')' 201);"
at '200 levels of braces' 'x: ' '{' 200 "A+$(repeated '}' 200);"
if wanted '251 links at a word'; then
  { printf 'x: A+'; repeated ' & A+' 250; echo '; y: A-;'; } >entry
  takes '251 links at a word' one entry "x$(repeated ' y' 251)"
fi

# Choices of a sentence: equal ones; different ones to one side, which nothing joins; and those of two sides, which match one another. choices NAME DICT WORDS
choices() {
  wanted "$1" || return 0
  echo "$2" >choices
  takes "$1" one choices "$3"
}
ten='A+ or A+ or A+ or A+ or A+ or A+ or A+ or A+ or A+ or A+'
different='A+ or B+ or C+ or D+ or E+ or F+ or G+ or H+ or I+ or J+'
choices '4,000,000 choices, all equal' "<t>: $ten; x: <t> & <t> & <t> & <t> & <t> & <t>;" 'x x x x'
choices '4,000,001 choices' "<t>: $ten; x: <t> & <t> & <t> & <t> & <t> & <t>; y: A-;" 'x x x x y'
choices '4,000,000 choices, each another' "<t>: $different; x: <t> & <t> & <t> & <t> & <t> & <t>;" 'x x x x'
# kinds COUNT SIGN: so many connectors of different kinds, to be chosen from.
kinds() {
  python3 -c 'import itertools, string, sys
print(" or ".join("".join(name) + sys.argv[2] for name in itertools.islice(itertools.product(string.ascii_uppercase, repeat=2), int(sys.argv[1]))))' "$1" "$2"
}
for count in 9 99 299 499; do
  choices "$(((count + 1) ** 2)) choices a word, which match" "x: {$(kinds "$count" -)} & {$(kinds "$count" +)};" 'x x x x'
done
triples() { kinds 333 "*$1"; kinds 333 "a$1"; kinds 333 "b$1"; }
if wanted '1000000 choices a word, which match'; then
  less=$(triples - | paste -s -d '|')
  more=$(triples + | paste -s -d '|')
  choices '1000000 choices a word, which match' "x: {${less//|/ or }} & {${more//|/ or }};" 'x x x x'
fi

# Tokens of a sentence. tokens NAME DICT WORD COUNT
tokens() {
  wanted "$1" || return 0
  echo "$2" >tokens
  takes "$1" one --want 1 tokens "$(repeated "$3 " "$4")"
}
tokens '252 tokens, a chain' 'x: {X-} & {X+};' x 252
tokens '253 tokens' 'x: {X-} & {X+};' x 253
tokens '252 tokens, a chain with many starts' 'x: {@X-} & {X+};' x 252
tokens '252 tokens, none of which links' 'x: X+;' x 252
tokens '252 tokens, linked in two ways' 'x: {A- or B-} & {A+ or [B+]};' x 252
phrases=$'the: D+;\nn: {D-} & {@M+} & (S+ or O- or J-);\nv: S- & {O+} & {@M+};\np: M- & J+;'
if wanted '251 tokens of phrases'; then
  echo "$phrases" >tokens
  takes '251 tokens of phrases' one --want 1 tokens "the n v the n$(repeated ' p the n' 82)"
fi

# Scripts, edits and linkages that are asked for.
echo 'parse x y' >one
names=()
for ((i = 1; i <= 65; i++)); do names+=(one); done
wanted '64 scripts' && takes '64 scripts' run small none "${names[@]:0:64}"
wanted '65 scripts' && takes '65 scripts' run small none "${names[@]}"
if wanted '100,000 edits'; then
  { seq -f 'set w%.0f: A+ or B-;' 100000; } >edits
  takes '100,000 edits, each of another word' run small none edits
  { seq -f 'set x: A+ or [B-]%.0f;' 1 1 9999; seq -f 'set x: B+ or [B-]%.0f;' 1 1 9999; } >same
  for ((i = 0; i < 5; i++)); do cat same; done | head -n 100000 >edits
  takes '100,000 edits of one word' run small none edits
  seq -f 'macro <m%.0f>: A+;' 100000 >edits
  takes '100,000 edits of macros' run small none edits
  { seq -f 'w%.0f' 100000; echo ': A+;'; } >many
  seq -f 'del w%.0f' 100000 >edits
  takes '100,000 edits, of which each removes a word' run many none edits
  split -n l/64 edits part.
  takes '100,000 edits in 64 scripts' run many none part.*
  { cat edits; echo 'del w1'; } >more
  takes '100,001 edits' run many none more
fi
# wants COUNT WORDS: so many of the linkages of a sentence of so many words, each of which is joined to the next one in two ways.
wants() {
  local name="$1 wanted of 2^$(($2 - 1)), of $2 words"
  wanted "$name" || return 0
  echo 'f: A+ or [B+]; m: (A- or B-) & (A+ or [B+]); l: A- or B-;' >two
  takes "$name" one --want "$1" --examine "$1" two "f $(repeated 'm ' $(($2 - 2)))l"
}
wants 10000 22
wants 100000 22
wants 1000000 22
wants 100000 60
wants 1000000 60
wants 1000001 22

# Small inputs that could take much. runs NAME DICT SCRIPT
runs() { takes "$1" run "$2" none "$3"; }
if wanted 'sixty edits of a macro of a million nodes'; then
  { printf '<u>: A+'; repeated ' or A+' 999998; echo ';'; } >macro
  { for _ in {1..60}; do echo 'set x y: <u>;'; done; } >sets
  runs 'sixty edits of a macro of a million nodes' macro sets
fi
if wanted 'forty entries of a macro of 100,000 leaves'; then
  { printf '<u>: A+'; repeated ' or A+' 99999; echo ';'; for ((i = 1; i <= 40; i++)); do printf 'w%d:%*s<u>;\n' "$i" "$i" ''; done; } >spaced
  echo 'parse w1' >one
  runs 'forty entries of a macro of 100,000 leaves' spaced one
fi
if wanted 'a chunk of signs'; then
  { repeated 'a' 40000; echo ': A+;'; } >long
  { printf 'parse '; repeated '(' 40000; echo; } >signs
  runs '40,000 signs, a chunk of signs' long signs
  { printf 'parse '; repeated '(' 4000000; echo; } >more
  runs '4,000,000 signs, a chunk of signs' long more
fi
if wanted '20,000 words of a stem, 252 times'; then
  { seq -f 'a.x%.0f' 20000; echo ': A+ or A-;'; } >stem
  { printf 'parse'; repeated ' a' 252; echo; } >same
  runs '20,000 words of a stem, 252 times' stem same
fi
# Rules on a sentence of 251 words, each of which is joined to the next one in two ways.
if wanted 'rules on 251 words'; then
  echo 'x: {A- or B-} & {A+ or B+};' >chain
  echo "list 1 1 $(repeated 'x ' 251)" >one
  echo "list 1 1000 $(repeated 'x ' 251)" >thousand
  letters() { python3 -c 'import itertools, string, sys
for name in itertools.islice(itertools.product(string.ascii_uppercase, repeat=3), int(sys.argv[1])): print("".join(name))' "$1"; }
  { echo 'ignore:'; letters 10000; echo '; none: A {B};'; } >ignored
  { letters 1000 | sed 's/.*/start: a &;/'; echo 'start: a A; start: b B;'; for _ in {1..1500}; do echo 'bounded: a; bounded: b;'; done; } >bounded
  echo 'cycle: B;' >cycle
  takes 'no rules on 251 words, 1,000 linkages' run chain none thousand
  takes 'rules on 251 words: a cycle, 1,000 linkages' run chain cycle thousand
  takes 'rules on 251 words: 10,000 ignored patterns' run chain ignored one
  takes 'rules on 251 words: 3,000 bounds, 1,002 starts' run chain bounded one
  takes 'rules on 251 words: 3,000 bounds, 1,000 linkages' run chain bounded thousand
fi
