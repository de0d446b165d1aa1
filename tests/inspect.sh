#!/usr/bin/env bash
# Tests examples/inspect.c, built with the sanitizers. For every example journal, a fresh and a full register its output is held
# to stored output; for these, for random registers and for damaged images that are still accepted it is held to a program over
# the independent implementation; and the image is made again from the text. Then images that are refused, options and faults.
# With --write, writes the stored output anew, from the independent implementation. The last line is 'N passed, M failed'.
# Variables: LIB, the library (made if it is not there and not named); LIBS, further libraries to link; CC.
set -u -o pipefail
cd "$(dirname "$0")/.." || exit 1
[ -n "${LIB:-}" ] || [ -f target/staticlib/libfellunqa.a ] || make -s lib
LIB=${LIB:-target/staticlib/libfellunqa.a}
if [ ! -f "$LIB" ]; then
  echo "no library $LIB"
  echo '0 passed, 1 failed'
  exit 1
fi
read -ra libs <<< "${LIBS:-}"
cc=${CC:-cc}
flags=(-g -O1 -std=c11 -Wall -Wextra -Werror -pedantic -Iinclude -fsanitize=address,undefined -fno-sanitize-recover=all)
stored=tests/inspect
write=${1:-}
work=$(mktemp -d)
trap 'rm -rf "$work"' EXIT
passed=0
failed=0

# one check; what the command prints is shown only if it fails
check() { # TITLE COMMAND..
  local title=$1
  shift
  if "$@" > "$work/log" 2>&1; then
    passed=$((passed + 1))
  else
    failed=$((failed + 1))
    echo "failed: $title"
    tail -n 20 "$work/log" | sed 's/^/    /'
  fi
}

finish() {
  echo "$passed passed, $failed failed"
  [ "$failed" -eq 0 ] && [ "$passed" -gt 0 ]
  exit
}

# ---- the programs

rust() { # NAME
  rustc --edition 2021 -O -o "$work/$1" --extern reference=reference/target/release/libreference.rlib "$stored/$1.rs"
}

build() {
  cargo build --release --offline --quiet --manifest-path reference/Cargo.toml &&
    rust expected && rust random && rust rebuild && rust dot &&
    "$cc" "${flags[@]}" -o "$work/inspect" examples/inspect.c examples/inspect/*.c "$LIB" "${libs[@]}" &&
    "$cc" "${flags[@]}" -o "$work/play" "$stored/play.c" "$LIB" "${libs[@]}"
}

# inspect inside the program that damages images
build_damage() { # NAME LIBRARY..
  "$cc" "${flags[@]}" -Dmain=inspect_main -c -o "$work/inspect.o" examples/inspect.c &&
    "$cc" "${flags[@]}" -o "$work/$1" "$stored/damage.c" "$work/inspect.o" examples/inspect/*.c "${@:2}"
}

# a wrong one may print without end: of a file it gets 4 MB and of the processor 60 seconds
bounded() { (ulimit -f 4096 -t 60 && exec "$@"); }
inspect() { bounded "$work/inspect" "$@"; }

# ---- what is printed

printed() { # text|dot IMAGE
  if [ "$1" = dot ]; then inspect --dot "$2"; else inspect "$2"; fi > "$work/printed"
}
expected() { # text|dot IMAGE..
  "$work/expected" "$@" > "$work/wanted"
}

is_stored() { # text|dot NAME IMAGE
  printed "$1" "$3" && diff "$stored/$2.$1" "$work/printed"
}
is_expected() { # text|dot IMAGE
  expected "$1" "$2" && printed "$1" "$2" && diff "$work/wanted" "$work/printed"
}
rebuilt() { printed text "$1" && "$work/rebuild" < "$work/printed" | cmp - "$1"; }
grammar() { printed dot "$1" && "$work/dot" "$work/printed"; }
graphviz() { printed dot "$1" && dot -Tsvg "$work/printed" | grep -q '</svg>'; }

# whatever holds of every register
holds() { # IMAGE
  is_expected text "$1" && is_expected dot "$1" && rebuilt "$1" && grammar "$1"
}

register() { # NAME IMAGE
  check "$1: the independent implementation's text" is_expected text "$2"
  check "$1: the independent implementation's graph" is_expected dot "$2"
  check "$1: the image made again from the text" rebuilt "$2"
  check "$1: the grammar of the graph" grammar "$2"
  if command -v dot > /dev/null; then check "$1: Graphviz" graphviz "$2"; fi
}

# a register whose output is stored whole
example() { # NAME IMAGE
  for kind in text dot; do
    if [ "$write" = --write ]; then expected "$kind" "$2" && cp "$work/wanted" "$stored/$1.$kind"; fi
    check "$1: the stored $kind" is_stored "$kind" "$1" "$2"
  done
  register "$1" "$2"
}

examples() {
  "$work/play" < /dev/null > "$work/fresh.image"
  check 'a fresh register is 26 zero bytes' cmp "$work/fresh.image" <(head -c 26 /dev/zero)
  example fresh "$work/fresh.image"
  for journal in examples/*.txt; do
    name=$(basename "$journal" .txt)
    "$work/play" < "$journal" > "$work/$name.image"
    example "$name" "$work/$name.image"
  done
}

# of a full register, whose text has 2,000 lines, only the sums are stored
write_sums() { # IMAGE
  for kind in text dot; do expected "$kind" "$1" && echo "$kind $(cksum < "$work/wanted")"; done > "$stored/full.sums"
}
has_sum() { # text|dot IMAGE
  printed "$1" "$2" && grep -x "$1 $(cksum < "$work/printed")" "$stored/full.sums"
}
is_full() { # IMAGE
  printed text "$1" && grep '(' "$work/printed" |
    diff <(printf 'users (64)\nroles (32), capabilities (256)\nsessions (64)\n') -
}
full() {
  awk -f "$stored/full.awk" | "$work/play" > "$work/full.image"
  if [ "$write" = --write ]; then write_sums "$work/full.image"; fi
  check 'full: it is full' is_full "$work/full.image"
  for kind in text dot; do check "full: the stored sum of the $kind" has_sum "$kind" "$work/full.image"; done
  register full "$work/full.image"
}

random() { # COUNT
  mkdir "$work/images"
  check "$1 random registers" "$work/random" "$1" "$work/images"
  for ((n = 0; n < $1; n++)); do check "random register $n" holds "$work/images/$n.image"; done
}

# ---- images that are not right

zeros() { head -c "$1" /dev/zero; }
and_a_byte() { cat "$1" && zeros 1; }

# the images with a flipped bit that were printed: there are some, and they are printed as expected
accepted() { # FOLDER
  local images=("$1"/*.image)
  [ "${#images[@]}" -gt 100 ] || return 1
  for kind in text dot; do expected "$kind" "${images[@]}" && cat "$1"/*."$kind" | cmp - "$work/wanted" || return 1; done
}

damage() { # NAME IMAGE STATUS
  mkdir -p "$work/$1.kept"
  ASAN_OPTIONS=detect_leaks=0 bounded "$work/$1" "$2" "$3" "$work/$1.kept"
}

# of images that break the rules too, all capabilities are printed, and what is named in a graph is in it
complete() { # FOLDER
  awk '/^roles / { want[FILENAME] = $NF } / capability [0-9]+: created/ { got[FILENAME]++ }
    END { for (f in want) if (want[f] != "(" got[f] + 0 ")") { print f ": not all capabilities"; bad = 1 } exit bad }' "$1"/*.text &&
    "$work/dot" "$1"/*.dot
}

damaged() {
  check 'compiling with the library' build_damage damaged "$LIB" "${libs[@]}"
  check 'cut and damaged images' damage damaged "$work/bakery-month.image" 3
  check 'damaged images that are accepted' accepted "$work/damaged.kept"
  check 'compiling with a library that accepts all' build_damage unasked "$stored/accept.c"
  check 'cut and damaged images, where the library accepts all' damage unasked "$work/bakery-month.image" 4
  check 'damaged images that are printed then' complete "$work/unasked.kept"
}

# inspect ends with this status, says these words on one line and prints nothing
refuses() { # STATUS WORDS COMMAND..
  local status=$1 words=$2
  shift 2
  "$@" > "$work/out" 2> "$work/err"
  local got=$?
  echo "status $got"
  cat "$work/err"
  [ "$got" -eq "$status" ] && [ ! -s "$work/out" ] && [ "$(wc -l < "$work/err")" -eq 1 ] && grep -q -e "$words" "$work/err"
}

refuses_bytes() { # COMMAND..: prints the bytes
  "$@" > "$work/bytes"
  refuses 3 "^inspect: $work/bytes: .* damaged$" inspect "$work/bytes"
}

# refused with a library that gives this answer to everything; the real one gives an empty line 1 or 14
answering() { # ANSWER STATUS WORDS FILE
  "$cc" "${flags[@]}" -DANSWER="$1" -o "$work/answering" examples/inspect.c examples/inspect/*.c "$stored/accept.c" &&
    refuses "$2" "$3" "$work/answering" "$4"
}

not_right() {
  for length in 0 1 25 27 13401 13402 13403 100000; do check "$length zero bytes" refuses_bytes zeros "$length"; done
  check 'a text' refuses_bytes cat examples/deputy.txt
  check 'a byte after the image' refuses_bytes and_a_byte "$work/deputy.image"
  check 'a byte after a full image' refuses_bytes and_a_byte "$work/full.image"
  check 'a byte after the image, where the library accepts all' answering -1 4 'bytes are left over' "$work/bytes"
  check 'a library with another answer' answering 0 3 damaged "$work/deputy.image"
}

# ---- options, standard input and faults

# the command prints the stored output of the deputy's register and nothing else
deputy() { # text|dot COMMAND..
  "${@:2}" < "$work/deputy.image" > "$work/printed" 2> "$work/err" && diff "$stored/deputy.$1" "$work/printed" &&
    [ ! -s "$work/err" ]
}
named() { (cd "$work" && cp deputy.image ./--dot && inspect -- --dot); }
no_input() { inspect; }
help() { # OTHER-OPTIONS..
  inspect --help "$@" > "$work/out" 2> "$work/err" && [ ! -s "$work/err" ] && grep -q '^usage: inspect ' "$work/out" &&
    grep -q 'Exit status: 0 .* 1 .* 2 .* 3 .* 4 ' <(tr '\n' ' ' < "$work/out")
}
closed_input() { inspect - <&-; }
to_full() { inspect "$@" > /dev/full; }
to_closed() { inspect "$@" >&-; }

usage() {
  check 'standard input without a file' deputy text inspect
  check 'standard input as -' deputy text inspect -
  check 'standard input as - after --' deputy text inspect -- -
  check 'a graph of standard input' deputy dot inspect --dot
  check 'a graph of standard input as -' deputy dot inspect --dot -
  check 'a file with the name of an option' deputy text named
  check '--help' help
  check '--help before all else' help --dot
  for wrong in --nothing --dot=1 --do -d --HELP ---; do
    check "option $wrong" refuses 2 "^inspect: $wrong: unknown option" inspect "$wrong" "$work/deputy.image"
  done
  check 'two files' refuses 2 'one file' inspect "$work/deputy.image" "$work/fresh.image"
  check 'an option after the file' refuses 2 'after the options' inspect "$work/deputy.image" --dot
}

faults() {
  check 'no such file' refuses 1 'No such file' inspect "$work/none"
  check 'a folder' refuses 1 'Is a directory' inspect "$work"
  check 'a folder on standard input' refuses 1 'standard input: Is a directory' no_input < "$work"
  check 'standard input closed' refuses 1 'standard input' closed_input
  check 'standard output closed' refuses 1 'standard output' to_closed "$work/deputy.image"
  check 'standard output closed, a large register' refuses 1 'standard output' to_closed "$work/full.image"
  if [ -c /dev/full ]; then
    check 'standard output full' refuses 1 'standard output: No space' to_full "$work/deputy.image"
    check 'standard output full, a large register' refuses 1 'standard output: No space' to_full --dot "$work/full.image"
    check 'standard output full, --help' refuses 1 'standard output: No space' to_full --help
  fi
}

# ---- the texts

# the block ```inspect of docs/LIBRARY.md: a command, and what it prints of the register that examples/deputy.txt leaves
shown() {
  awk '$0 == "```" { on = 0 } on { print } $0 == "```inspect" { on = 1 }' docs/LIBRARY.md > "$work/block"
  [ "$(head -n 1 "$work/block")" = '$ inspect deputy.image' ] && printed text "$work/deputy.image" &&
    tail -n +2 "$work/block" | diff - "$work/printed"
}

# the example in the comment of image.h, as a program with image.c alone
reader() {
  {
    printf '#include <inttypes.h>\n#include <stdio.h>\n#include <fellunqa.h>\n#include "image.h"\nint main(void) {\n'
    printf 'static uint8_t bytes[FELLUNQA_IMAGE_MAX];\nsize_t length = fread(bytes, 1, sizeof bytes, stdin);\n'
    sed -n '1,/\*\//s/^ \*     //p' examples/inspect/image.h
    printf '}\n'
  } > "$work/reader.c"
  "$cc" "${flags[@]}" -Iexamples/inspect -o "$work/reader" "$work/reader.c" examples/inspect/image.c "$LIB" "${libs[@]}" &&
    [ "$("$work/reader" < "$work/deputy.image")" = 'the clock stands at 1500' ]
}

from_make() {
  make -s inspect LIB="$LIB" INSPECT="$work/made" LIBS="${libs[*]}" && deputy text bounded "$work/made"
}

check 'compiling with the sanitizers' build
if [ "$failed" -ne 0 ]; then finish; fi
examples
full
random 60
damaged
not_right
usage
faults
check "the sample in docs/LIBRARY.md" shown
check 'the example in image.h' reader
check 'make inspect' from_make
finish
