#!/usr/bin/env bash
# Tests the C library, its header, the example client and the installation; the client and tests/client/contract.c run twice,
# with the sanitizers and under valgrind. tests/client/files.sh and kills.sh hold the client to what examples/store.h says.
# The last line is 'N passed, M failed'.
# Variables: LIB, the library (made if it is not there and not named); LIBS, further libraries to link; CC, CXX.
set -u -o pipefail
cd "$(dirname "$0")/.." || exit 1
[ -n "${LIB:-}" ] || [ -f target/staticlib/libfellunqa.a ] || make -s lib
LIB=${LIB:-target/staticlib/libfellunqa.a}
if [ ! -f "$LIB" ]; then
  echo "no library $LIB"
  echo '0 passed, 1 failed'
  exit 1
fi
read -ra libs <<< "${LIBS:-}"
cc=${CC:-cc}
cxx=${CXX:-c++}
flags=(-gdwarf-4 -O1 -Wall -Wextra -Werror -pedantic) # version 4, as older valgrinds do not read what clang writes by itself
work=$(mktemp -d)
trap 'rm -rf "$work"' EXIT
passed=0
failed=0

# one check; what the command prints is shown only if it fails
check() { # TITLE COMMAND..
  local title=$1
  shift
  if "$@" > "$work/log" 2>&1; then
    passed=$((passed + 1))
  else
    failed=$((failed + 1))
    echo "failed: $title"
    tail -n 20 "$work/log" | sed 's/^/    /'
  fi
}

# ---- the client: `client` runs it as the present round says; each check starts in an empty folder

client() { "${runner[@]}" "$work/client" "$@"; }

# answers as the journal program prints them; a refusal without its meaning does not pass
numbers() { sed -e 's/^no [0-9]*$/& bare/' -e 's/^\(no [0-9]*\): [a-z0-9].*$/\1/'; }

start() {
  rm -rf "$work/folder"
  mkdir "$work/folder"
  reg=$work/folder/register
}

answers() { # INPUT EXPECTED
  start
  client --new "$reg" < "$1" | numbers | cmp - "$2" && [ "$(ls -A "$work/folder")" = register ]
}

deputy() {
  start
  client --new "$reg" < examples/deputy.txt | cmp - tests/client/deputy.expected
}

empty() {
  start
  client --new "$reg" < /dev/null | cmp - /dev/null && head -c 26 /dev/zero | cmp - "$reg" && [ "$(stat -c %a "$reg")" = 600 ]
}

# a new client of which every line is refused is saved too, and goes on from there
all_refused() {
  start
  client --new "$reg" 'check 0 0 9 0 0' 'enrol 3' | numbers | cmp - <(printf 'no 3\nno 1\n') &&
    head -c 26 /dev/zero | cmp - "$reg" && client "$reg" 'enrol 3 0' | cmp - <(echo ok 0)
}

# three runs on one file give the answers and the register of one run
carried() {
  start
  client --new "$work/folder/whole" < crates/cases/stdin | numbers > "$work/one" || return 1
  head -n 40 crates/cases/stdin | client --new "$reg" > "$work/three" &&
    sed -n '41,90p' crates/cases/stdin | client "$reg" >> "$work/three" &&
    tail -n +91 crates/cases/stdin | client "$reg" >> "$work/three" || return 1
  numbers < "$work/three" | cmp - "$work/one" && cmp "$reg" "$work/folder/whole"
}

# the longest line that yields a request, and the same with more after its end
arguments() {
  start
  local longest
  longest="create 4294967295 role$(printf ' %d' {4294967284..4294967295})"
  client --new "$reg" 'enrol 3 0' 'enrol 3 0' '' $'enrol 4 0\nenrol 5 0' "enrol $(printf '%0200d' 4) 0" 'enrol 4 0' \
    "$longest" "$longest"$'\nx' | numbers | cmp - <(printf 'ok 0\nno 4\nno 1\nno 1\nno 1\nok 0\nno 2\nno 1\n')
}

# a line gets one answer, however long it is and whatever is in it
odd_lines() {
  start
  {
    printf 'enrol 1 0\n\nenrol 2 0\0\n\0\nenrol 3 0\r\nenrol 3 \377\n\377\n'
    for n in 153 154 155 156 157 163 164 165 311 312 100000; do printf "%${n}s\n" 'enrol 4 0'; done
    printf 'enrol 5 0\nenrol 6 0'
  } > "$work/input"
  { echo ok 0; for _ in {1..17}; do echo no 1; done; printf 'ok 0\nno 1\n'; } > "$work/expected"
  client --new "$reg" < "$work/input" | numbers | cmp - "$work/expected"
}

# the client ends with this status, says these words and answers nothing; the folder is as before
refuses() { # STATUS WORDS COMMAND..
  local status=$1 words=$2
  shift 2
  cp -a "$work/folder" "$work/before"
  "$@" > "$work/out" 2> "$work/err"
  local got=$? differs
  cat "$work/err"
  diff -r --no-dereference "$work/before" "$work/folder"
  differs=$?
  chmod u+w "$work/before"
  rm -rf "$work/before"
  [ "$got" -eq "$status" ] && [ ! -s "$work/out" ] && grep -q -e "$words" "$work/err" && [ "$differs" -eq 0 ]
}

# a register of more than 1,024 bytes
filled() {
  start
  {
    printf 'enrol 0 0\n'
    for n in {0..31}; do echo "found $n 0 16777215 65535 65535"; done
    printf 'grant 0 0\nappoint 0 0\n'
    for _ in {1..20}; do echo 'create 0 role 0 0 0 0 0 9 1 1 1 16777215 65535 65535'; done
  } | client --new "$reg" > /dev/null && [ "$(wc -c < "$reg")" -gt 1024 ]
}

damaged() { # COMMAND..: changes the register file
  filled && "$@" && refuses 3 damaged client "$reg" 'enrol 3 0'
}
cut_to() { head -c "$1" "$reg" > "$work/cut" && cp "$work/cut" "$reg"; }
lengthen() { head -c "$1" /dev/zero >> "$reg"; }
overwrite() { printf '%b' "$2" | dd of="$reg" bs=1 seek="$1" conv=notrunc status=none; }
last_byte() { overwrite "$(($(wc -c < "$reg") - 1))" '\0001'; }

# whether it is to be there or to be made
both_ways() { # WORDS PATH
  start
  refuses 1 "$1" client "$2" 'enrol 3 0' && refuses 1 "$1" client --new "$2" 'enrol 3 0'
}
no_folder() { both_ways 'No such file' "$work/folder/none/register"; }
no_name() { both_ways 'Not a directory' tests/client.sh/register; }
long_name() { both_ways 'name.* too long' "$(printf '%05000d' 0)"; }
is_folder() { start; mkdir "$reg"; refuses 1 'this is a folder' client "$reg" 'enrol 3 0'; }
no_access() { start; ln -s register "$reg"; refuses 1 'Too many levels' client "$reg" 'enrol 3 0'; }
usage() { start; refuses 2 usage client; }

# the kernel's own folders cannot be synced
unsynced() { start; refuses 1 'folder cannot be synced' client --new /proc/self/register 'enrol 3 0'; }

no_input() { filled && refuses 1 'standard input' client "$reg" < /; }
closed_input() { filled && refuses 1 'standard input' client "$reg" <&-; }

# no answer can be shown: the register is saved all the same, and the client says so
unshown() { # COMMAND..
  filled && cp "$reg" "$work/after" && client "$work/after" 'enrol 3 0' > /dev/null || return 1
  "$@" 'enrol 3 0' 2> "$work/err"
  local status=$?
  cat "$work/err"
  [ "$status" -eq 4 ] && grep -q 'standard output' "$work/err" && grep -q 'the register is saved' "$work/err" &&
    cmp "$reg" "$work/after" && [ "$(ls -A "$work/folder")" = register ]
}
to_full() { client "$reg" "$@" > /dev/full; }

# a closed output is seen before anything is played
closed_output() { client "$reg" 'enrol 3 0' >&-; }
no_output() { filled && refuses 1 'standard output' closed_output; }

# the file system takes 1,024 bytes and no more
short_write() { (ulimit -f 1; client "$reg" 'enrol 3 0' | cat > /dev/null); }
no_room() { filled && refuses 1 'too large' short_write; }

client_checks() { # ROUND
  check "$1: the listing (§12.3.1)" answers crates/journal/stdin crates/journal/stdout
  check "$1: the stored cases" answers crates/cases/stdin crates/cases/stdout
  check "$1: the example of a deputy" deputy
  check "$1: no lines, a fresh register" empty
  check "$1: a fresh register, of which every line is refused" all_refused
  check "$1: a register carried over three runs" carried
  check "$1: lines as arguments" arguments
  check "$1: odd lines" odd_lines
  check "$1: a damaged register: a byte changed" damaged overwrite 12 '\0377'
  check "$1: a damaged register: the last byte changed" damaged last_byte
  check "$1: a cut register: a byte less" damaged cut_to -1
  check "$1: a cut register: 1,000 bytes" damaged cut_to 1000
  check "$1: a cut register: 25 bytes" damaged cut_to 25
  check "$1: a cut register: empty" damaged cut_to 0
  check "$1: a byte after the register" damaged lengthen 1
  check "$1: a file longer than any register" damaged lengthen 100000
  check "$1: no such folder" no_folder
  check "$1: a folder that is a file" no_name
  check "$1: a register file that is a folder" is_folder
  check "$1: a register file that cannot be opened" no_access
  check "$1: a folder that cannot be synced" unsynced
  check "$1: a name too long" long_name
  check "$1: no arguments" usage
  check "$1: input that cannot be read" no_input
  check "$1: input closed" closed_input
  check "$1: output that cannot be written" unshown to_full
  check "$1: output closed" no_output
  check "$1: a register that cannot be written whole" no_room
}

# contract.c counts its own checks; if it ends otherwise, that is one failure
contract() { # ROUND
  "${runner[@]}" "$work/contract" > "$work/log" 2>&1
  local status=$? yes no
  read -r yes no <<< "$(tail -n 1 "$work/log" | sed -n 's/^\([0-9]*\) passed, \([0-9]*\) failed$/\1 \2/p')"
  if [ "${yes:-0}" -eq 0 ] || { [ "$status" -ne 0 ] && [ "$no" -eq 0 ]; }; then no=$((${no:-0} + 1)); fi
  passed=$((passed + ${yes:-0}))
  failed=$((failed + no))
  if [ "$no" -ne 0 ]; then sed "s/^/$1: /" "$work/log"; fi
}

compile() { # FLAGS..
  "$cc" -std=c11 "${flags[@]}" "$@" -Iinclude -o "$work/client" examples/client.c examples/store.c "$LIB" "${libs[@]}" &&
    "$cc" -std=c11 "${flags[@]}" "$@" -Iinclude -pthread -o "$work/contract" tests/client/contract.c "$LIB" "${libs[@]}"
}

round() { # TITLE RUNNER..
  runner=("${@:2}")
  client_checks "$1"
  contract "$1"
}

. tests/client/files.sh
. tests/client/kills.sh

# ---- header and installation

# the example in the header's first comment, as a program
example() {
  {
    printf '#include <stdio.h>\n#include <string.h>\n#include <fellunqa.h>\nint main(void) {\n'
    sed -n '1,/\*\//s/^ \*     //p' include/fellunqa.h
    printf 'return !(answer == 0 && length == 27);\n}\n'
  } > "$work/example.c"
  "$cc" -std=c99 "${flags[@]}" -Iinclude -o "$work/example" "$work/example.c" "$LIB" "${libs[@]}" && "$work/example"
}

cplusplus() { # STANDARD
  cat > "$work/header.cpp" << 'END'
#include <fellunqa.h>
int main() { return fellunqa_apply(NULL, 0, NULL, 0, NULL, 0) == -FELLUNQA_MALFORMED ? 0 : 1; }
END
  "$cxx" -std="$1" "${flags[@]}" -Iinclude -o "$work/header" "$work/header.cpp" "$LIB" "${libs[@]}" && "$work/header"
}

install_to() { # PREFIX DESTDIR
  make -s install LIB="$LIB" PREFIX="$1" DESTDIR="$2" &&
    cmp "$LIB" "$2$1/lib/libfellunqa.a" && cmp include/fellunqa.h "$2$1/include/fellunqa.h"
}

# the pkg-config file names its prefix and the version, and nothing is left to fill in
described() { # FILE PREFIX
  grep -qx "prefix=$2" "$1" && grep -qx "Version: $(sed -n 's/^VERSION = //p' Makefile)" "$1" && ! grep -q '@' "$1"
}

staged() { install_to /usr "$work/stage" && described "$work/stage/usr/lib/pkgconfig/fellunqa.pc" /usr; }

from_installed() {
  PKG_CONFIG_PATH="$work/prefix/lib/pkgconfig" make -s client-installed CLIENT="$work/installed" LIBS="${libs[*]}" &&
    "$work/installed" --new "$work/installed.register" < crates/journal/stdin | numbers | cmp - crates/journal/stdout
}

from_here() {
  make -s client LIB="$LIB" CLIENT="$work/local" LIBS="${libs[*]}" &&
    "$work/local" --new "$work/local.register" < crates/journal/stdin | numbers | cmp - crates/journal/stdout
}

uninstalled() {
  make -s uninstall PREFIX="$work/prefix" && [ -z "$(find "$work/prefix" -type f)" ]
}

check 'the example in the header' example
check 'the header in C++98' cplusplus c++98
check 'the header in C++17' cplusplus c++17
check 'make client' from_here
check 'make install' install_to "$work/prefix" ''
check 'the pkg-config file' described "$work/prefix/lib/pkgconfig/fellunqa.pc" "$work/prefix"
check 'make install with DESTDIR' staged
if command -v pkg-config > /dev/null; then
  check 'make client-installed' from_installed
else
  echo 'pkg-config is not there: no client is built against the installed library'
fi
check 'make uninstall' uninstalled

check 'compiling with the sanitizers' compile -fsanitize=address,undefined -fno-sanitize-recover=all
round sanitizers env
file_checks
check 'compiling plainly' compile
kill_checks
if command -v valgrind > /dev/null; then
  round valgrind valgrind --error-exitcode=9 --leak-check=full -q
else
  echo 'valgrind is not there: only the sanitizers were run'
fi

echo "$passed passed, $failed failed"
[ "$failed" -eq 0 ]
