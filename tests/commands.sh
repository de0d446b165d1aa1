#!/usr/bin/env bash
# Runs the commands that the texts print, just as they are printed: the ```sh blocks of each text and the marked ones of the man page,
# in their order, in a copy of the repository with a home folder of its own. A ```text block right after one is what it prints. A
# ```c block with a file's name is that file; one without a name is compiled after the header. README comes first; what it installs is
# there for the others. A line in `left_out` is not run, one in `in_place` in the repository itself. Then the links of the texts, the
# version, the installation and the journal program's arguments are tested.
# `make journal` or the gate puts the program there, and the library is made if it is not there. The last line is 'N passed, M failed'.
set -u
cd "$(dirname "$0")/.." || exit 1
[ -f target/staticlib/libfellunqa.a ] || make -s lib
page=docs/fellunqa-journal.1
texts=(CONTRIBUTING.md CHANGELOG.md docs/*.md examples/*.md "$page")
journal=target/bin/journal
work=$(mktemp -d)
trap 'rm -rf "$work"' EXIT
copy=$work/copy
home=$work/home
passed=0
failed=0

# lines that are printed and not run, each with the reason
declare -A left_out=(
  ['bash .ci/run']='the gate itself'
  ['rt must-fail giving']='proofs of minutes; the gate tries every edit'
  ['bash bench/run']='measures, and proves a library first'
)
# lines that are run in the repository itself: what was proved there is not proved again
declare -A in_place=(
  ['make journal']=yes
  ['(cd crates/giving && rt check)']=yes
  ['rt ci giving']=yes
)
declare -A met=()

count() { # STATUS MESSAGE
  if [ "$1" -eq 0 ]; then
    passed=$((passed + 1))
  else
    failed=$((failed + 1))
    echo "not so: $2"
  fi
}

# ---- the blocks of a text

# the man page as a text: what follows the comment 'sh' is such a block, what follows 'text' is its output
plain() { # FILE
  if [ "$1" != "$page" ]; then
    cat "$1"
    return
  fi
  awk '/^\.\\" (sh|text)$/ { if (on) print "```"; print "```" $2; on = 1; next }
    /^\.fi$/ && on { print "```"; on = 0; next }
    on { gsub(/\\-/, "-"); gsub(/\\e/, "\\"); print; next }
    { print "" }' "$1"
}

# writes each block to $work/blocks/NUMBER.KIND: sh, with its line in NUMBER.line; text, with the number of the sh block before it; c,
# with its line, and its file's name in NUMBER.name. A heading or another block parts a ```text block from the commands before it
cut_blocks() { # FILE
  rm -rf "$work/blocks"
  mkdir "$work/blocks"
  plain "$1" | awk -v folder="$work/blocks/" '
    BEGIN { tick = "```" }
    on && $0 == tick { on = 0; close(file); next }
    on { print > file; next }
    /^#/ { last = "" }
    substr($0, 1, 3) == tick {
      on = 1
      stem = folder sprintf("%03d", ++n)
      kind = substr($1, 4)
      file = stem ".other"
      if (kind == "sh" || kind == "c") { file = stem "." kind; print FNR > (stem ".line") }
      if (kind == "c" && NF == 2) print $2 > (stem ".name")
      if (kind == "text" && last != "") file = last ".text"
      last = kind == "sh" ? stem : ""
      printf "" > file
    }'
}

# the lines of a block that are run, in $work/script; the others are named
keep() { # FILE TITLE
  local line
  : > "$work/script"
  while IFS= read -r line; do
    if [ -n "$line" ] && [ -n "${left_out[$line]:-}" ]; then
      met[$line]=yes
      echo "not run, $2: $line (${left_out[$line]})"
    elif [ -n "$line" ] && [ -n "${in_place[$line]:-}" ]; then
      met[$line]=yes
      # `rt ci` of one crate is no gate, and so refuses to run where CI is set, as it may be for the gate around this
      env -u CI bash -c "$line" < /dev/null > "$work/out" 2>&1
      count $? "$2: $line ends well ($(tail -n 5 "$work/out"))"
    else
      printf '%s\n' "$line" >> "$work/script"
    fi
  done < "$1"
}

# runs them, for two minutes at most; exported variables and the folder go on from block to block, as in a terminal
run() {
  {
    echo '. "$ENVIRONMENT" && cd "$PWD" && set -eu'
    cat "$work/script"
    echo 'export -p > "$ENVIRONMENT"'
  } > "$work/whole"
  timeout 120 env -i ENVIRONMENT="$work/environment" sh "$work/whole" < /dev/null > "$work/out" 2> "$work/err"
}

block() { # TEXT STEM
  local title
  title="$1, line $(cat "$2.line")"
  keep "$2.sh" "$title"
  if [ ! -s "$work/script" ]; then
    [ ! -f "$2.text" ]
    count $? "$title: what is shown is printed by a command that is run"
    return
  fi
  if grep -q pkg-config "$work/script" && ! command -v pkg-config > /dev/null; then
    echo "not run, $title: pkg-config is not there"
    return
  fi
  run
  count $? "$title: the commands end well, within two minutes ($(tail -n 5 "$work/err"))"
  if [ -f "$2.text" ]; then
    diff "$2.text" "$work/out"
    count $? "$title: the commands print what the text shows"
  fi
}

# a copy without what was built, but for the library and the program, which take minutes
renew_copy() {
  rm -rf "$copy"
  mkdir -p "$copy/target/staticlib" "$copy/target/bin"
  tar --exclude=./.git --exclude=target --exclude='./crates/*/out' -cf - . | tar -xf - -C "$copy"
  cp target/staticlib/libfellunqa.a "$copy/target/staticlib/" && cp "$journal" "$copy/target/bin/"
}

# compiles a ```c block by itself and, where it has a name, puts it into the copy
c_block() { # TEXT STEM
  { echo '#include <fellunqa.h>' && cat "$2.c"; } > "$work/part.c"
  "${CC:-cc}" -std=c11 -Wall -Wextra -Wno-unused-variable -pedantic -Werror -fsyntax-only -Iinclude "$work/part.c"
  count $? "$1, line $(cat "$2.line"): the C compiles without a warning"
  [ ! -f "$2.name" ] || cp "$2.c" "$copy/$(cat "$2.name")"
}

each_block() { # TEXT
  local part
  cut_blocks "$1"
  if compgen -G "$work/blocks/*.sh" > /dev/null; then renew_copy; fi
  for part in "$work"/blocks/*.c "$work"/blocks/*.sh; do
    case $part in
      *'*'*) ;;
      *.c) c_block "$1" "${part%.c}" ;;
      *) block "$1" "${part%.sh}" ;;
    esac
  done
}

# commands that stand where they are not run: in a block without a language, or indented by four spaces
unmarked() { # TEXT
  plain "$1" | awk '/^```/ { on = !on; bare = $0 == "```"; next }
    (on ? bare : (/^    / && before == "")) && /^ *(\$ )?((rt|bash|sh|make|cc|cargo|git|pkg-config|fellunqa-journal) |target\/|\.\/)/ {
      print FNR ": " $0
      n++
    }
    { before = $0 }
    END { exit n > 0 }'
}

# each relative link leads to a file
links() { # TEXT
  local folder link bad=0
  folder=$(dirname "$1")
  for link in $(grep -o '\](\([^)#:]*\)[)#]' "$1" | sed 's/^](//; s/[)#]$//'); do
    if [ ! -e "$folder/$link" ]; then
      echo "$1: no file $link"
      bad=1
    fi
  done
  return "$bad"
}

# ---- the version: the header's, wherever else it is said

numbers() {
  printf '#include <fellunqa.h>\nFELLUNQA_VERSION_MAJOR FELLUNQA_VERSION_MINOR FELLUNQA_VERSION_PATCH\n' |
    "${CC:-cc}" -E -P -Iinclude - | tail -n 1 | tr ' ' .
}

version_is() { # WHERE VERSION
  [ -n "$version" ] && [ "$2" = "$version" ]
  count $? "the version of $1 is that of the header, $version (it is '$2')"
}

versions() {
  version_is 'the numbers in the header' "$(numbers)"
  version_is Makefile "$(sed -n 's/^VERSION = //p' Makefile)"
  version_is "$page" "$(sed -n 's/^\.TH .*"Fellunqa \([0-9.]*\)".*/\1/p' "$page")"
  version_is README.md "$(sed -n 's/.*This is version \([0-9.]*[0-9]\)\..*/\1/p' README.md)"
  version_is 'the last release in CHANGELOG.md' "$(sed -n 's/^## \[\([0-9.]*\)\] - .*/\1/p' CHANGELOG.md | head -n 1)"
  version_is 'the journal program' "$("$journal" --version | sed -n 's/^fellunqa-journal //p')"
  version_is 'the pkg-config file' "$(sed -n 's/^Version: //p' "$stage/usr/lib/pkgconfig/fellunqa.pc")"
}

# ---- the installation

stage=$work/stage

installed() {
  make -s install DESTDIR="$stage" PREFIX=/usr
  count $? 'make install ends well'
  diff - <(cd "$stage/usr" && find . -type f -printf '%m %p\n' | LC_ALL=C sort -k 2) << 'END'
755 ./bin/fellunqa-journal
644 ./include/fellunqa.h
644 ./lib/libfellunqa.a
644 ./lib/pkgconfig/fellunqa.pc
644 ./share/man/man1/fellunqa-journal.1
END
  count $? 'make install installs these files, with these modes'
  cmp "$journal" "$stage/usr/bin/fellunqa-journal" && cmp "$page" "$stage/usr/share/man/man1/fellunqa-journal.1"
  count $? 'program and man page are installed as they are'
}

# the man page is found by the program's name, and formatted without a warning
formatted() {
  local shown=$stage/usr/share/man/man1/fellunqa-journal.1
  if ! command -v man > /dev/null; then
    echo 'not run: the man page as it is shown, as man is not there'
    return
  fi
  [ "$(man -M "$stage/usr/share/man" -w fellunqa-journal)" = "$shown" ]
  count $? 'man finds the page by the name of the program'
  MANWIDTH=80 man --warnings -l "$shown" 2> "$work/err" | grep -q '^ *fellunqa-journal --help | --version$' && [ ! -s "$work/err" ]
  count $? "the page is formatted without a warning ($(cat "$work/err"))"
}

uninstalled() { # DESTDIR PREFIX
  make -s uninstall DESTDIR="$1" PREFIX="$2" && [ -d "$1$2" ] && [ -z "$(find "$1$2" -type f)" ]
  count $? "make uninstall leaves no file ($(find "$1$2" -type f))"
}

# ---- the arguments of the journal program: nothing is played where there are any

asked() { # OUTPUT ERROR ARGUMENTS..
  local out=$1 err=$2
  shift 2
  "$journal" "$@" < crates/journal/stdin > "$work/out" 2> "$work/err"
  [ $? -eq 0 ] && printf '%s' "${out:+$out$'\n'}" | cmp - "$work/out" && printf '%s' "${err:+$err$'\n'}" | cmp - "$work/err"
  count $? "journal $*: prints '$out', and '$err' on standard error"
}

arguments() {
  local unknown='journal: unknown arguments; --help tells the use' option
  asked "fellunqa-journal $version" '' --version
  asked '' "$unknown" -h
  asked '' "$unknown" ''
  asked '' "$unknown" --versions
  asked '' "$unknown" --help --version
  asked '' "$unknown" examples/a-name-longer-than-any-option.txt
  "$journal" --help < crates/journal/stdin > "$work/help" 2> "$work/err"
  [ $? -eq 0 ] && [ ! -s "$work/err" ] && grep -qx 'usage: fellunqa-journal < LINES' "$work/help" && ! grep -q '^ok ' "$work/help"
  count $? "journal --help prints the use alone ($(cat "$work/help" "$work/err"))"
  for option in $(grep -o -e '--[a-z]*' "$work/help" | sort -u); do
    grep -qx -e "\.B $(sed 's/-/\\\\\\-/g' <<< "$option")" "$page"
    count $? "$page has $option, as --help does"
  done
}

# ---- all of it

mkdir "$home"
for name in PATH CARGO_HOME RUSTUP_HOME LANG; do
  case $name in
    CARGO_HOME) value=${CARGO_HOME:-$HOME/.cargo} ;;
    RUSTUP_HOME) value=${RUSTUP_HOME:-$HOME/.rustup} ;;
    *) value=${!name:-} ;;
  esac
  printf "export %s='%s'\n" "$name" "$value"
done > "$work/environment"
printf "export HOME='%s' PWD='%s'\n" "$home" "$copy" >> "$work/environment"

each_block README.md
cp "$work/environment" "$work/after-readme"
for text in "${texts[@]}"; do
  { cat "$work/after-readme" && printf "export PWD='%s'\n" "$copy"; } > "$work/environment"
  each_block "$text"
done
for text in README.md "${texts[@]}"; do
  unmarked "$text"
  count $? "$text: commands stand in blocks that are run"
  links "$text"
  count $? "$text: links lead to files"
done
for line in "${!left_out[@]}" "${!in_place[@]}"; do
  [ -n "${met[$line]:-}" ]
  count $? "a text prints what is left out or run in place: $line"
done

version=$(sed -n 's/^#define FELLUNQA_VERSION "\(.*\)"$/\1/p' include/fellunqa.h)
installed
versions
formatted
uninstalled "$stage" /usr
uninstalled '' "$home/.local"
arguments

echo "$passed passed, $failed failed"
[ "$failed" -eq 0 ] && [ "$passed" -gt 0 ]
