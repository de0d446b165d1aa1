#!/usr/bin/env bash
# Holds the examples of the manual, the specification and the man page to the programs. The blocks ```journal of docs/MANUAL.md
# are one journal, and so are those of docs/SPECIFICATION.md and the lines between .EX and .EE of docs/fellunqa-journal.1: each
# line is followed by '-> ' and its answer. All are played through the proved journal program and through the independent
# implementation; each answer shown counts one. The blocks ```entry of docs/LIBRARY.md are played through the independent
# implementation's entry point. `make journal` or the gate puts the proved program there; JOURNAL names another one. The last
# line is 'N passed, M failed'.
set -uo pipefail
cd "$(dirname "$0")/.." || exit 1
journal=${JOURNAL:-target/bin/journal}
reference=reference/target/release/journal
words='enrol found grant withdraw appoint dismiss clock create allow lend hand open check amend revoke close same'
cargo build --release --offline --quiet --manifest-path reference/Cargo.toml || exit 1
work=$(mktemp -d)
trap 'rm -rf "$work"' EXIT
passed=0
failed=0

count() { # STATUS MESSAGE
  if [ "$1" -eq 0 ]; then
    passed=$((passed + 1))
  else
    echo "$2"
    failed=$((failed + 1))
  fi
}

# the lines of the blocks of one kind
blocks() { # FILE FIRST-LINE LAST-LINE
  awk -v first="$2" -v last="$3" '$0 == last { on = 0 } on { print } $0 == first { on = 1 }' "$1"
}

# lines and answers, a pair to a row; a line without an answer, or an answer without a line, is shown as it stands
pairs() {
  awk '/^-> / { print line "\t" substr($0, 4); line = ""; next } line != "" { print line "\tno answer shown" } { line = $0 }
    END { if (line != "") print line "\tno answer shown" }'
}

# plays the pairs of a file and compares the answers one by one
hold() { # PROGRAM PAIRS SOURCE
  local line shown got
  cut -f 1 "$2" | "$1" > "$work/got"
  [ "$(wc -l < "$work/got")" -eq "$(wc -l < "$2")" ]
  count $? "$3: $1 does not print an answer for each line"
  exec 3< "$work/got"
  while IFS=$'\t' read -r line shown; do
    got=
    read -r got <&3
    [ "$shown" = "$got" ]
    count $? "$3: $line -> $shown, but $1 answers $got"
  done < "$2"
  exec 3<&-
}

# a row for each ```entry block: image, line, area before, area after, value returned; without the spaces between bytes, and
# with commas, as an image may have no bytes
entries() {
  blocks docs/LIBRARY.md '```entry' '```' |
    awk '{ key = $1; $1 = ""; gsub(/ /, ""); row = row $0 (key == "->" ? "\n" : ",") } END { printf "%s", row }'
}

# a program over the independent implementation: from image, line and area to the area after and the value returned
build_entry() {
  cat > "$work/entry.rs" <<'RUST'
fn bytes(hex: &str) -> Vec<u8> {
    (0..hex.len() / 2).map(|i| u8::from_str_radix(&hex[2 * i..2 * i + 2], 16).expect("hex")).collect()
}

fn main() {
    let given: Vec<Vec<u8>> = std::env::args().skip(1).map(|hex| bytes(&hex)).collect();
    let mut area = given[2].clone();
    let value = reference::entry::apply(&given[0], &given[1], &mut area);
    let after: String = area.iter().map(|byte| format!("{byte:02x}")).collect();
    println!("{after} {value}");
}
RUST
  rustc --edition 2021 -o "$work/entry" --extern reference=reference/target/release/libreference.rlib "$work/entry.rs"
}

blocks docs/MANUAL.md '```journal' '```' | pairs > "$work/manual"
blocks docs/SPECIFICATION.md '```journal' '```' | pairs > "$work/specification"
[ -s "$work/specification" ]
count $? 'docs/SPECIFICATION.md has no listing'
blocks docs/fellunqa-journal.1 .EX .EE | sed 's/\\-/-/g' | pairs > "$work/page"
for program in "$journal" "$reference"; do
  hold "$program" "$work/manual" docs/MANUAL.md
  hold "$program" "$work/specification" docs/SPECIFICATION.md
  hold "$program" "$work/page" docs/fellunqa-journal.1
done

for word in $words; do
  grep -q "^$word " "$work/manual"
  count $? "docs/MANUAL.md has no example of $word"
done

build_entry || exit 1
entries > "$work/entries"
[ -s "$work/entries" ]
count $? 'docs/LIBRARY.md has no example of the entry point'
while IFS=, read -r image line before after value; do
  got=$("$work/entry" "$image" "$line" "$before")
  [ "$got" = "$after $value" ]
  count $? "docs/LIBRARY.md: entry shows $after $value, but it is $got"
done < "$work/entries"

echo "$passed passed, $failed failed"
[ "$failed" -eq 0 ] && [ "$passed" -gt 0 ]
