#!/usr/bin/env bash
# Plays every examples/NAME.txt that has a NAME.answers beside it through the proved journal program and through the
# independent implementation, and compares the output with the stored answers byte for byte; then holds the tables of
# examples/BAKERY.md to the journals that they show. `make journal` or the gate puts the proved program there; JOURNAL names
# another one. With --write, writes the answers anew. The last line is 'N passed, M failed'.
set -uo pipefail
cd "$(dirname "$0")/.." || exit 1
journal=${JOURNAL:-target/bin/journal}
reference=reference/target/release/journal
story=examples/BAKERY.md
cargo build --release --offline --quiet --manifest-path reference/Cargo.toml || exit 1
passed=0
failed=0

count() { # STATUS MESSAGE
  if [ "$1" -eq 0 ]; then
    passed=$((passed + 1))
  else
    echo "$2"
    failed=$((failed + 1))
  fi
}

plays() { # PROGRAM NAME
  "$1" < "examples/$2.txt" | cmp - "examples/$2.answers"
}

# the rows of a journal's tables, and the same from its files: the line's number, the line, its answer
told() { # NAME
  awk -v title="## \`$1.txt\`" '/^## / { on = $0 == title } on' "$story" |
    sed -nE 's/^\| ([0-9]+) \| `([^`]*)` \| `([^`]*)` \|.*/\1: \2 -> \3/p'
}
stored() { # NAME
  paste -d '\t' "examples/$1.txt" "examples/$1.answers" | awk -F '\t' '{ print NR ": " $1 " -> " $2 }'
}

for answers in examples/*.answers; do
  name=$(basename "$answers" .answers)
  [ -f "examples/$name.txt" ] || continue
  if [ "${1:-}" = --write ]; then
    "$reference" < "examples/$name.txt" > "$answers"
  fi
  for program in "$journal" "$reference"; do
    plays "$program" "$name"
    count $? "$program does not answer examples/$name.txt with $answers"
  done
done

for name in $(sed -nE 's/^## `(.*)\.txt`$/\1/p' "$story"); do
  diff <(told "$name") <(stored "$name")
  count $? "$story does not show examples/$name.txt with its answers"
done

echo "$passed passed, $failed failed"
[ "$failed" -eq 0 ] && [ "$passed" -gt 0 ]
