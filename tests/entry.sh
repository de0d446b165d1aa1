#!/usr/bin/env bash
# Random lists of calls, images and lines through the proved C entry point and through the independent implementation.
# `make lib` builds the library where it is missing or older than the sources; FELLUNQA_LIB_DIR names the folder of another
# one to be tested. The last line is the sum, 'N passed, M failed'.
set -u
cd "$(dirname "$0")/.." || exit 1
passed=0
failed=0

finish() {
  echo "$passed passed, $failed failed"
  [ "$failed" -eq 0 ] && [ "$passed" -gt 0 ]
  exit
}

give_up() { # WHY
  echo "$1"
  failed=$((failed + 1))
  finish
}

library=target/staticlib/libfellunqa.a
if [ -z "${FELLUNQA_LIB_DIR:-}" ]; then
  if [ ! -f "$library" ] || [ -n "$(find crates/*/src crates.txt -newer "$library" -print -quit)" ]; then
    make -s lib || give_up 'the static library is not built'
  fi
fi
cargo build --release --offline --quiet --manifest-path compare/Cargo.toml --bin entry || give_up 'the comparison is not built'

out=$(mktemp)
trap 'rm -f "$out"' EXIT
for comparison in lists images entries; do
  echo "-- $comparison"
  compare/target/release/entry "$comparison" | tee "$out"
  status=${PIPESTATUS[0]}
  if [[ $(tail -n 1 "$out") =~ ^([0-9]+)\ passed,\ ([0-9]+)\ failed$ ]]; then
    passed=$((passed + BASH_REMATCH[1]))
    failed=$((failed + BASH_REMATCH[2]))
  else
    echo "it ended with status $status"
    failed=$((failed + 1))
  fi
done
finish
