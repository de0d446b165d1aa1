#!/usr/bin/env bash
# Holds the stored answers of the program cases to the independent implementation; with --write, writes them anew. Then asks
# that the cases meet every refusal of every call. The last line is 'N passed, M failed'.
set -u
cd "$(dirname "$0")/.." || exit 1
cargo build --release --offline --quiet --manifest-path reference/Cargo.toml || exit 1
passed=0
failed=0

count() { # STATUS MESSAGE
  if [ "$1" -eq 0 ]; then
    passed=$((passed + 1))
  else
    echo "$2"
    failed=$((failed + 1))
  fi
}

for name in journal cases; do
  if [ "${1:-}" = --write ]; then
    reference/target/release/journal < "crates/$name/stdin" > "crates/$name/stdout"
  fi
  reference/target/release/journal < "crates/$name/stdin" | cmp - "crates/$name/stdout"
  count $? "crates/$name/stdout is not what the independent implementation answers"
done

# each call with its refusals, as §6 lists them; 15 and 16 no line can meet
met() { # CALL NUMBER
  paste -d '\t' crates/cases/stdin crates/cases/stdout | grep -q "^$1 .*	no $2\$"
}

while read -r call numbers; do
  for number in $numbers; do
    met "$call" "$number"
    count $? "no case of $call is refused with $number"
  done
done << 'END'
enrol 1 2 4
found 1 2 4
grant 1 2 3 4
withdraw 1 2 3 4
appoint 1 2 3 4 5
dismiss 1 2 3 4
clock 1 13
create 1 2 3 6 7 8 9 10 11 12
allow 1 2 3 4 6 7 11
lend 1 2 3 4 6 7 11
hand 1 2 3 4 6 7 10
open 1 2 3 4 6 7 8 9 10
check 1 2 3
amend 1 2 3 4 6 7 10 11
revoke 1 2 3 6 7
close 1 2 3
same 1 2 3
END
echo "$passed passed, $failed failed"
[ "$failed" -eq 0 ]
