#!/usr/bin/env bash
# Holds the table of rooms in docs/ARCHITECTURE.md to the sources: each function stands in the row of its crate and file, and each row
# names only functions of its file. The last line is 'N passed, M failed'.
set -u
cd "$(dirname "$0")/.." || exit 1
passed=0
failed=0

verdict() { # STATUS MESSAGE
  if [ "$1" -eq 0 ]; then passed=$((passed + 1)); else failed=$((failed + 1)) && echo "not so: $2"; fi
}

for file in crates/*/src/*.rt; do
  crate=$(cut -d/ -f2 <<<"$file")
  name=$(basename "$file")
  case $name in
    main.rt) continue ;;
    lib.rt) room="| \`$crate\` |" ;;
    *) room="| \`$crate\`, \`$name\` |" ;;
  esac
  functions=$(sed -nE 's/^ *(pub(\(crate\))? )?(extern "C" )?fn ([a-z_0-9]+).*/\4/p' "$file" | sort -u)
  [ -n "$functions" ] || continue
  row=$(grep -F "$room" docs/ARCHITECTURE.md)
  for function in $functions; do
    grep -qF "\`$function\`" <<<"${row##*"$room"}"
    verdict $? "docs/ARCHITECTURE.md has $function of $file in its row"
  done
  for named in $(grep -o '`[^`]*`' <<<"${row##*"$room"}" | tr -d '`'); do
    grep -qxF "$named" <<<"$functions"
    verdict $? "$named, in the row of $file, is a function of it"
  done
done

echo "$passed passed, $failed failed"
[ "$failed" -eq 0 ] && [ "$passed" -gt 0 ]
