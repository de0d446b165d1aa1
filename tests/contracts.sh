#!/usr/bin/env bash
# Lists every public function of the crates in crates.txt, those of public traits and of impls of a trait too, what it requires and whether
# it ensures something, and every part of the whole promise, and holds the list to tests/contracts.txt; with --write, writes that anew. A row
# is crate, module, function, the text of its requires or -, ensures or -; or promise, its file, a part, the statement's name or -, part;
# with tabs between them. A function of an impl that has no ensures has that of its trait: 'trait', or 'ensures' where the impl says by a
# ghost what it gives. The last line is 'N passed, M failed'.
set -u
cd "$(dirname "$0")/.." || exit 1
export LC_ALL=C
stored=tests/contracts.txt
now=$(mktemp)
trap 'rm -f "$now"' EXIT

# the rows of one file: up to the brace of its body, a function has clauses in braces of their own
rows() { # CRATE MODULE FILE
  awk -v crate="$1" -v module="$2" '
    # the end of what stands in braces, the first of them left out
    function closed(s, from,   depth, c) {
      for (depth = 1; depth > 0 && from <= length(s); from++) {
        c = substr(s, from, 1)
        depth += (c == "{") - (c == "}")
      }
      return from
    }

    # the row of a function, whose clauses s begins with
    function row(name, s, otherwise,   at, kind, end, clause, requires, ensures) {
      ensures = otherwise
      while ((at = index(s, "{")) > 0 && match(substr(s, 1, at - 1), /(requires|ensures)\*?( [a-z_0-9]+)? $/)) {
        kind = substr(s, RSTART, 8)
        s = substr(s, at + 1)
        end = closed(s, 1)
        clause = substr(s, 1, end - 2)
        gsub(/^ +| +$/, "", clause)
        if (kind == "requires") requires = requires (requires == "" ? "" : " ; ") clause
        else ensures = "ensures"
        s = substr(s, end)
      }
      print crate "\t" module "\t" name "\t" (requires == "" ? "-" : requires) "\t" ensures
    }

    # the rows of the functions of a public trait or of an impl
    function rows_of(owner, s, otherwise,   name, given) {
      given = s
      while (match(s, /(^| )fn [a-z_0-9]+/)) {
        name = substr(s, RSTART, RLENGTH)
        s = substr(s, RSTART + RLENGTH)
        sub(/.* /, "", name)
        row(owner "::" name, s, index(given, "ghost " name "_gives ") ? "ensures" : otherwise)
      }
    }

    # a trait or type that this file keeps to itself
    function own(name) {
      sub(/[<:].*/, "", name)
      return whole ~ (" (trait|struct|enum) " name "[ <:(;]") && whole !~ (" pub (trait|struct|enum) " name "[ <:(;]")
    }

    { sub(/\/\/.*/, ""); text = text " " $0 }
    END {
      gsub(/[ \t]+/, " ", text)
      whole = text
      while (match(text, / pub (const )?(unsafe )?(extern "C" )?fn [a-z_0-9]+| pub trait [^{]*[{]| impl[^{;]* for [^{;]*[{]/)) {
        head = substr(text, RSTART + 1, RLENGTH - 1)
        text = substr(text, RSTART + RLENGTH)
        if (head !~ /[{]$/) {
          sub(/.* /, "", head)
          row(head, text, "-")
          continue
        }
        end = closed(text, 1)
        given = substr(text, 1, end - 2)
        text = substr(text, end)
        if (head ~ /^pub trait/) {
          sub(/^pub trait /, "", head)
          sub(/[ <:].*/, "", head)
          rows_of(head, given, "-")
          continue
        }
        sub(/^impl(<[^>]*>)? /, "", head)
        of = head
        sub(/ for .*/, "", of)
        sub(/.* for /, "", head)
        sub(/ ?[{]$/, "", head)
        if (!own(of) && !own(head)) rows_of("<" head " as " of ">", given, "trait")
      }
    }' "$3"
}

for crate in $(sed -nE 's/^([a-z_0-9]+)( [^:]*)?:.*/\1/p' crates.txt); do
  for file in crates/"$crate"/src/*.rt; do
    module=$(basename "$file" .rt)
    rows "$crate" "$(sed 's/^\(lib\|main\)$/-/' <<<"$module")" "$file"
  done
done > "$now"

# the parts of the promise: a statement that stands on the part's own line is named
for file in crates/promise/specs/{Promise,PublicContracts}.antt; do
  sed -nE "s/^ +pub ([a-z_]+) : ([^ ({]*).*/promise\t$(basename "$file" .antt)\t\1\t\2\tpart/p" "$file" | sed 's/\t\t/\t-\t/'
done >> "$now"
if [ "${1:-}" = --write ]; then
  cp "$now" "$stored"
fi

# a row that has changed is one on each side
diff "$stored" "$now"
passed=$(sort "$stored" "$now" | uniq -d | wc -l)
failed=$(sort "$stored" "$now" | uniq -u | wc -l)
echo "$passed passed, $failed failed"
[ "$failed" -eq 0 ] && [ "$passed" -gt 0 ]
