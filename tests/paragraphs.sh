#!/usr/bin/env bash
# Holds the paragraphs of docs/SPECIFICATION.md to the rest: every number that is cited anywhere is one of them; the table in
# docs/ARCHITECTURE.md has a row for each of them (the purpose, §1.1, aside); what a row names stands in the file that it names; and
# every public definition that a reader has to believe is in some row. The last line is 'N passed, M failed'.
set -u
cd "$(dirname "$0")/.." || exit 1
specification=docs/SPECIFICATION.md
table=docs/ARCHITECTURE.md
passed=0
failed=0

verdict() { # STATUS MESSAGE
  if [ "$1" -eq 0 ]; then passed=$((passed + 1)); else failed=$((failed + 1)) && echo "not so: $2"; fi
}

paragraphs=$(sed -nE 's/^- \*\*§([0-9]+\.[0-9]+\.[0-9]+)\*\* .*/\1/p' "$specification")
sections=$(sed -nE 's/^## §([0-9]+) .*/\1/p' "$specification")
# a paragraph, all that begin with its first numbers, or a section
known=$(for number in $paragraphs; do echo "$number" && echo "${number%.*}" && echo "${number%%.*}"; done; echo "$sections")
rows=$(sed -n '/^| paragraph /,/^$/p' "$table" | grep '^| §')

# the file that a row means by a name
path_of() { # NAME
  case $1 in
    */*.antt) echo "crates/${1%%/*}/specs/${1#*/}" ;;
    *.antt) echo "crates/model/specs/$1" ;;
    *.rt) echo "crates/${1%%/*}/src/${1#*/}" ;;
    *.rs) echo "reference/tests/$1" ;;
    *.sh) echo "tests/$1" ;;
  esac
}

# whether a file has a definition, a field of a record, a function or a type of this name
stands_in() { # FILE NAME
  case $1 in
    *.antt) grep -qE "^ *((abbrev|unfoldable) )?pub ((data|record) )?$2( |\$)" "$1" ;;
    *.rt) grep -qE "\<(fn|struct|enum) $2\>" "$1" ;;
    *.rs) grep -qE "\<fn $2\(" "$1" ;;
  esac
}

# 'FILE NAME' for each name of the rows, and 'FILE' for each file, by the marks around them
named() {
  awk '{
    file = ""
    while (match($0, /`[^`]+`/)) {
      token = substr($0, RSTART + 1, RLENGTH - 2)
      $0 = substr($0, RSTART + RLENGTH)
      if (token ~ /\.(antt|rt|rs|sh)$/) { file = token; print file } else print file " " token
    }
  }' <<< "$rows" | sort -u
}

# the public definitions of a file
defined() { # FILE
  sed -nE 's/^ *(abbrev|unfoldable) pub ([^ ]+) .*/\2/p; s/^pub (data|record) ([^ ]+) .*/\2/p' "$1"
}

# ---- the specification by itself, and whoever cites it

[ -z "$(sort <<< "$paragraphs" | uniq -d)" ]
verdict $? "each number of $specification is given once"
! grep -n '^- ' "$specification" | grep -vE '^[0-9]+:- \*\*§[0-9]+\.[0-9]+\.[0-9]+\*\* '
verdict $? "each paragraph of $specification begins with its number"

# but for what is built, and for a change that is not part of the repository yet
elsewhere=(--exclude-dir=target --exclude-dir=out --exclude-dir=.git --exclude=request-e.patch)
while read -r number; do
  grep -qxF "$number" <<< "$known"
  verdict $? "§$number is a paragraph: $(grep -rIlF "§$number" "${elsewhere[@]}" . | tr '\n' ' ')"
done < <(grep -rIhoE '§[0-9]+(\.[0-9]+)*' "${elsewhere[@]}" . | sed 's/^§//' | sort -u)

# ---- paragraphs and rows

while read -r number; do
  [ "$(grep -c "^| §$number |" <<< "$rows")" -eq 1 ]
  verdict $? "$table has one row for §$number"
done < <(grep -v '^1\.1\.' <<< "$paragraphs")
while IFS='|' read -r _ number _; do
  grep -qx "${number//[§ ]/}" <<< "$paragraphs"
  verdict $? "the row of$number is of a paragraph"
done <<< "$rows"

# ---- rows and files

names=$(named)
while read -r file name; do
  path=$(path_of "$file")
  if [ -z "$name" ]; then [ -f "$path" ]; else [ -f "$path" ] && stands_in "$path" "$name"; fi
  verdict $? "${name:-the file} stands in ${file:-a file}, as $table says"
done <<< "$names"

for path in crates/{model,masks,image,batch,terminal}/specs/*.antt crates/player/specs/Play.antt; do
  file=$(sed -E 's|crates/([a-z]+)/specs/|\1/|; s|^model/||' <<< "$path")
  for name in $(defined "$path"); do
    grep -qxF "$file $name" <<< "$names"
    verdict $? "$name of $path is in a row of $table"
  done
done

echo "$passed passed, $failed failed"
[ "$failed" -eq 0 ] && [ "$passed" -gt 0 ]
