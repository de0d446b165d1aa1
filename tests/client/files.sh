# Sourced by tests/client.sh: how the client is called, and what it does with files: links, modes, owners, access lists, leftovers,
# outputs that fail, mounts, a full disk. A check that this machine cannot make is named as not run.

# ---- how it is called

help_shown() {
  start
  client --help > "$work/out" 2> "$work/err" && [ ! -s "$work/err" ] && [ -z "$(ls -A "$work/folder")" ] || return 1
  for words in '--new' '--help' 'Exit status' '^  0  ' '^  1  ' '^  2  ' '^  3  ' '^  4  '; do
    grep -q -e "$words" "$work/out" || { echo "no $words in the usage"; return 1; }
  done
}
help_to() { client --help > "$1"; }
help_unshown() { start; refuses 1 'standard output' help_to /dev/full; }

unknown() { # OPTION..
  start
  for option in "$@"; do
    refuses 2 'unknown option' client "$option" "$reg" 'enrol 3 0' && refuses 2 'unknown option' client --new "$option" "$reg" ||
      return 1
  done
}

# after --, and after the register, nothing is an option
no_options() {
  start
  (cd "$work/folder" && client --new -- --help 'enrol 3 0' && client -- --help --help --new &&
    client ./--help 'enrol 3 0') | numbers | cmp - <(printf 'ok 0\nno 1\nno 1\nno 4\n') && [ "$(ls -A "$work/folder")" = --help ]
}

missing() {
  start
  refuses 1 'No such file' client "$reg" 'enrol 3 0' && refuses 1 'No such file' client "$reg" < crates/journal/stdin
}

# --new takes the place of nothing, not even of a link that leads nowhere
there_already() {
  filled && mkdir "$work/folder/sub" && ln -s register "$work/folder/link" && ln -s nowhere "$work/folder/dangling" || return 1
  for name in register sub link dangling . ..; do
    refuses 1 'already' client --new "$work/folder/$name" 'enrol 3 0' || return 1
  done
}

bad_names() {
  filled || return 1
  for name in '' "$work/folder/" "$work/folder/sub/"; do
    refuses 1 'names no file' client --new "$name" || return 1
  done
  refuses 1 'No such file' client '' 'enrol 3 0' && refuses 1 'this is a folder' client "$work/folder/" 'enrol 3 0' &&
    refuses 1 'names no file' client / 'enrol 3 0' && refuses 1 'may not be called so' client --new "$reg.unsaved" &&
    refuses 1 'not a file of bytes' client /dev/null 'enrol 3 0' &&
    refuses 1 'too long' client --new "$work/folder/$(printf '%0248d' 0)" &&
    client --new "$work/folder/$(printf '%0247d' 0)" < /dev/null
}

# the commands that docs/LIBRARY.md shows, with what they print
in_text() {
  start
  awk '$0 == "```" { on = 0 } on { print } $0 == "```client" { on = 1 }' docs/LIBRARY.md > "$work/shown"
  grep '^[$] ' "$work/shown" | while IFS= read -r command; do
    echo "$command"
    (cd "$work/folder" && PATH="$work:$PATH" bash -c "${command#??}" 2>&1 || :)
  done | diff - "$work/shown" && [ -s "$work/shown" ]
}

# ---- links: one register, whichever path names it

# ends as a run without links would: the register is right, and the folder has just these names
ends_with() { # LINES NAME..
  rm -f "$work/plain"
  client --new "$work/plain" < "$1" > /dev/null && cmp "$reg" "$work/plain" || return 1
  diff <(printf '%s\n' "${@:2}") <(ls -A "$work/folder")
}

links() {
  start
  mkdir "$work/folder/other"
  ln -s register "$work/folder/near"
  ln -s ../near "$work/folder/other/far"
  ln -s . "$work/folder/same"
  printf 'enrol %d 0\n' {1..6} > "$work/input"
  client --new "$reg" 'enrol 1 0' && client "$work/folder/near" 'enrol 2 0' && client "$work/folder/other/far" 'enrol 3 0' &&
    client "$work/folder/same/near" 'enrol 4 0' &&
    (cd "$work/folder/other" && client far 'enrol 5 0' && client ../register 'enrol 6 0') || return 1
  ends_with "$work/input" near other register same && [ -L "$work/folder/near" ] && [ ! -L "$reg" ] &&
    [ "$(ls -A "$work/folder/other")" = far ] && [ -L "$work/folder/other/far" ]
}

# opened, it would wait for somebody who writes into it
is_pipe() { start; mkfifo "$work/fifo"; refuses 1 'not a file of bytes' timeout 20 "${runner[@]}" "$work/client" "$work/fifo" 'same 0 0'; }

nowhere() { start; ln -s none "$work/folder/link"; refuses 1 'No such file' client "$work/folder/link" 'enrol 3 0'; }

# a register with a second hard link may be asked, but not changed
hard_link() {
  filled && ln "$reg" "$work/folder/second" && refuses 1 'hard links' client "$reg" 'enrol 3 0' &&
    client "$reg" 'same 0 0' | cmp - <(echo 'ok 1')
}

# ---- mode and owner

modes() {
  start
  (umask 0; client --new "$reg" 'enrol 1 0') && [ "$(stat -c %a "$reg")" = 600 ] || return 1
  local user=2
  for mode in 600 640 664 777 2660; do
    chmod "$mode" "$reg"
    (umask 077; client "$reg" "enrol $user 0") | cmp - <(echo 'ok 0') && [ "$(stat -c %a "$reg")" = "$mode" ] || return 1
    user=$((user + 1))
  done
}

owners() {
  filled && chown 54321:12345 "$reg" && chmod 640 "$reg" && client "$reg" 'enrol 3 0' &&
    [ "$(stat -c '%u:%g %a' "$reg")" = '54321:12345 640' ]
}

# runs the client as a user who is not the superuser
other() { setpriv --reuid 54321 --regid 12345 --clear-groups "${runner[@]}" "$work/client" "$@"; }

# a colleague of the same group saves: group and mode stay, the owner cannot
colleague() {
  filled && chown 0:12345 "$work/folder" "$reg" && chmod 770 "$work/folder" && chmod 660 "$reg" && other "$reg" 'enrol 3 0' &&
    [ "$(stat -c '%u:%g %a' "$reg")" = '54321:12345 660' ]
}

# whoever cannot keep the group would give its rights to another
stranger() {
  filled && chown 0:12346 "$reg" && chmod 777 "$work/folder" && chmod 666 "$reg" &&
    refuses 1 'group cannot be kept' other "$reg" 'enrol 3 0'
}

# a register, or a folder, that may only be read: lines that change nothing are answered
read_only() { # FOLDER-MODE REGISTER-MODE COMMAND..
  filled && chmod "$2" "$reg" && chmod "$1" "$work/folder" || return 1
  refuses 1 'Permission denied' "${@:3}" "$reg" 'enrol 3 0' &&
    "${@:3}" "$reg" 'enrol 0 0' 'same 0 0' | numbers | cmp - <(printf 'no 4\nok 1\n')
  local status=$?
  chmod 755 "$work/folder"
  return "$status"
}
unreadable() { filled && chmod 755 "$work/folder" && chmod 600 "$reg" && refuses 1 'Permission denied' other "$reg" 'same 0 0'; }
no_new() { # COMMAND..
  start
  chmod 555 "$work/folder"
  refuses 1 'Permission denied' "$@" --new "$reg" 'enrol 3 0'
  local status=$?
  chmod 755 "$work/folder"
  return "$status"
}

# the superuser may be barred from this too
may_be_other() {
  chmod 711 "$work" && : > "$work/owned" && chown 54321:12345 "$work/owned" && other --help > /dev/null
}

owner_checks() {
  if [ "$(id -u)" -ne 0 ]; then
    check 'files: a register that may not be written' read_only 755 444 client
    check 'files: a folder that may not be written' read_only 555 644 client
    check 'files: a new register in a folder that may not be written' no_new client
    echo 'not run: owners, as only the superuser may change them'
  elif ! may_be_other 2> /dev/null; then
    echo 'not run: owners and folders that may not be written, as no other user can run the client here'
  else
    check 'files: a register that may not be written' read_only 777 444 other
    check 'files: a folder that may not be written' read_only 755 666 other
    check 'files: a new register in a folder that may not be written' no_new other
    check 'files: a register that may not be read' unreadable
    check 'files: owner and group kept' owners
    check 'files: another user of the group' colleague
    check 'files: a user who is not of the group' stranger
  fi
}

# ---- access lists: read and write for the owner, for user 54321 and for nobody else

give_list() { # FILE access|default
  python3 -c 'import os, struct, sys
entries = [(1, 6, 2**32 - 1), (2, 6, 54321), (4, 0, 2**32 - 1), (16, 6, 2**32 - 1), (32, 0, 2**32 - 1)]
os.setxattr(sys.argv[1], "system.posix_acl_" + sys.argv[2], struct.pack("<I", 2) + b"".join(struct.pack("<HHI", *e) for e in entries))' "$@"
}
has_list() { python3 -c 'import os, sys; sys.exit("system.posix_acl_access" not in os.listxattr(sys.argv[1]))' "$1"; }

# it is not changed: the new file would have the list's mask as the rights of its group, and no list
listed() {
  filled && chmod 600 "$reg" && give_list "$reg" access && refuses 1 'access list' client "$reg" 'enrol 3 0' && has_list "$reg" &&
    client "$reg" 'same 0 0' | cmp - <(echo 'ok 1')
}
# a list that the folder has for new files is not taken over
listed_folder() {
  filled && give_list "$work/folder" default && client "$reg" 'enrol 3 0' && ! has_list "$reg" && [ "$(stat -c %a "$reg")" = 600 ]
}

list_checks() {
  start
  : > "$work/folder/file"
  if give_list "$work/folder/file" access 2> /dev/null; then
    check 'files: a register with an access list' listed
    check 'files: a folder with an access list for new files' listed_folder
  else
    echo 'not run: access lists, as there is no python3 or no such lists here'
  fi
}

# ---- leftovers of a killed client: no obstacle, and nothing else is touched

leftover() { # COMMAND..: makes the leftover
  start
  printf 'enrol %d 0\n' 1 2 > "$work/input"
  client --new "$reg" 'enrol 1 0' && echo precious > "$work/victim" && "$@" && client "$reg" 'enrol 2 0' | cmp - <(echo 'ok 0') &&
    ends_with "$work/input" register && [ "$(cat "$work/victim")" = precious ] && [ ! -e "$work/nowhere" ]
}
left_file() { echo rubbish > "$reg.unsaved" && chmod "$1" "$reg.unsaved"; }
left_link() { ln -s "$work/$1" "$reg.unsaved"; }
left_hard_link() { ln "$1" "$reg.unsaved"; }
left_new() {
  start
  ln -s "$work/nowhere" "$reg.unsaved"
  client --new "$reg" 'enrol 1 0' && ends_with <(echo 'enrol 1 0') register && [ ! -e "$work/nowhere" ]
}
left_folder() { filled && mkdir "$reg.unsaved" && refuses 1 'cannot be removed' client "$reg" 'enrol 3 0'; }

# the name under which an earlier client wrote and locked means nothing now
former_lock() {
  filled && echo other > "$reg.new" && client "$reg" 'enrol 3 0' | cmp - <(echo 'ok 0') && [ "$(cat "$reg.new")" = other ]
}

# ---- what is written, and when

# with standard error closed nothing is played either, though nothing can be told
closed_error() { client "$reg" 'enrol 3 0' 2>&-; local status=$?; echo "status $status" >&2; return "$status"; }
no_error() { filled && refuses 1 '^status 1$' closed_error; }

unsure() {
  start
  "$cc" -std=c11 "${flags[@]}" -Iinclude -Iexamples -Dfsync=failing_fsync -o "$work/unsure" tests/client/unsure.c examples/store.c "$LIB" \
    "${libs[@]}" && "$work/unsure" "$reg" && ends_with <(printf 'enrol %d 0\n' 1 2) register
}

# a pipe that nobody reads any more
to_nobody() {
  rm -f "$work/pipe"
  mkfifo "$work/pipe"
  exec 5<> "$work/pipe" 6> "$work/pipe" 5>&-
  client "$reg" "$@" >&6
  local status=$?
  exec 6>&-
  return "$status"
}

# the reader goes after the first of many answers
hang_up() {
  start
  { printf 'enrol 1 0\n'; yes '' | head -n 50000; printf 'enrol 2 0\n'; } > "$work/input"
  { client --new "$reg" < "$work/input" 2> "$work/err"; echo $? > "$work/status"; } | head -n 1 | cmp - <(echo 'ok 0') &&
    [ "$(cat "$work/status")" = 4 ] && ends_with <(printf 'enrol %d 0\n' 1 2) register
}

# lines that change nothing leave the very file
untouched() {
  filled || return 1
  local before
  before=$(stat -c '%i %y %z' "$reg")
  client "$reg" 'same 0 0' 'enrol 0 0' '' 'clock 0' > /dev/null && client "$reg" < /dev/null &&
    [ "$(stat -c '%i %y %z' "$reg")" = "$before" ] && client "$reg" 'enrol 3 0' > /dev/null &&
    [ "$(stat -c '%i' "$reg")" != "${before%% *}" ]
}

# a mount of the file alone keeps the former register when another one takes its place
mounted() {
  filled && mkdir "$work/folder/sub" && : > "$work/folder/sub/alone" || return 1
  unshare -rm bash -c 'mount --bind "$1" "$2" && "${@:3}" "$1" "enrol 3 0" && "${@:3}" "$2" "same 0 0"; echo "status $?"' - \
    "$reg" "$work/folder/sub/alone" "${runner[@]}" "$work/client" 2>&1 | sed 's/: it was replaced.*mount its folder$/: replaced/' |
    diff - <(echo 'ok 0'; echo "client: $work/folder/sub/alone: replaced"; echo 'status 1')
}

# a file system of two pages, which the register fills
on_full_disk() { # FOLDER COMMAND..
  unshare -rm bash -c 'mount -t tmpfs -o size=8k none "$1" && cp "$1.register" "$1/register" && "${@:2}"; echo "status $?"
    cmp "$1.register" "$1/register" && ls -A "$1"' - "$@"
}
full_disk() {
  filled && printf 'create 0 role 0 0 0 0 0 %d 1 1 1 16777215 65535 65535\n' {1..200} | client "$reg" > /dev/null &&
    [ "$(wc -c < "$reg")" -gt 4096 ] && mv "$reg" "$work/folder.register" || return 1
  on_full_disk "$work/folder" "${runner[@]}" "$work/client" "$reg" 'enrol 3 0' 2>&1 |
    diff - <(echo "client: $reg: the new register cannot be written: No space left on device"; echo 'status 1'; echo register)
}

file_checks() {
  check 'usage: --help' help_shown
  check 'usage: --help that cannot be shown' help_unshown
  check 'usage: unknown options' unknown -x - --nwe --new=1 --helpme ---
  check 'usage: names and lines that look like options' no_options
  check 'usage: no register, and --new not said' missing
  check 'usage: --new where something is' there_already
  check 'usage: --new without a name' refuses 2 usage client --new
  check 'usage: names that no register can have' bad_names
  check 'usage: the example in docs/LIBRARY.md' in_text
  check 'files: several paths, one register' links
  check 'files: a link that leads nowhere' nowhere
  check 'files: a named pipe' is_pipe
  check 'files: a second hard link' hard_link
  check 'files: mode kept' modes
  owner_checks
  list_checks
  check 'files: a leftover' leftover left_file 644
  check 'files: a leftover without any permission' leftover left_file 0
  check 'files: a leftover that is a link to another file' leftover left_link victim
  check 'files: a leftover that is a link to nowhere' leftover left_link nowhere
  check 'files: a leftover that is another file' leftover left_hard_link "$work/victim"
  check 'files: a leftover that is the register' leftover left_hard_link "$work/folder/register"
  check 'files: a leftover where a register is to be' left_new
  check 'files: a leftover that is a folder' left_folder
  check 'files: the lock of an earlier client' former_lock
  check 'files: lines that change nothing' untouched
  check 'files: a folder that cannot be synced after a save' unsure
  check 'output: standard error closed' no_error
  check 'output: a pipe that nobody reads' unshown to_nobody
  check 'output: a reader that goes' hang_up
  if unshare -rm mount -t tmpfs -o size=8k none "$work" 2> /dev/null; then
    check 'files: a full disk' full_disk
    check 'files: a mount of the file alone' mounted
  else
    echo 'not run: a full disk and a mount of the file alone, as nothing may be mounted'
  fi
}
