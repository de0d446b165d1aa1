# Sourced by tests/client.sh: the client killed, met by another client, or failed by the system at each of its system calls, and
# at random. The register must be the one before the run or the one after it; with an answer shown, the one after it; and the
# next client goes on without any help.

# the register before, and after A (the client that is held), B (the one that meets it), or both
images() {
  start
  rm -f "$work/none" "$work/made"
  "$work/client" --new "$work/none" 'enrol 1 0' > /dev/null && cp "$work/none" "$work/A" && cp "$work/none" "$work/B" &&
    "$work/client" "$work/A" 'enrol 2 0' 'enrol 3 0' > /dev/null && "$work/client" "$work/B" 'enrol 4 0' > /dev/null &&
    cp "$work/A" "$work/AB" && "$work/client" "$work/AB" 'enrol 4 0' > /dev/null
}

# holds A at one call; its status in $status, its answers in out
hold() { # NUMBER kill|go COMMAND ARGUMENT..
  "$work/steps" "$1" "$2" "$3" "$work/client" "${@:4}" 'enrol 2 0' 'enrol 3 0' > "$work/out" 2> "$work/err"
  status=$?
  if [ "$status" -eq 65 ]; then cat "$work/err"; fi
  [ "$status" -ne 65 ]
}

which_image() { # NAME..: the first that the register is
  local name
  for name in "$@"; do
    if cmp -s "$reg" "$work/$name"; then echo "$name"; return; fi
  done
  echo other
}

wrong() { # MESSAGE
  echo "$1; status $status, answers: $(tr '\n' ' ' < "$work/out"), in the folder: $(ls "$work/folder" | tr '\n' ' ')"
  return 1
}

# the next client, with nothing cleared away, plays B's line
next_plays() { # IMAGE-AFTER
  "$work/client" "$reg" 'enrol 4 0' > "$work/next" 2>&1 && cmp "$work/next" <(echo 'ok 0') && cmp "$reg" "$work/$1" &&
    [ "$(ls -A "$work/folder")" = register ]
}

# both outcomes, and answers shown, must be among the calls tried
all_seen() { # SEEN WORD..
  local word
  for word in "${@:2}"; do
    case $1 in *" $word "*) ;; *) echo "never seen: $word (seen:$1)"; return 1 ;; esac
  done
}

killed_each() {
  local call=1 seen=' ' now status
  images || return 1
  while :; do
    cp "$work/none" "$reg"
    hold "$call" kill : "$reg" || return 1
    [ "$status" -eq 137 ] || break
    [ -e "$reg.unsaved" ] && seen+='leftover '
    now=$(which_image none A)
    case $now in
      none) [ ! -s "$work/out" ] && next_plays B ;;
      A) next_plays AB ;;
      *) false ;;
    esac || { wrong "killed at call $call: the register is $now"; return 1; }
    seen+="$now "
    [ -s "$work/out" ] && seen+='shown '
    call=$((call + 1))
  done
  [ "$status" -eq 64 ] && all_seen "$seen" none leftover A shown
}

# the same for a register that is to be made: it is not there, or it is whole
killed_making() {
  local call=1 seen=' ' now status
  images && "$work/client" --new "$work/made" 'enrol 2 0' 'enrol 3 0' > /dev/null && cp "$work/made" "$work/made.next" &&
    "$work/client" "$work/made.next" 'enrol 4 0' > /dev/null || return 1
  while :; do
    rm -f "$reg"
    hold "$call" kill : --new "$reg" || return 1
    [ "$status" -eq 137 ] || break
    [ -e "$reg.unsaved" ] && seen+='leftover '
    [ "$reg.unsaved" -ef "$reg" ] && seen+='linked '
    if [ -e "$reg" ]; then
      now=made
    else
      now=none
      [ ! -s "$work/out" ] && "$work/client" --new "$reg" 'enrol 2 0' 'enrol 3 0' > /dev/null
    fi && cmp "$reg" "$work/made" && next_plays made.next || { wrong "killed at call $call: $now"; return 1; }
    seen+="$now "
    [ -s "$work/out" ] && seen+='shown '
    call=$((call + 1))
  done
  [ "$status" -eq 64 ] && all_seen "$seen" none leftover linked made shown
}

# Runs a command while another client is held, until it has ended or the kernel's list of locks has somebody who waits for the
# folder. Its output goes to out.NAME and its status to status.NAME, which is written when it ends.
export work
cat > "$work/meet" << 'END'
name=$1
shift
rm -f "$work/status.$name" "$work/waited.$name"
{
  "$@" > "$work/out.$name" 2>&1
  echo "$?" > "$work/part.$name"
  mv "$work/part.$name" "$work/status.$name"
} &
inode=$(stat -c %i "$work/folder")
n=0
until [ -e "$work/status.$name" ] || [ "$n" -eq 200 ] || grep -q -e "-> FLOCK .*:$inode " /proc/locks; do
  sleep 0.005
  n=$((n + 1))
done
[ -e "$work/status.$name" ] || echo waited > "$work/waited.$name"
END
cat > "$work/meet.B" << 'END'
exec sh "$work/meet" B "$work/client" "$work/other/link" 'enrol 4 0'
END
cat > "$work/meet.C" << 'END'
exec sh "$work/meet" C "$work/client" "$work/folder/register" 'enrol 5 0'
END
# B again, but held in its turn, at the call that the file says, and met by C
cat > "$work/meet.BC" << 'END'
exec sh "$work/meet" B "$work/steps" "$(cat "$work/call")" go 'sh "$work/meet.C"' "$work/client" "$work/other/link" 'enrol 4 0'
END

cat > "$work/meet.new" << 'END'
exec sh "$work/meet" B "$work/client" --new "$work/folder/register" 'enrol 4 0'
END

# it has ended, or does so now that nobody is held, and its line is played
ended() { # NAME
  local n=0
  until [ -e "$work/status.$1" ] || [ "$n" -eq 2000 ]; do
    sleep 0.005
    n=$((n + 1))
  done
}
played() { # NAME
  ended "$1"
  [ "$(cat "$work/status.$1")" = 0 ] && cmp "$work/out.$1" <(echo 'ok 0')
}

# B comes by another path while A is held
meeting() { images && rm -rf "$work/other" && mkdir "$work/other" && ln -s ../folder/register "$work/other/link"; }

met_each() { # kill|go
  local call=1 seen=' ' now status
  meeting || return 1
  while :; do
    cp "$work/none" "$reg"
    hold "$call" "$1" "sh '$work/meet.B'" "$reg" || return 1
    [ "$status" -ne 64 ] || break
    played B || { wrong "met at call $call: the other client did not play"; return 1; }
    now=$(which_image B AB)
    case $1:$now:$status in
      go:AB:0) cmp "$work/out" <(printf 'ok 0\nok 0\n') ;;
      kill:B:137) [ ! -s "$work/out" ] ;;
      kill:AB:137) ;;
      *) false ;;
    esac && [ "$(ls -A "$work/folder")" = register ] || { wrong "met at call $call: the register is $now"; return 1; }
    seen+="$now "
    if [ -e "$work/waited.B" ]; then seen+="waited $call:waited "; else seen+='passed '; fi
    call=$((call + 1))
  done
  all_seen "$seen" AB waited passed && if [ "$1" = kill ]; then all_seen "$seen" B; fi && echo "$seen" > "$work/seen"
}

# B has waited for A, which put a new file in the register's place, and is met in its turn by C: is its lock still the lock?
met_waiting() {
  local call first status
  meeting && cp "$work/AB" "$work/ABC" && "$work/client" "$work/ABC" 'enrol 5 0' > /dev/null || return 1
  first=$(grep -o '[0-9]*:waited' "$work/seen" | head -n 1)
  first=${first%:*}
  for ((call = first; ; call++)); do
    cp "$work/none" "$reg"
    rm -f "$work/status.C"
    echo "$call" > "$work/call"
    hold "$first" go "sh '$work/meet.BC'" "$reg" || return 1
    played B || [ "$(cat "$work/status.B")" = 64 ] || { wrong "waiting, at call $call: B did not play"; return 1; }
    [ "$(cat "$work/status.B")" != 64 ] || break
    played C && cmp "$reg" "$work/ABC" || { wrong "waiting, met at call $call: a line is lost"; return 1; }
  done
  [ "$call" -gt $((first + 10)) ]
}

# two that would make one register: one of them makes it whole, and the other is told that it is there
met_making() {
  local call=1 seen=' ' now status
  meeting && rm -f "$work/made.B" && "$work/client" --new "$work/made" 'enrol 2 0' 'enrol 3 0' > /dev/null &&
    "$work/client" --new "$work/made.B" 'enrol 4 0' > /dev/null || return 1
  while :; do
    rm -f "$reg"
    hold "$call" go "sh '$work/meet.new'" --new "$reg" || return 1
    [ "$status" -ne 64 ] || break
    ended B
    now=$status:$(cat "$work/status.B"):$(which_image made made.B)
    case $now in
      0:1:made) grep -q already "$work/out.B" ;;
      1:0:made.B) grep -q already "$work/err" ;;
      *) false ;;
    esac && [ "$(ls -A "$work/folder")" = register ] || { wrong "met at call $call while it makes a register: $now"; return 1; }
    seen+="$now "
    call=$((call + 1))
  done
  all_seen "$seen" 0:1:made 1:0:made.B
}

# ---- the system's answer to one call is a fault

# each call of a run: its name, and which of this name it is
calls() {
  cp "$work/none" "$reg"
  strace -o "$work/trace" "$work/client" "$reg" 'enrol 2 0' 'enrol 3 0' > "$work/out" &&
    awk -F '(' '/^[a-z]/ && !/^exec/ { print $1, ++count[$1] }' "$work/trace"
}

# strace gives the fault to one call
fail_call() { # FAULT NAME NUMBER
  cp "$work/none" "$reg"
  strace -o "$work/trace" -e "inject=$2:error=$1:when=$3" \
    "$work/client" "$reg" 'enrol 2 0' 'enrol 3 0' > "$work/out" 2> "$work/err"
  status=$?
  grep -q INJECTED "$work/trace"
}

# what may be of a run that met a fault: its status and the register; a failed lock, read, write, sync or rename is told, and an
# interrupted lock, sync, read or write of the register is tried again
fits() { # STATUS:IMAGE FAULT NAME
  case $2:$3:$1 in
    EIO:flock:0:* | EIO:read:0:* | EIO:write:0:* | EIO:fsync:0:* | EIO:rename*:0:*) return 1 ;;
    EINTR:flock:0:A | EINTR:fsync:0:A | EINTR:write:[04]:A) ;;
    EINTR:flock:* | EINTR:fsync:* | EINTR:write:*) return 1 ;;
    EINTR:read:1:none) return 1 ;;
  esac
  case $1 in
    0:A) cmp "$work/out" <(printf 'ok 0\nok 0\n') ;;
    1:none | 4:A) [ ! -s "$work/out" ] && grep -q '^client: ' "$work/err" ;;
    127:none | 139:none) [ ! -s "$work/out" ] && { [ "$started" = no ] || [ "$3" = brk ]; } ;; # the program could not be started
    1[0-9][0-9]:A) [ "$3" = exit_group ] && cmp "$work/out" <(printf 'ok 0\nok 0\n') ;; # it could not be ended
    *) false ;;
  esac
}

failed_each() { # FAULT
  local seen=' ' now status name number started=no
  images && calls > "$work/calls" || return 1
  while read -r name number; do
    if [ "$name" = fcntl ]; then started=yes; fi # the first call that the client makes itself, but for two signals
    fail_call "$1" "$name" "$number" || { wrong "$name $number does not get $1"; return 1; }
    now=$(which_image none A)
    fits "$status:$now" "$1" "$name" || { wrong "$1 of $name $number: the register is $now"; return 1; }
    if [ "$now" = none ]; then next_plays B; else next_plays AB; fi ||
      { wrong "the next client, after $1 of $name $number"; return 1; }
    seen+="$status:$now "
  done < "$work/calls"
  echo "$seen"
  all_seen "$seen" 0:A 1:none 4:A
}

# the same while it makes a register: it is whole or not there, and its answers are shown only if it is there
failed_making() { # FAULT
  local name number now status
  images && "$work/client" --new "$work/made" 'enrol 2 0' 'enrol 3 0' > /dev/null &&
    strace -o "$work/trace" "$work/client" --new "$reg" 'enrol 2 0' 'enrol 3 0' > "$work/out" || return 1
  awk -F '(' '/^[a-z]/ && !/^exec/ { print $1, ++count[$1] }' "$work/trace" > "$work/calls"
  while read -r name number; do
    rm -f "$reg"
    strace -o "$work/trace" -e "inject=$name:error=$1:when=$number" \
      "$work/client" --new "$reg" 'enrol 2 0' 'enrol 3 0' > "$work/out" 2> "$work/err"
    status=$?
    now=none
    [ ! -e "$reg" ] || now=$(which_image made)
    case $1:$name:$status:$now in
      EIO:flock:0:* | EIO:write:0:* | EIO:fsync:0:* | EIO:linkat:0:* | EINTR:flock:[!0]:* | EINTR:fsync:[!0]:*) false ;;
      *:0:made) cmp "$work/out" <(printf 'ok 0\nok 0\n') ;;
      *:1:none | *:127:none | *:139:none | *:4:made) [ ! -s "$work/out" ] ;;
      *) false ;;
    esac || { wrong "$1 of $name $number while it makes a register: $now"; return 1; }
  done < "$work/calls"
}

# written, synced, renamed, the folder synced, the lock given up, and only then shown
order() { # rename|link ARGUMENT..
  images && { [ "$1" = link ] || cp "$work/none" "$reg"; } || return 1
  strace -y -o "$work/trace" "$work/client" "${@:2}" "$reg" 'enrol 2 0' 'enrol 3 0' > "$work/out" || return 1
  sed -n -e 's/^flock(.*LOCK_EX.*= 0$/lock/p' -e 's/^fsync([0-9]*<[^>]*folder>) *= 0$/sync the folder/p' \
    -e 's/^write([0-9]*<[^>]*unsaved>.*/write/p' -e 's/^fsync([0-9]*<[^>]*unsaved>) *= 0$/sync the register/p' \
    -e 's/^\(rename\|link\)[^"]*"register.unsaved",[^"]*"register".*= 0$/\1/p' \
    -e 's/^close([0-9]*<[^>]*folder>) *= 0$/unlock/p' -e 's/^write(1<.*/show/p' "$work/trace" |
    diff - <(printf '%s\n' lock 'sync the folder' write 'sync the register' "$1" 'sync the folder' unlock show)
}

# more lines, or more answers, than there is memory for: none is played
no_memory() { # WORDS LINE NUMBER
  local status
  images && cp "$work/none" "$reg" || return 1
  { echo 'enrol 2 0'; yes "$2" | head -n "$3"; } | (ulimit -v 30000; "$work/client" "$reg") > "$work/out" 2> "$work/err"
  status=$?
  [ "$status" -eq 1 ] && grep -q "$1: there is no memory" "$work/err" && [ ! -s "$work/out" ] && cmp "$reg" "$work/none" ||
    wrong 'no memory'
}

# ---- two clients at once, killed at random

# Each run raises a limit by three, line by line; what it shows, if anything, goes to shown.NAME. The time after which it is
# killed is at random up to a bound that rises with each kill and falls with each run that ended, so that both are frequent.
worker() { # NAME SEED
  local run status tenths bound=40 # in tenths of a millisecond
  RANDOM=$2
  for run in {1..150}; do
    tenths=$((RANDOM % bound + 1))
    timeout -s KILL "$(printf '%d.%04d' $((tenths / 10000)) $((tenths % 10000)))" \
      "$work/client" "$reg" 'amend 3 0 1' 'amend 3 0 1' 'amend 3 0 1' > "$work/run.$1" 2>&1
    status=$?
    cat "$work/run.$1" >> "$work/shown.$1"
    case $status in
      0) bound=$((bound > 1 ? bound - (bound + 15) / 16 : 1)) ;;
      137) bound=$((bound + bound / 16 + 1)); echo "$run" >> "$work/killed" ;;
      *) echo "worker $1, run $run: status $status" >> "$work/bad" ;;
    esac
  done
}

# at every moment the file is a register
watcher() {
  mkdir -p "$work/watched"
  while [ -d "$work/folder" ] && [ ! -e "$work/stop" ]; do
    cat "$reg" > "$work/watched/register" && "$work/client" "$work/watched/register" < /dev/null ||
      echo 'not a register' >> "$work/bad"
    echo seen >> "$work/copies"
  done
}

raised() { # the limit of the pass
  "$work/client" "$reg" 'amend 3 0 1' 'amend 3 0 -1' | sed -n '1s/^ok //p'
}

at_random() {
  start
  rm -f "$work"/shown.* "$work/killed" "$work/bad" "$work/stop" "$work/copies"
  "$work/client" --new "$reg" 'enrol 3 0' 'found 1 0 16777215 65535 65535' 'grant 1 0' 'appoint 3 1' \
    'create 3 role 1 9 0 0 0 100 0 1 2 16777215 65535 65535' > /dev/null || return 1
  local workers watching
  worker 1 11 2> /dev/null &
  workers=$!
  worker 2 12 2> /dev/null &
  workers+=" $!"
  watcher &
  watching=$!
  wait $workers
  : > "$work/stop"
  wait "$watching"
  judge
}

# What was shown is in the register once: the answers are 1, 2, 3 and so on, with gaps of three, no more than runs were killed.
judge() {
  local limit shown killed
  limit=$(($(raised) - 1))
  killed=$(wc -l < "$work/killed")
  sed -n 's/^ok //p' "$work"/shown.[12] | sort -n > "$work/values"
  shown=$(wc -l < "$work/values")
  echo "limit $limit, shown $shown, killed $killed, copies $(wc -l < "$work/copies")"
  [ ! -e "$work/bad" ] || { cat "$work/bad"; return 1; }
  ! grep -v '^ok ' "$work"/shown.[12] && [ -z "$(uniq -d "$work/values")" ] &&
    [ "$((limit % 3))" -eq 0 ] && [ "$((shown % 3))" -eq 0 ] &&
    [ "$(tail -n 1 "$work/values")" -le "$limit" ] && [ "$((limit - shown))" -le "$((3 * killed))" ] &&
    [ "$shown" -ge 30 ] && [ "$killed" -ge 30 ] &&
    awk 'NR % 3 == 1 && $1 % 3 != 1 || NR % 3 != 1 && $1 != last + 1 { exit 1 } { last = $1 }' "$work/values"
}

kill_checks() {
  check 'compiling the program that holds another' "$cc" -std=c11 "${flags[@]}" -o "$work/steps" tests/client/steps.c
  if "$work/steps" 1 go : /bin/true 2> /dev/null; then
    check 'kills: killed at each call' killed_each
    check 'kills: killed at each call while it makes a register' killed_making
    check 'kills: met at each call by a client on another path' met_each go
    check 'kills: met at each call after it has waited' met_waiting
    check 'kills: two that make one register' met_making
    check 'kills: met at each call, and killed' met_each kill
  else
    echo 'not run: kills at each call, as no program may hold another'
  fi
  check 'kills: two clients at once, killed at random' at_random
  check 'faults: more lines than memory' no_memory 'the lines' "$(printf '%0150d' 0)" 300000
  check 'faults: more answers than memory' no_memory 'the answers' '' 4000000
  if strace -o /dev/null -e inject=fsync:error=EIO true 2> /dev/null; then
    check 'faults: EIO at each call' failed_each EIO
    check 'faults: EINTR at each call' failed_each EINTR
    check 'faults: EIO at each call while it makes a register' failed_making EIO
    check 'faults: EINTR at each call while it makes a register' failed_making EINTR
    check 'order: saved before shown' order rename
    check 'order: made before shown' order link --new
  else
    echo 'not run: faults at each call, and their order, as there is no strace'
  fi
}
