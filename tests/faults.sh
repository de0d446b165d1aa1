#!/usr/bin/env bash
# Faults of the journal program's input and output: each is told in one line on standard error that says which side and why, or the
# program goes on where it can. `make journal` or the gate puts the program there; JOURNAL names another one. A fault that this
# machine cannot make is named as not run. The last line is 'N passed, M failed'.
set -u
cd "$(dirname "$0")/.." || exit 1
journal=$(realpath "${JOURNAL:-target/bin/journal}")
lines=crates/journal/stdin
answers=crates/journal/stdout
work=$(mktemp -d)
trap 'rm -rf "$work"' EXIT
passed=0
failed=0

count() { # STATUS MESSAGE
  if [ "$1" -eq 0 ]; then
    passed=$((passed + 1))
  else
    echo "not so: $2"
    failed=$((failed + 1))
  fi
}

# after a run with its status in $status: what it told, and what it answered
told() { # FAULT TEXT
  printf '%s' "${2:+$2$'\n'}" | cmp -s - "$work/err" && [ "$status" -eq 0 ]
  count $? "$1: standard error has just '$2', and the status is 0 (it has '$(cat "$work/err")', status $status)"
}
answered() { # FAULT FILE
  cmp -s "$2" "$work/out"
  count $? "$1: the answers are those of $2"
}

# the most answers: an empty line has one byte and gets five
yes '' | head -n 32768 > "$work/longest"
yes 'no 1' | head -n 32768 > "$work/longest.answers"
yes '' | head -n 32769 > "$work/above"
echo 'no 1' > "$work/above.answers"

# ---- no fault

"$journal" < "$lines" > "$work/out" 2> "$work/err"; status=$?
told 'no fault' ''
answered 'no fault' "$answers"
"$journal" < /dev/null >&- 2> "$work/err"; status=$?
told 'no lines and a closed output' ''
"$journal" < "$work/above" > "$work/out" 2> "$work/err"; status=$?
told 'above the limit' ''
answered 'above the limit' "$work/above.answers"

# ---- the input: nothing is answered

"$journal" <&- > "$work/out" 2> "$work/err"; status=$?
told 'closed input' 'journal: input: Bad file descriptor'
answered 'closed input' /dev/null
"$journal" < "$work" > "$work/out" 2> "$work/err"; status=$?
told 'a directory as input' 'journal: input: Is a directory'
answered 'a directory as input' /dev/null

# ---- the output

"$journal" < "$lines" >&- 2> "$work/err"; status=$?
told 'closed output' 'journal: output: Bad file descriptor'
if [ -c /dev/full ]; then
  "$journal" < "$lines" > /dev/full 2> "$work/err"; status=$?
  told 'full disk' 'journal: output: No space left on device'
else
  echo 'not run: full disk, as there is no /dev/full'
fi
(trap '' XFSZ; ulimit -f 8; exec "$journal" < "$work/longest" > "$work/out" 2> "$work/err"); status=$?
told 'output cut short' 'journal: output: File too large'
head -c "$(wc -c < "$work/out")" "$work/longest.answers" | cmp -s - "$work/out" && [ -s "$work/out" ]
count $? 'output cut short: what was written is the start of the answers'

# ---- pipes: one that nobody reads; those that would block, where the program waits

piped() { # input|output|unread|ended LINES
  timeout 60 python3 - "$journal" "$1" "$2" "$work/out" "$work/err" << 'PYTHON'
import os, subprocess, sys, time

journal, side, lines, out, err = sys.argv[1:]
there, here = os.pipe() if side == "input" else reversed(os.pipe())
os.set_blocking(there, False)
with open(lines, "rb") as given, open(out, "wb") as got, open(err, "wb") as told:
    if side in ("unread", "ended"):
        os.close(here)
    ends = (there, got) if side == "input" else (given, there)
    # SIGPIPE is ignored here and stays so there, but for 'ended', where the program begins with it as a shell starts one
    program = subprocess.Popen([journal], stdin=ends[0], stdout=ends[1], stderr=told, restore_signals=side == "ended")
    os.close(there)
    if side == "input":
        text = given.read()
        for part in (text[:7], text[7:20], text[20:]):
            time.sleep(0.1)
            os.write(here, part)
        os.close(here)
    if side == "output":
        time.sleep(0.1)
        while part := os.read(here, 50000):
            got.write(part)
            time.sleep(0.05)
    sys.exit(program.wait())
PYTHON
}
if command -v python3 > /dev/null; then
  piped unread "$lines"; status=$?
  told 'a pipe that nobody reads' 'journal: output: Broken pipe'
  piped ended "$lines"; status=$?
  told 'a pipe that nobody reads, and SIGPIPE as a shell leaves it' 'journal: output: Broken pipe'
  piped input "$lines"; status=$?
  told 'input that would block' ''
  answered 'input that would block' "$answers"
  piped output "$work/longest"; status=$?
  told 'output that would block' ''
  answered 'output that would block' "$work/longest.answers"
else
  echo 'not run: pipes that nobody reads or that would block, as there is no python3'
fi

# ---- calls that fail or are interrupted on the way, where strace may put such answers in their place

injected() { # EXPRESSION
  strace -o /dev/null -e "inject=$1" "$journal" < "$lines" > "$work/out" 2> "$work/err"
}
# the first call on the descriptor, as the loader makes such calls too
nth() { # CALL DESCRIPTOR
  strace -o "$work/trace" -e "trace=$1" "$journal" < "$lines" > /dev/null 2>&1 && grep -n "^$1($2[,)]" "$work/trace" | head -n 1 | cut -d: -f1
}
if strace -o /dev/null true 2> /dev/null; then
  read=$(nth read 0)
  write=$(nth write 1)
  close=$(nth close 1)
  [ -n "$read" ] && [ -n "$write" ]
  count $? 'the program reads and writes by these calls, so that each can be made to fail'
  injected "read:error=EINTR:when=$read"; status=$?
  told 'interrupted read' ''
  answered 'interrupted read' "$answers"
  injected "read:error=EIO:when=$((read + 1))"; status=$?
  told 'input that fails after its lines' 'journal: input: Input/output error'
  answered 'input that fails after its lines' /dev/null
  injected "write:error=EINTR:when=$write"; status=$?
  told 'interrupted write' ''
  answered 'interrupted write' "$answers"
  injected "write:retval=0:when=$write"; status=$?
  told 'a write that takes no byte' 'journal: output: write zero'
  answered 'a write that takes no byte' /dev/null
  if [ -n "$close" ]; then
    injected "close:error=EDQUOT:when=$close"; status=$?
    told 'output that fails as it is closed' 'journal: output: Disk quota exceeded'
  else
    echo 'not run: output that fails as it is closed, since the program closes nothing itself'
  fi
else
  echo 'not run: calls that fail on the way, as strace is missing or may not trace'
fi

# ---- the stack that docs/MANUAL.md names is enough

(ulimit -s 384; exec "$journal" < crates/cases/stdin > "$work/out" 2> "$work/err"); status=$?
told 'a stack of 384 KB' ''
answered 'a stack of 384 KB' crates/cases/stdout

echo "$passed passed, $failed failed"
[ "$failed" -eq 0 ] && [ "$passed" -gt 0 ]
