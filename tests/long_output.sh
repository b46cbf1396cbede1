#!/usr/bin/env bash
# Tests outputs that fit neither in a pipe nor in the program's buffers. In these tests, the reader of the output exits early,
# both outputs go to the same file, or a signal arrives.
# rule: output-held-back, signals, reader-gone
set -eu
. "$(dirname "$0")/lib.sh"

# The stream omits the stray that declares a length of 7 MB, because the program would buffer everything after it.
stream=$work/long.bufr text=$work/long.txt
tail -c +140 examples/bulletins.bufr > "$stream"
for _ in {1..11}; do
    cat "$stream" "$stream" > "$work/twice" && mv "$work/twice" "$stream"
done
"$bufr" dump "${tables[@]}" "$stream" 2> "$work/faults" > "$text" || true

# leaves WORD..: the reader of the output exits after one byte. The program must then report fault 71 and exit with status 2.
leaves() {
    set +e
    "$bufr" "$@" 2> "$work/errors" | head -c 1 > "$work/output"
    status=${PIPESTATUS[0]}
    set -e
    [ "$status" -eq 2 ] && [ "$(tail -n 1 "$work/errors")" = 'bufr: 71 write failed' ] ||
        fail "bufr $1, its reader gone: status $status"
}

leaves ls "$stream"
leaves dump "${tables[@]}" "$stream"
leaves encode "${tables[@]}" "$text"

# Both outputs go to the same file: fault lines must appear between the lines of the dump, and must not split any of them.
"$bufr" dump "${tables[@]}" "$stream" > "$work/both" 2>&1 || true
grep -v '^offset ' "$work/both" | cmp - "$text" && grep '^offset ' "$work/both" | cmp - "$work/faults" &&
    grep -A 1 '^offset ' "$work/both" | grep -v '^offset ' > /dev/null || fail 'bufr dump: lines of the two outputs tear one another'

# A signal kills the program. Buffered output is lost, but what was written must be a prefix of the complete output.
mkfifo "$work/pipe"
"$bufr" dump "${tables[@]}" < "$work/pipe" > "$work/output" 2> "$work/errors" &
exec 3> "$work/pipe"
cat "$stream" >&3
status=0
kill -TERM $!
exec 3>&- # a program that lives on has read all of its input
wait $! || status=$?
[ "$status" -eq 143 ] && [ -s "$work/output" ] && is_prefix "$work/output" "$text" &&
    is_prefix "$work/errors" "$work/faults" || fail "bufr dump, ended by a signal: status $status, or no prefix"
