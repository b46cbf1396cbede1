#!/usr/bin/env bash
# Tests outputs that are full or closed. If the program cannot write to standard output, it must report fault 71 and exit with
# status 2. If it cannot write a fault line, it must exit with status 2 after writing its complete standard output.
# rule: fault-line-not-written
set -eu
. "$(dirname "$0")/lib.sh"
stream=examples/bulletins.bufr

# fills WORD..: runs the program with standard output on a full device. The last line on standard error must report fault 71.
# Any lines before it must be a prefix of the fault lines of a normal run.
fills() {
    "$bufr" "$@" > "$work/whole" 2> "$work/faults" || true
    status=0
    "$bufr" "$@" > /dev/full 2> "$work/errors" || status=$?
    head -n -1 "$work/errors" > "$work/before"
    [ "$status" -eq 2 ] && [ "$(tail -n 1 "$work/errors")" = 'bufr: 71 write failed' ] &&
        head -c "$(stat -c %s "$work/before")" "$work/faults" | cmp - "$work/before" ||
        fail "bufr $*: status $status of a full device"
}

fills ls "$stream"
fills dump "${tables[@]}" examples/synop.bufr
fills encode "${tables[@]}" examples/synop.txt

status=0
"$bufr" ls "$stream" >&- 2> "$work/errors" || status=$?
[ "$status" -eq 2 ] && [ "$(tail -n 1 "$work/errors")" = 'bufr: 71 write failed' ] ||
    fail "bufr ls, its output closed: status $status"

# If standard error is closed or full, a fault line cannot be written, and only the exit status can show this. If there is no
# fault line, the program writes nothing to standard error, so it must succeed.
"$bufr" ls "$stream" > "$work/lines" 2> /dev/null || true
for errors in '2>&-' '2> /dev/full'; do
    status=0
    eval '"$bufr" ls "$stream" > "$work/output" '"$errors" || status=$?
    [ "$status" -eq 2 ] && cmp "$work/lines" "$work/output" || fail "bufr ls $errors: status $status"
    eval '"$bufr" dump "${tables[@]}" examples/synop.bufr '"$errors" | cmp - examples/synop.txt ||
        fail "bufr dump $errors: another text"
done
