#!/usr/bin/env bash
# Runs each command with limited memory. The limit starts too low to load the program, and is raised in steps of 16 KiB until
# it is sufficient. Once the program can be loaded, it must either write its complete output, or write a prefix of it,
# report fault 73 and exit with status 2.
set -eu
. "$(dirname "$0")/lib.sh"

# grows WORD..: runs the program with more and more memory until its output is complete.
grows() {
    local limit=2048 loaded='' wanted=0
    "$bufr" "$@" > "$work/whole" 2> "$work/faults" || wanted=$?
    while true; do
        status=0
        (ulimit -v "$limit" && exec "$bufr" "$@") > "$work/output" 2> "$work/errors" || status=$?
        [ "$status" -eq "$wanted" ] && cmp -s "$work/whole" "$work/output" && cmp -s "$work/faults" "$work/errors" && break
        [ "$limit" -lt 65536 ] || fail "bufr $1: no whole answer in 64 MiB"
        if [ "$status" -eq 2 ] && [ "$(tail -n 1 "$work/errors")" = 'bufr: 73 out of memory' ]; then
            loaded=1
            head -n -1 "$work/errors" > "$work/before"
            is_prefix "$work/output" "$work/whole" && is_prefix "$work/before" "$work/faults" ||
                fail "bufr $1 in $limit KiB: no prefix of its answer"
        else
            [ -z "$loaded" ] || fail "bufr $1 in $limit KiB: status $status, $(< "$work/errors")"
        fi
        limit=$((limit + 16))
    done
    [ -n "$loaded" ] || fail "bufr $1: never tells want of memory"
    echo "low_memory: bufr $1 has its whole answer in $limit KiB"
}

grows ls examples/bulletins.bufr
grows dump "${tables[@]}" examples/synop.bufr
grows encode "${tables[@]}" examples/synop.txt
