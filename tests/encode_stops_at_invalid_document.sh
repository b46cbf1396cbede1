#!/usr/bin/env bash
# Tests `bufr encode` on three documents, the second of which has an invalid first value: only the first one is encoded.
set -eu
. "$(dirname "$0")/lib.sh"
text=examples/synop.txt
lines=$(wc -l < "$text")
value=$(grep -n -m 1 -A 1 '^subset 1$' "$text" | tail -n 1 | cut -d - -f 1)
{ cat "$text" && sed "${value}s/ .*/ 200/" "$text" && cat "$text"; } > "$work/text"
run encode "${tables[@]}" "$work/text"
[ "$status" -eq 1 ] || fail "status $status, not 1"
cmp "${text%.txt}.bufr" "$work/output" || fail "the first document has other octets, or more than it is built"
echo "line $((lines + value)): 53 out of range" | diff - "$work/errors" || fail "another fault"
