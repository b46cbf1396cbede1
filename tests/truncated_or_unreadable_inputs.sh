#!/usr/bin/env bash
# Tests inputs that end in the middle of a message or document, and inputs and tables that cannot be read.
# rule: input-ends-early, input-not-read
set -eu
. "$(dirname "$0")/lib.sh"
stream=examples/bulletins.bufr
"$bufr" ls "$stream" > "$work/lines" 2> /dev/null || true
ends 1 'offset 77: 1 cut' "$work/lines" ls < <(head -c 100 "$stream")
ends 1 'line 101: 50 line' examples/synop.bufr encode "${tables[@]}" < <(head -n 100 examples/synop.txt)
ends 2 'bufr: 70 read failed' /dev/null ls examples
ends 2 'bufr: 70 read failed' /dev/null dump -B tables -D tables "$stream"
ends 2 'bufr: 70 read failed' /dev/null ls <&-
