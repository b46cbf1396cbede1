#!/usr/bin/env bash
# Runs all tests in this directory.
#
#     tests/run.sh [PROGRAM]        PROGRAM: the program to test (default: crates/bufr/out/bufr)
#
# Each .py or .sh file in this directory, except lib.py, lib.sh and this script, is a test. Its argument is the program to
# test. A test that passes exits with status 0; a test that fails prints what is wrong. A test that cannot run on this
# machine, or only in part, prints what it skips. A test that takes longer than an hour is stopped, and counts as failed.
#
# The last two tests run the cases in vectors/ and count the instructions of each command. Run the longer trials in hostile/
# and eccodes/ by hand.
set -eu
program=$(realpath -m "${1:-"$(dirname "$0")/../crates/bufr/out/bufr"}")
cd "$(dirname "$0")/.."
[ -x "$program" ] || { echo "$0: there is no program $program; build it first (see README.md)" >&2 && exit 2; }
count=0 failed=()
# Building the C library takes minutes, so the tests share one copy.
if [ -z "${BUFR_LIBRARY-}" ] && command -v rt > /dev/null && command -v "${CC:-cc}" > /dev/null; then
    library=$(mktemp -d)
    trap 'rm -r "$library"' EXIT
    library/build.sh "$library" > "$library/log" 2>&1 || { cat "$library/log" >&2 && failed+=(library/build.sh); }
    export BUFR_LIBRARY=$library/libbufr.so.0
fi
for test in tests/*.py tests/*.sh tests/vectors/run.py bench/count_instructions.py; do
    case $test in tests/lib.* | tests/run.sh) continue ;; esac
    count=$((count + 1))
    # Some tests send signals to themselves, which they would ignore if this script runs in the background.
    status=0
    env --default-signal=INT,HUP,QUIT timeout --foreground -k 10 1h "$test" "$program" || status=$?
    case $status in
        0) ;;
        124 | 137) failed+=("$test (stopped after an hour)") ;;
        *) failed+=("$test (status $status)") ;;
    esac
done
[ ${#failed[@]} -eq 0 ] || echo "failed: ${failed[*]}" >&2
echo "tests/run.sh: $((count - ${#failed[@]})) of $count tests passed, in $SECONDS s"
[ ${#failed[@]} -eq 0 ]
