# shellcheck shell=bash
# Code shared by the shell tests. When a test sources this file, the test's first argument becomes the program to test ($bufr),
# the top of the repository becomes the current directory, and a directory $work is created, which is removed at the end.
set -eu -o pipefail
bufr=$(realpath "${1:-"$(dirname "${BASH_SOURCE[0]}")/../crates/bufr/out/bufr"}")
cd "$(dirname "${BASH_SOURCE[0]}")/.."
tables=(-B tables/wmo-39/B.csv -D tables/wmo-39/D.csv)
work=$(mktemp -d)
trap 'rm -r "$work"' EXIT

# fail TEXT: prints TEXT and ends the test with status 1.
fail() {
    echo "$0: $1" >&2
    exit 1
}

# sources_of FOLDER: prints the checksum of the sources in this directory, in the form that BUILD records.
sources_of() {
    (cd "$1" && find HANDLES crates.txt crates -name out -prune -o -type f -print0 | LC_ALL=C sort -z | xargs -0 sha256sum) | sha256sum |
        cut -c 1-64
}

# run WORD..: runs the program with these arguments, writes its output to $work/output and its errors to $work/errors, and sets
# $status to its exit status.
run() {
    status=0
    "$bufr" "$@" > "$work/output" 2> "$work/errors" || status=$?
}

# gives STATUS OUTPUT ERRORS WORD..: with these arguments and no input, the program must exit with STATUS and print exactly
# OUTPUT and ERRORS.
gives() {
    local wanted=$1 output=$2 errors=$3
    shift 3
    run "$@" < /dev/null
    [ "$status" -eq "$wanted" ] || fail "bufr $*: status $status, not $wanted"
    printf %s "$output" | diff - "$work/output" || fail "bufr $*: another output"
    printf %s "$errors" | diff - "$work/errors" || fail "bufr $*: other errors"
}

# is_prefix FILE WHOLE: tests whether WHOLE begins with the contents of FILE.
is_prefix() {
    cmp -n "$(stat -c %s "$1")" "$1" "$2"
}

# ends STATUS LINE WHOLE WORD..: with these arguments, the program must exit with STATUS, print LINE as the last line on
# standard error, and write a prefix of the file WHOLE.
ends() {
    local wanted=$1 line=$2 whole=$3
    shift 3
    run "$@"
    [ "$status" -eq "$wanted" ] && [ "$(tail -n 1 "$work/errors")" = "$line" ] && is_prefix "$work/output" "$whole" ||
        fail "bufr $*: status $status, $(tail -n 1 "$work/errors")"
}

# copy_tree FOLDER: copies the repository to this directory, without Git's files and without build output.
copy_tree() {
    mkdir -p "$1"
    tar -c --exclude-vcs --exclude=out --exclude=dist --exclude=__pycache__ . | tar -x -C "$1"
}
