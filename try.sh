#!/bin/sh
# Dumps a BUFR file with a trial build of the program. This takes one or two minutes, and does not prove or install anything.
# The dump must be smaller than 1 MiB, and the tables are always those for version 39.
#
#     ./try.sh FILE
set -eu
unset CDPATH  # with CDPATH, `cd` could enter another clone
[ $# -eq 1 ] || { echo "usage: $0 FILE" >&2; exit 2; }
command -v rt > /dev/null || { echo "$0: the toolchain (rt) is not on PATH; README.md says which toolchain you need" >&2; exit 1; }
file=$(realpath -e -- "$1")
cd "$(dirname "$0")/crates/bufr"
tables=../../tables/wmo-39
exec rt try --data "B.csv=$tables/B.csv" --data "D.csv=$tables/D.csv" --data "input.bufr=$file" -- \
    dump -B B.csv -D D.csv input.bufr
