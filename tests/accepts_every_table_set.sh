#!/usr/bin/env bash
# Checks that `bufr` accepts the tables in every table set.
set -eu
. "$(dirname "$0")/lib.sh"
for set in tables/wmo-*; do
    gives 0 '' '' dump -B "$set/B.csv" -D "$set/D.csv"
done
