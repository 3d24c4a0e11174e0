#!/bin/sh
# Counts the instructions of every piece, prints the table, and fails if one of the port's is more than 5 % above the recorded one.
#   bench/count.sh ORIGINAL_DIR            compares with bench/counts.txt
#   bench/count.sh ORIGINAL_DIR --record   writes bench/counts.txt anew
set -eu
ROOT=$(cd "$(dirname "$0")/.." && pwd)
. "$ROOT/tests/oracle/env.sh"
original_at "${1-}"
build_bench
counted count
RECORD=$ROOT/bench/counts.txt
if [ "${2-}" != --record ]; then
    exec "$BENCH" counted "$COUNTED" "$RECORD"
fi
{
    echo "# Instructions a call: original, port. Written by bench/count.sh ORIGINAL_DIR --record."
    echo "# $(rustc --version); $(rt version); $(valgrind --version)"
    "$BENCH" record "$COUNTED"
} >"$RECORD"
