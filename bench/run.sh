#!/bin/sh
# Compares port and original bit for bit, then prints the tables of times, memory and instructions; fails if the port takes more
# instructions than recorded.
#   bench/run.sh ORIGINAL_DIR [PART ..]
# The parts are compare (leaves, and calls on states), compile, runs, plain (the engine beside the plain one), strings (runs beside Pauli
# strings), angles (runs beside a state vector), time, memory and count; all of them if none is named.
set -eu
ROOT=$(cd "$(dirname "$0")/.." && pwd)
. "$ROOT/tests/oracle/env.sh"
original_at "${1-}"
shift
PARTS="compare compile runs plain strings angles time memory count"
for part; do
    case " $PARTS " in
    *" $part "*) ;;
    *) fail "$part is no part of the bench: $PARTS" ;;
    esac
done
[ $# -gt 0 ] || set -- $PARTS
build_bench
for part; do
    case $part in
    compare) "$BENCH" compare 100000 100000 ;;
    compile | runs | plain) "$BENCH" "$part" 20000 ;;
    strings | angles) "$BENCH" "$part" 10000 ;;
    time) "$BENCH" time ;;
    memory) "$MEMORY" ;;
    count) "$ROOT/bench/count.sh" "$QSIM_SRC" ;;
    esac
done
