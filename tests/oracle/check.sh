#!/bin/sh
# Builds the oracle and checks it: the two module trees agree, the plain engine
# agrees with the original, Pauli strings with matrices and a state vector, the
# engine's formula with quantum mechanics in exact numbers, the original with a
# state vector on the edge cases and on COUNT random lists of each family (4000 if
# it is not given), and the stored lists are what it gives.
#   tests/oracle/check.sh ORIGINAL_DIR [COUNT]
set -eu
ROOT=$(cd "$(dirname "$0")/../.." && pwd)
. "$ROOT/tests/oracle/env.sh"
original_at "${1-}"
build tests/oracle
"$ORACLE" selftest 1 1000
"$ORACLE" exact 1 2000
echo edges
"$ORACLE" vector "$ROOT/tests/oracle/lists/edges.txt"
"$ORACLE" reader "$ROOT"/crates/replay_tape/data/*.bin
for family in $("$ORACLE" families); do
    echo "$family"
    "$ORACLE" random 1 "${2:-4000}" "$family" | "$ORACLE" vector -
done
"$ORACLE" leaves | cmp - "$ROOT/crates/replay_leaves/data/leaves.bin"
"$ORACLE" leaves products | cmp - "$ROOT/crates/replay_leaves/data/products.bin"
for list in cuts mixed angled ties; do
    "$ORACLE" fuse "$list" | cmp - "$ROOT/crates/replay_fuse/data/$list.bin"
done
for list in edges graphs exact angled; do
    "$ORACLE" compile "$list" | cmp - "$ROOT/crates/replay_compile/data/$list.bin"
done
for list in gates given phases; do
    "$ORACLE" classify "$list" | cmp - "$ROOT/crates/replay_classify/data/$list.bin"
done
for list in signs applies queries edges samples stops plain; do
    "$ORACLE" state "$list" | cmp - "$ROOT/crates/replay_state/data/$list.bin"
done
for list in edges register signs mixed; do
    "$ORACLE" runs "$list" | cmp - "$ROOT/crates/replay_run/data/$list.bin"
done
for tape in cut long most over; do
    "$ORACLE" print "$tape" | cmp - "$ROOT/crates/replay_print/data/$tape.bin"
done
{
    "$ORACLE" printed
    python3 "$ROOT/tests/tape/halves.py" printed
} | cmp - "$ROOT/crates/replay_print/stdout"
echo "the stored lists are what the oracle gives"
