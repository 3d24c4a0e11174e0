#!/bin/sh
# Compares the tool `jozkeral` with the original on the edge cases and on COUNT random lists of each family (100 if it is
# not given): tapes, reports, verdicts, answers.
#   tests/oracle/compare_host.sh ORIGINAL_DIR [COUNT]
set -eu
ROOT=$(cd "$(dirname "$0")/../.." && pwd)
. "$ROOT/tests/oracle/env.sh"
original_at "${1-}"
build tests/oracle
"$ROOT/jozkeral" --help >/dev/null
TOOL=$ROOT/target/host/release/jozkeral
echo edges
python3 "$ROOT/tests/oracle/host.py" "$ORACLE" "$TOOL" "$ROOT/tests/oracle/lists/edges.txt"
lists=$(mktemp)
trap 'rm -f "$lists"' EXIT
for family in $("$ORACLE" families); do
    echo "$family"
    "$ORACLE" random 1 "${2:-100}" "$family" >"$lists"
    python3 "$ROOT/tests/oracle/host.py" "$ORACLE" "$TOOL" "$lists"
done
