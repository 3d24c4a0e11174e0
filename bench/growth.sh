#!/bin/sh
# How instructions and time grow with the number of qubits and of gates: prints the numbers with the fitted powers, draws docs/growth.svg.
#   bench/growth.sh ORIGINAL_DIR
set -eu
ROOT=$(cd "$(dirname "$0")/.." && pwd)
. "$ROOT/tests/oracle/env.sh"
original_at "${1-}"
build_bench
counted count growth
"$BENCH" growth "$COUNTED" "$ROOT/docs/growth.svg"
