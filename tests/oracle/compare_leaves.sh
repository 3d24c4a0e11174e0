#!/bin/sh
# Compares the port's leaf functions with the original's, bit for bit, at scale.
#   tests/oracle/compare_leaves.sh ORIGINAL_DIR
set -eu
ROOT=$(cd "$(dirname "$0")/../.." && pwd)
. "$ROOT/tests/oracle/env.sh"
original_at "${1-}"
build_bench
"$BENCH" compare 10000000 1000000
