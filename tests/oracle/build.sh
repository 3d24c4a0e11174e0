#!/bin/sh
# Builds the oracle from the original engine and prints the path of the program.
#   tests/oracle/build.sh ORIGINAL_DIR
set -eu
ROOT=$(cd "$(dirname "$0")/../.." && pwd)
. "$ROOT/tests/oracle/env.sh"
original_at "${1-}"
build tests/oracle
echo "$ORACLE"
