#!/bin/sh
# Tests of the C interface: calls the engine's library from C and from Rust; it is built first if a source is newer.
#   tests/abi/run.sh [c|rust|all] [TAPES [SEED]]
# ENGINE_ARCHIVE names another libengine.a. Needs cc for c, rustc for rust.
set -eu
ROOT=$(cd "$(dirname "$0")/../.." && pwd)
HERE=$ROOT/tests/abi
OUT=$ROOT/target/abi
WHAT=${1-all}
[ $# -eq 0 ] || shift

if [ -z "${ENGINE_ARCHIVE:-}" ]; then
    . "$ROOT/host/env.sh"
    build_library
    ENGINE_ARCHIVE=$ARCHIVE
fi
mkdir -p "$OUT"

# The program of the tests, then the example in the header: taken from there, compiled and run. C++ must be able to read the header.
from_c() {
    cc -std=c11 -Wall -Wextra -Wpedantic -Werror -O2 -I "$ROOT/include" "$HERE/abi.c" "$ENGINE_ARCHIVE" -o "$OUT/abi_c"
    "$OUT/abi_c"
    {
        printf '#include "jozkeral.h"\n#include <stdio.h>\nint main(void) {\n'
        sed -n '/^\/\* ---- an example/,/^\*\//p' "$ROOT/include/jozkeral.h" | sed '1d;$d'
        printf '    return 0;\n}\n'
    } >"$OUT/example.c"
    cc -std=c11 -Wall -Wextra -Werror -O2 -I "$ROOT/include" "$OUT/example.c" "$ENGINE_ARCHIVE" -o "$OUT/example"
    [ "$("$OUT/example")" = "Z: 1 -1" ] || { echo "the header's example printed something else"; exit 1; }
    printf '#include "jozkeral.h"\n' | cc -x c++ -Wall -Werror -fsyntax-only -I "$ROOT/include" -
    echo "the header's example: as it says"
}

from_rust() {
    rustc -O --edition 2021 -D warnings "$HERE/abi.rs" -C link-arg="$ENGINE_ARCHIVE" -o "$OUT/abi_rust"
    "$OUT/abi_rust" "$@"
}

case $WHAT in
c) from_c ;;
rust) from_rust "$@" ;;
all) from_c && from_rust "$@" ;;
*) echo "usage: $0 [c|rust|all] [TAPES [SEED]]" >&2; exit 2 ;;
esac
