#!/bin/sh
# Proves a crate that crates.txt calls a static library, and writes its archive to target/staticlib.
#   host/staticlib.sh engine
set -eu
[ $# -eq 1 ] || { echo "usage: $0 engine (or another static library of crates.txt)" >&2; exit 2; }
cd "$(dirname "$0")/.."
(cd "crates/$1" && rt lib)
mkdir -p target/staticlib
cp "crates/$1/out/lib$1.a" target/staticlib/
