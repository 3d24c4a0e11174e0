#!/bin/sh
# Tests the host: its modules, its command line, the wrapper of the library, the examples against their outputs; then the
# script that starts the tool, and the example in C.
set -eu
ROOT=$(cd "$(dirname "$0")/.." && pwd)
. "$ROOT/host/env.sh"
build_library
host_cargo test
build_tool

# A built tool runs through a link from another folder, where neither cargo nor rt can be called.
folder=$(mktemp -d)
trap 'rm -rf "$folder"' EXIT
ln -s "$ROOT/jozkeral" "$folder/linked"
ln -s linked "$folder/twice"
for name in cargo rt; do
    printf '#!/bin/sh\necho "%s was called" >&2\nexit 9\n' $name >"$folder/$name"
    chmod +x "$folder/$name"
done
version=$(sed -n 's/^version = "\(.*\)"$/\1/p' "$ROOT/host/Cargo.toml")
said=$(cd / && PATH="$folder:$PATH" "$folder/twice" --version) || fail "the tool does not run through a link"
[ "$said" = "jozkeral $version" ] || fail "--version prints $said"

# A tool that is older than a source is built again.
touch "$ROOT/host/build.rs"
said=$(PATH="$folder:$PATH" "$ROOT/jozkeral" --version 2>&1) && fail "an old tool was run"
case $said in
"cargo was called"*) ;;
*) fail "an old tool: $said" ;;
esac
build_tool

cc -Wall -Wextra -Werror -I"$ROOT/include" "$ROOT/examples/parity.c" "$ARCHIVE" -o "$ROOT/target/parity"
[ "$("$ROOT/target/parity")" = "q0 1
q1 -1" ] || fail "examples/parity.c prints something else"
echo "the host is well"
