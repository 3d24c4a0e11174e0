#!/bin/sh
# Whether every file stands as its formatter writes it: Rattle, the host, bench and oracle, and tests/abi. Names those that do not.
#   tests/format.sh
set -eu
cd "$(dirname "$0")/.."
well=0
# `rt fmt` lays out in place: a copy is laid out and compared
copy=$(mktemp -d)
trap 'rm -rf "$copy"' EXIT
cp crates.txt "$copy"
find crates -name out -prune -o \( -name '*.rt' -o -name '*.antt' \) -print | tar -cf - -T - | tar -xf - -C "$copy"
for crate in crates/*/; do
    (cd "$copy/$crate" && rt fmt >/dev/null) || well=1
done
find crates -name out -prune -o \( -name '*.rt' -o -name '*.antt' \) -print | while read -r file; do
    cmp -s "$file" "$copy/$file" || { echo "not laid out: $file"; touch "$copy/differs"; }
done
[ ! -e "$copy/differs" ] || well=1
for package in host bench tests/oracle; do
    cargo fmt --all --check --manifest-path "$package/Cargo.toml" || well=1
done
rustfmt --check --edition 2021 --config-path tests/abi tests/abi/abi.rs || well=1
exit $well
