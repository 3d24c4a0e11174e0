# Sourced by the scripts, which set ROOT, the folder of the repository: builds the engine's static
# library with its proofs, and the tool by cargo without a network.

ARCHIVE=$ROOT/target/staticlib/libengine.a
CARGO_TARGET_DIR=$ROOT/target/host
export CARGO_TARGET_DIR
TOOL=$CARGO_TARGET_DIR/release/jozkeral

fail() {
    echo "jozkeral: $*" >&2
    exit 2
}

# Whether a file is there and newer than every one of the others, and of what is in them. What checks keep in out/ does not count, nor
# a crate's own folder, which changes with it.
newer() {
    made=$1
    shift
    [ -f "$made" ] && [ -z "$(find "$@" -name out -prune -o ! -path '*/crates/*' -newer "$made" -print -o \
        \( -type f -o -path '*/crates/*/*' \) -newer "$made" -print | head -n 1)" ]
}

# Proves the engine and writes its library, unless that is newer than every source.
build_library() {
    if newer "$ARCHIVE" "$ROOT/crates" "$ROOT/crates.txt"; then
        return
    fi
    command -v rt >/dev/null || fail "the Rattle kit (rt) is needed to prove the engine and build its library"
    echo "jozkeral: proving the engine and building its library; from nothing this takes some ten minutes" >&2
    "$ROOT/host/staticlib.sh" engine >&2 || fail "the library could not be built"
    touch "$ARCHIVE"
}

# Runs a command of cargo on the host's package.
host_cargo() {
    command -v cargo >/dev/null || fail "cargo is needed (Rust 1.86 or later)"
    command=$1
    shift
    cargo "$command" --release --offline --quiet --manifest-path "$ROOT/host/Cargo.toml" "$@"
}

# Builds the tool, unless it is newer than every source and than the library: then neither rt nor cargo is needed.
build_tool() {
    set -- "$ROOT/host/src" "$ROOT/host/build.rs" "$ROOT/host/Cargo.toml" "$ROOT/crates" "$ROOT/crates.txt"
    [ ! -f "$ARCHIVE" ] || set -- "$@" "$ARCHIVE"
    if newer "$TOOL" "$@"; then
        return
    fi
    build_library
    host_cargo build || fail "the tool could not be built"
    touch "$TOOL"
}
