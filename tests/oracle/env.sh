# Sourced by the scripts, which set ROOT, the folder of the repository: what must
# be there, and cargo without a network. The only crate that is not in the
# repository is num-complex, from the Debian package librust-num-complex-dev.

REGISTRY=${ORACLE_REGISTRY:-/usr/share/cargo/registry}
CARGO_TARGET_DIR=$ROOT/target/oracle
ORACLE=$CARGO_TARGET_DIR/release/oracle
BENCH=$CARGO_TARGET_DIR/release/bench
MEMORY=$CARGO_TARGET_DIR/release/memory
export CARGO_TARGET_DIR

fail() {
    echo "$*" >&2
    exit 2
}

# Takes the folder of the original engine, the one that holds src/gate.rs.
original_at() {
    [ -n "$1" ] || fail "usage: $0 ORIGINAL_DIR (the folder that holds src/gate.rs)"
    [ -f "$1/src/gate.rs" ] || fail "$1/src/gate.rs is missing: name the folder of the original engine"
    QSIM_SRC=$(cd "$1" && pwd)
    export QSIM_SRC
}

# Builds the package in a folder of the repository.
build() {
    command -v cargo >/dev/null || fail "cargo is needed (Rust 1.86 or later)"
    ls -d "$REGISTRY"/num-complex-0.4* >/dev/null 2>&1 ||
        fail "num-complex is not in $REGISTRY: apt-get update, then apt-get install librust-num-complex-dev"
    cargo build --release --offline --manifest-path "$ROOT/$1/Cargo.toml" \
        --config 'source.crates-io.replace-with="system"' \
        --config "source.system.directory=\"$REGISTRY\""
}

# Builds the bench, and before it the port's archives, unless others are named. The engine's is left as it is if it is newer than every
# source, so one of the leaves that is newer still needs no other test.
build_bench() {
    engine=$ROOT/target/staticlib/libengine.a
    leaves=$ROOT/target/staticlib/libleaves.a
    if [ -z "${ENGINE_ARCHIVE:-}" ] || [ -z "${LEAVES_ARCHIVE:-}" ]; then
        (. "$ROOT/host/env.sh" && build_library)
    fi
    if [ -z "${LEAVES_ARCHIVE:-}" ] && ! [ "$leaves" -nt "$engine" ]; then
        "$ROOT/host/staticlib.sh" leaves
        touch "$leaves"
    fi
    LEAVES_ARCHIVE=${LEAVES_ARCHIVE:-$leaves}
    ENGINE_ARCHIVE=${ENGINE_ARCHIVE:-$engine}
    export LEAVES_ARCHIVE ENGINE_ARCHIVE
    build bench
}

# Lets callgrind count the bench with these words; the counts go to the file COUNTED. The environment is empty, so that addresses are the
# same every time; and memset and memcpy are those without `rep stosb` and `rep movsb`, of which callgrind counts every byte.
counted() {
    command -v valgrind >/dev/null || fail "valgrind is needed (apt-get update, then apt-get install valgrind)"
    COUNTED=$CARGO_TARGET_DIR/callgrind.$(echo "$*" | tr ' ' .)
    rm -f "$COUNTED"
    env -i GLIBC_TUNABLES=glibc.cpu.hwcaps=-ERMS "$(command -v valgrind)" -q --tool=callgrind \
        --instr-atstart=no --combine-dumps=yes --callgrind-out-file="$COUNTED" "$BENCH" "$@"
}
