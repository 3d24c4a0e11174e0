#!/bin/sh
# Runs every test beside the proofs, one after the other: tests/all.sh --help. The proofs are those of .ci/run.
set -eu

usage() {
    cat <<'END'
tests/all.sh [ORIGINAL_DIR]

Runs the tests beside the proofs (.ci/run has those), one after the other, and goes on where one fails:
  format         whether every file stands as its formatter writes it: tests/format.sh
  specs          what a reader must believe: tests/specs.py
  quotes         every sentence quoted in specs/ stands in docs/FORMAT.md: tests/quotes.py
  host           the tool and the wrapper of the library: tests/host.sh
  abi            the library from C and from Rust: tests/abi/run.sh
and beside the original, if ORIGINAL_DIR names the folder that holds its src/gate.rs:
  oracle         the oracle, and the stored lists: tests/oracle/check.sh
  compare_host   the tool beside the original: tests/oracle/compare_host.sh
  bench_compare  port and original in one process, bit for bit: bench/run.sh ORIGINAL_DIR compare
  bench_compile  the same of compile
  bench_runs     the same of whole runs
  bench_plain    the engine beside the plain one
  bench_strings  runs beside signed Pauli strings
  bench_angles   runs at any angle beside a state vector
  bench_count    the port's instructions beside the recorded ones: bench/count.sh
Each part prints its verdict and its time; what it said is in target/all/PART.log. The last lines are a table of them all.
The library is built first if it is older than a source, which proves the engine. The status is 1 if a part failed, 2 if
ORIGINAL_DIR is not there; without ORIGINAL_DIR the parts that need it are left out, and the last line says so.
END
}

ROOT=$(cd "$(dirname "$0")/.." && pwd)
LOGS=$ROOT/target/all
ORIGINAL=
LEFT=
[ $# -le 1 ] || { usage >&2; exit 2; }
case ${1-} in
-h | --help)
    usage
    exit
    ;;
?*)
    (. "$ROOT/tests/oracle/env.sh" && original_at "$1")
    ORIGINAL=$(cd "$1" && pwd)
    ;;
esac
cd "$ROOT"
rm -rf "$LOGS"
mkdir -p "$LOGS"

row() {
    printf '%-14s %-9s %7s\n' "$@" >>"$LOGS/table"
}

# Runs a part: its name, and the command with its words.
part() {
    name=$1
    shift
    start=$(date +%s)
    if "$@" >"$LOGS/$name.log" 2>&1 </dev/null; then verdict=passed; else verdict=failed; fi
    seconds=$(($(date +%s) - start))
    row "$name" $verdict $seconds
    echo "$name: $verdict, $seconds s"
    [ $verdict = passed ] || tail -n 5 "$LOGS/$name.log" | sed 's/^/    /'
}

# The same of a part that needs the original, whose folder follows its command.
beside() {
    name=$1 command=$2
    shift 2
    if [ -z "$ORIGINAL" ]; then
        row "$name" "left out" -
        LEFT="$LEFT $name"
    else
        part "$name" "$command" "$ORIGINAL" "$@"
    fi
}

row part verdict seconds
part format tests/format.sh
part specs tests/specs.py
part quotes tests/quotes.py
part host tests/host.sh
part abi tests/abi/run.sh
beside oracle tests/oracle/check.sh
beside compare_host tests/oracle/compare_host.sh
for piece in compare compile runs plain strings angles count; do
    beside bench_$piece bench/run.sh $piece
done

echo
cat "$LOGS/table"
FAILED=$(awk '$2 == "failed" { printf " %s", $1 }' "$LOGS/table")
VERDICT="every part that was run passed"
[ -z "$FAILED" ] || VERDICT="failed:$FAILED (target/all has what they said)"
echo "$VERDICT${LEFT:+; left out for want of ORIGINAL_DIR:$LEFT}"
[ -z "$FAILED" ]
