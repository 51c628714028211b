#!/usr/bin/env bash
# The tests from outside, over the library and the programs as they are proved: the archive's read-only memory, the C header, stations in metres and the lit map from C, the console example, the benchmark's peers, the stored bills, the inputs and outputs that fail, spans laid on rows by the programs for that, and
# through the C interface the stored cases and the ray-by-ray program in Rust.
#   outside.sh [--gate] [CASES [SEED]]      more cases, or others; for each case there are two pairs of cuttings besides, and for five of them a sequence of spans
# The library and the programs are built where that is to do; with --gate they are taken as `rt ci` has just left them in this checkout.
set -euo pipefail
cd "$(dirname "${BASH_SOURCE[0]}")/.."
of_gate=
[ "${1:-}" != --gate ] || { of_gate=yes && shift; }
cases=${1:-3000}
seed=${2:-1}

log=$(mktemp)
trap 'rm -f "$log"; kill $(jobs -p) 2>/dev/null || true' EXIT

programs=$PWD/target/programs
export SURVEY_LIB_DIR=$PWD/target/library
rm -rf "$programs" "$SURVEY_LIB_DIR"
mkdir -p "$programs"
python3 tests/library.py ${of_gate:+--gate} "$SURVEY_LIB_DIR"
for program in ringbill rows_laid rows_worst; do
    [ "$of_gate" ] || (cd "crates/$program" && rt run </dev/null >"$log" 2>&1) || { cat "$log" && exit 1; }
    cp "crates/$program/out/$program" "$programs/"
done
ringbill=$programs/ringbill

# What runs in the background is beside the next, as each keeps one core busy.
from_c() {
    python3 tests/readonly.py "$SURVEY_LIB_DIR"
    python3 tests/header.py "$SURVEY_LIB_DIR"
    python3 tests/metres.py "$SURVEY_LIB_DIR"
    python3 tests/map.py "$SURVEY_LIB_DIR"
    tests/console.sh "$SURVEY_LIB_DIR"
}
from_c >"$log" 2>&1 &
(cd tests/outside && cargo build --quiet --release --offline --workspace)
# The benchmark takes its scenes and calls from the program just built: its peers are tried, nothing is timed, so that it need not be optimised as a whole.
(cd bench && cargo run --quiet --release --offline --config 'profile.release.lto="off"' --config profile.release.codegen-units=16 -- --only none >/dev/null)
wait $! && status=0 || status=$?
cat "$log"
[ "$status" -eq 0 ]

tests/bills.sh "$ringbill"
tests/failures.sh "$programs"
(cd tests/outside && cargo run --quiet --release --offline --bin laying -- --sequences $((cases / 5)) --seed "$seed" --rows-laid "$programs/rows_laid" --rows-worst "$programs/rows_worst")
tests/memory.sh 100 "$seed" >"$log" 2>&1 &
(cd tests/outside && cargo run --quiet --release --offline --package differential -- --cases "$cases" --seed "$seed" --ringbill "$ringbill")
wait $! && status=0 || status=$?
cat "$log"
[ "$status" -eq 0 ]
