#!/bin/sh
# Builds the library and times it against its peers; the table goes to docs/BENCHMARK.md.
#   run.sh [--rounds N] [--only TEXT] [--cases N]      with --only nothing is written
set -eu
root=$(cd "$(dirname "$0")/.." && pwd)
cd "$root"
export SURVEY_LIB_DIR="$root/target/library"
python3 tests/library.py "$SURVEY_LIB_DIR"
cargo build --release --offline --quiet --manifest-path bench/Cargo.toml
commit=$(git rev-parse --short HEAD)
[ -z "$(git status --porcelain crates)" ] || commit="$commit, with changes"
exec bench/target/release/bench --commit "$commit" --out docs/BENCHMARK.md "$@"
