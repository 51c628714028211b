#!/usr/bin/env bash
# The tests that need no proved library: the tools, the stored cases on the model, and that the comparison from outside can fail, against the model with one fault at a
# time, against a library of wrong answers and against programs that lay spans wrongly.
set -euo pipefail
cd "$(dirname "${BASH_SOURCE[0]}")/.."

tests/tools.sh
for text in samples/stations/*.txt; do
    python3 tools/scene.py build "$text" - | cmp - "crates/stations/data/$(basename "$text" .txt)"
done
tests/outside/stub/check.sh
tests/outside/target/release/selftest | grep -v '^holds \|^found '
