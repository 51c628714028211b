#!/bin/sh
# The outside check under valgrind: every buffer lies on the heap in exactly
# its lent length, so a read or write beyond one shows.
#
#   SURVEY_LIB_DIR=... tests/memory.sh [cases] [seed]
#
# Ends with 0 when all is well, 99 on a memory error, 1 on a difference.
set -eu
: "${SURVEY_LIB_DIR:?names the directory of libsurvey.a}"
SURVEY_LIB_DIR=$(cd "$SURVEY_LIB_DIR" && pwd)
export SURVEY_LIB_DIR
cd "$(dirname "$0")/outside"
cargo build --release --offline --quiet --package differential
exec valgrind --quiet --error-exitcode=99 \
    --leak-check=full --errors-for-leak-kinds=definite \
    "${CARGO_TARGET_DIR:-target}/release/differential" \
    --small --cases "${1:-400}" --seed "${2:-7}"
