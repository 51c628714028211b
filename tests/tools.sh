#!/bin/sh
# Quick tests of the tools and the C header. Prints what fails; ends with 1 if anything did.
# Needs python3; the header is compiled where cc and c++ are there.
root=$(cd "$(dirname "$0")/.." && pwd) || exit 1
status=0

# compiles COMPILER LANGUAGE STANDARD FILE
compiles() {
    command -v "$1" >/dev/null || { echo "tools: no $1 here, $4 in $2 not tried"; return; }
    "$1" -x "$2" "-std=$3" -Wall -Wextra -Werror -I "$root/include" -fsyntax-only "$root/$4" ||
        { echo "FAILED: $4 in $2"; status=1; }
}

# The bound on the time is far above the need.
timeout 120 python3 "$root/tests/tools_test.py" || status=1
compiles cc c c11 include/ring.h
compiles c++ c++ c++11 include/ring.h
compiles cc c c11 examples/console.c
compiles cc c c11 tests/header.c
compiles cc c c11 tests/metres.c
compiles cc c c11 tests/map.c
exit $status
