#!/bin/sh
# The stored bills: samples/bills/*.view, each built from the text beside it, and the bill that `ringbill` must print for it. Then the longest input, and one byte more, windows wider and higher than a tile, and a ring in three cuttings.
#   SURVEY_LIB_DIR=... tests/bills.sh RINGBILL
# The bills were not made by the program: tools/rays.py worked them out, and the ray-by-ray program in Rust says the same. Both are asked again in each run.
# Ends with 1 if anything differs.
[ $# -eq 1 ] || { echo "usage: bills.sh RINGBILL" >&2; exit 2; }
root=$(cd "$(dirname "$0")/.." && pwd) || exit 1
work=$(mktemp -d) || exit 1
trap 'rm -rf "$work"' EXIT
passed=0 failed=0

# gives FILE COMMAND...: what the command prints is this file
gives() {
    file=$1
    shift
    if "$@" >"$work/got" && cmp "$work/got" "$file"; then
        passed=$((passed + 1))
    else
        failed=$((failed + 1))
        echo "FAILED: $* gives another ${file##*/}"
    fi
}

model() { (cd "$root/tests/outside" && cargo run --quiet --release --offline --bin selftest -- --bill); }

# billed VIEW BILL: the two independent programs and `ringbill` print this bill
billed() {
    gives "$2" python3 "$root/tools/rays.py" "$1"
    gives "$2" model <"$1"
    gives "$2" "$ringbill" <"$1"
}

# stored TEXT VIEW BILL
stored() {
    gives "$2" python3 "$root/tools/scene.py" build "$1" -
    billed "$2" "$3"
}

ringbill=$1
stored "$root/samples/s.txt" "$root/crates/ringbill/stdin" "$root/crates/ringbill/stdout"
for text in "$root"/samples/bills/*.txt; do
    stored "$text" "${text%.txt}.view" "${text%.txt}.bill"
done

# The longest input: a view of 12 bytes, and a scene whose header names 57,376 bytes, the longest, and no sections, so that question 2 says no.
{ printf '\0\0\0\0\0\0\4\0\4\0\4\0\1\0\0\0\40\340\0\0' && head -c 57368 /dev/zero; } >"$work/longest"
echo "refused 2" >"$work/longest.bill"
# With one byte more the header is the same. A program that reads no further than the longest input would find that one, and say 2 again.
{ cat "$work/longest" && printf '\0'; } >"$work/too_long"
echo "refused 1" >"$work/too_long.bill"
for input in longest too_long; do
    billed "$work/$input" "$work/$input.bill"
done

# `ringbill` draws its window as one tile: what is wider or higher than a tile is refused, though a window may be.
python3 "$root/tools/scene.py" build "$root/samples/s.txt" - | tail -c +13 >"$work/s.scene"
echo "refused 10" >"$work/wide.bill"
for window in '257 128 4' '256 129 4' '1024 512 4'; do
    python3 "$root/tools/scene.py" view "$work/s.scene" "$work/wide.view" 0 0 0 $window
    billed "$work/wide.view" "$work/wide.bill"
done

# One ring in three cuttings, under two trees: one bill, worked out from the first.
# cutting CUT TREE
cutting() {
    python3 "$root/tools/ring.py" "$work/$1.view" --cut "$1" --tree "$2" --view 0 20 0 48 24 30 2>"$work/told" || { cat "$work/told"; exit 1; }
}
cutting none chain
cutting across halves
cutting diagonal chain
python3 "$root/tools/rays.py" "$work/none.view" >"$work/ring.bill"
for cut in none across diagonal; do
    billed "$work/$cut.view" "$work/ring.bill"
done

echo "bills: $passed passed, $failed failed"
[ "$failed" -eq 0 ]
