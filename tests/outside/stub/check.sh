#!/bin/sh
# The outside check against a library of wrong answers, and against programs that
# lay spans wrongly: each run must fail, and name the differences it should.
# Leaves nothing behind but build products.
set -eu
here=$(cd "$(dirname "$0")" && pwd)
work=$(mktemp -d)
trap 'rm -rf "$work"' EXIT
cd "$here/.."
# What is linked is kept apart from what is linked with the library.
products=${CARGO_TARGET_DIR:-target}
mkdir -p "$products/stub"
built=$(cd "$products/stub" && pwd)
[ "$built/libsurvey.a" -nt "$here/stub.c" ] || {
    ${CC:-cc} -std=c11 -Wall -Wextra -O1 -g -c "$here/stub.c" -o "$built/stub.o"
    ar rcs "$built/libsurvey.a" "$built/stub.o"
}
SURVEY_LIB_DIR="$built" cargo build --release --offline --quiet --workspace
cp "$products/release/differential" "$built/differential"
differential=$built/differential
# A number that no bill has: its view is level.
printf '#!/bin/sh\ncat >/dev/null\necho refused 14\n' >"$work/ringbill"
chmod +x "$work/ringbill"

# must FAULT CODE PREFIX DIFFERENCES...: runs, and wants this exit code and
# these differences, and that stations and stored cases differ.
must() {
    fault=$1 code=$2 prefix=$3
    shift 3
    got=0
    STUB_FAULT=$fault $prefix "$differential" --small --cases $cases --seed 3 \
        --out "$work" $bill >"$work/report" 2>&1 || got=$?
    [ "$got" = "$code" ] || { echo "$fault: exit $got, not $code"; tail -n 40 "$work/report"; exit 1; }
    for difference; do
        grep -q " differences: $difference\$" "$work/report" ||
            { echo "$fault: $difference not seen"; exit 1; }
    done
    for known in 'the turned stations' 'the booked stations' 'the joint stations' \
        'the stretch stations' 'the cutting stations' 'the metre stations' \
        'the map stations' 'the tile stations' 'the window stations' \
        'the rows of bare maps' 'the rows of F-8.txt' \
        F-1.txt F-2.txt F-3.txt F-5.txt F-7.txt F-8.txt F-9.txt; do
        grep -q "^cases: [1-9][0-9]* of $known differ\$" "$work/report" ||
            { echo "$fault: $known not seen"; exit 1; }
    done
    echo "$fault: exit $got, seen $*"
}

cases=300 bill=
must silent 1 '' Answer Gate Picture Counts PatchCounts Unlit Lit Counter \
    PanelSums FirstShowsClosest EqualWhenNoneCounted DifferWhereChosen \
    SecondShowsKept CuttingsPicture CuttingsCounts CuttingsUnlit CuttingsLit Forms \
    RowLit RowFirstUnlit WholePicture WholeCounts WholePatchCounts WholeCounter
must scribe 1 '' Answer Gate TouchedPicture TouchedCounts TouchedPatchCounts \
    TouchedUnlit TouchedLit TouchedCounter TouchedScene
must struck 1 '' Answer Gate Struck
must blank 1 '' Answer Gate Picture Counts PatchCounts Unlit Lit TouchedPicture \
    TouchedCounts TouchedPatchCounts TouchedUnlit TouchedLit TouchedCounter \
    FirstShowsClosest RowLit RowFirstUnlit
grep -q '^bare maps: 1200 put, [1-9][0-9]* differ$' "$work/report" ||
    { echo 'blank: no bare map differs'; exit 1; }
# Blank is blank in both forms, so Forms must not be seen; deaf answers the two differently.
grep -q ' differences: Forms$' "$work/report" && { echo 'blank: Forms seen'; exit 1; }
# Blank raises the counter with the right tiles, and no other.
grep -q ' differences: \(Whole\)*Counter$' "$work/report" && { echo 'blank: Counter seen'; exit 1; }
must ticker 1 '' Counter WholeCounter
must window 1 '' Counts Unlit WholeCounts
must deaf 1 '' Answer Gate Picture Forms
bill="--ringbill $work/ringbill"
must blank 1 '' Bill
cases=40 bill=
if command -v valgrind >/dev/null; then
    must blank 1 'valgrind --quiet --error-exitcode=99' Picture
    must beyond 99 'valgrind --quiet --error-exitcode=99' Picture
    must booker 99 'valgrind --quiet --error-exitcode=99' PatchCounts
    must mapper 99 'valgrind --quiet --error-exitcode=99' Lit
    must rower 99 'valgrind --quiet --error-exitcode=99' RowLit RowFirstUnlit
fi
[ -s "$work/outside-3-0-0.case" ] || { echo "no case was written"; exit 1; }
"$differential" --no-such-word 2>/dev/null && exit 1

# The programs of rows: the model in their place, and with it wrong in one way.
laying=$built/../release/laying selftest=$built/../release/selftest
# rows NAME COMMAND: a program in the folder of this run
rows() {
    printf '#!/bin/sh\n%s\n' "$2" >"$work/$1"
    chmod +x "$work/$1"
}
rows laid "$selftest --rows-laid"
rows worst "$selftest --rows-worst"
# laid_so CODE LAID WORST WORDS: wants this exit code, and these words in the report
laid_so() {
    got=0
    "$laying" --sequences 100 --seed 3 --rows-laid "$work/$2" --rows-worst "$work/$3" \
        >"$work/report" 2>&1 || got=$?
    [ "$got" = "$1" ] && grep -q "$4" "$work/report" ||
        { echo "rows, $2 $3: exit $got, not $1, or not said: $4"; tail -n 40 "$work/report"; exit 1; }
    echo "rows, $2 $3: exit $got"
}
laid_so 0 laid worst ' 0 differences$'
rows silent 'cat >/dev/null'
laid_so 1 silent worst ' differences: Form$'
for known in 'the row stations' F-6.txt; do
    grep -q "^cases: [1-9][0-9]* of $known differ\$" "$work/report" || { echo "rows, silent: $known not seen"; exit 1; }
done
laid_so 1 laid silent '^rows: .* differences: \[Form\]'
rows ended "$selftest --rows-laid; exit 3"
laid_so 1 ended worst ' differences: Form$'
rows looks "$selftest --rows-laid | sed 's/^\\([0-9]*\\) 128 /\\1 127 /'"
laid_so 1 looks worst ' differences: Looked$'
# Column 65 lit too where column 64 is the last.
rows words "$selftest --rows-laid | sed 's/ ffffffffffffffff 0000000000000001 / ffffffffffffffff 0000000000000003 /'"
laid_so 1 words worst ' differences: Map$'
grep -q '^DIFFERS the row stations, words of a row 65 wide: \[Map\]' "$work/report" ||
    { echo 'rows, words: the row stations saw nothing'; exit 1; }
rows wordless "$selftest --rows-laid | sed 's/ |[ 0-9a-f]* |/ |/'"
laid_so 1 wordless worst ' differences: Form$'
rows empty "$selftest --rows-laid | sed 's/^1 0 /1 1 /'"
laid_so 1 empty worst '^DIFFERS the row stations, a row 0 wide: \[Looked'
rows sums "$selftest --rows-worst | sed 's/ 8256\$/ 8255/'"
laid_so 1 laid sums '^rows: the maker.* differences: \[Reach\]'
rm "$work/laid"
laid_so 101 laid worst 'laid: No such file'
"$laying" --no-such-word 1 2>/dev/null && exit 1
"$laying" --seed 1 2>/dev/null && exit 1
echo "stub: every wrong answer was seen"
