#!/bin/sh
# Builds examples/console.c with the library and holds its bills, the cells of each patch and the answers on each row against
# those of tools/rays.py, also of wide windows, which both survey in tiles.
#   console.sh LIBDIR      the folder that holds libsurvey.a
# Ends with 1 if anything differs.
[ $# -eq 1 ] || { echo "usage: console.sh LIBDIR" >&2; exit 2; }
root=$(cd "$(dirname "$0")/.." && pwd) || exit 1
work=$(mktemp -d) || exit 1
trap 'rm -rf "$work"' EXIT
passed=0 failed=0

count() { # STATUS NAME
    [ "$1" -eq 0 ] && { passed=$((passed + 1)); return; }
    failed=$((failed + 1))
    echo "FAILED: $2"
}

tool() { tool_name=$1; shift; python3 "$root/tools/$tool_name" "$@"; }

# gives OPTION...: the bills and the last picture wanted, with these options of console, and with the patches or the rows beside
# them.
gives() {
    for listed in '' -p -r; do
        rm -f "$work/got.u16"
        "$work/console" $listed "$@" -o "$work/got.u16" "$scene" $window $words >"$work/got"
        cmp "$work/wanted$listed" "$work/got" && cmp "$work/wanted.u16" "$work/got.u16"
        count $? "bills of ${scene##*/}, window $window $listed $*"
    done
}

# told STATION: the view of a station, and what rays.py is told of it besides: one in metres takes the place of another eye.
told() {
    eye=$1 beside=
    [ -z "$metres" ] || { eye='9 9 9' beside="--metres $1"; }
    tool scene.py view "$scene" "$work/in.view" $eye $window
}

# turned AXES SCENE WINDOW STATION...: the bills of all stations in one run, and the last picture.
metres= tiles=
turned() {
    axes=$1 scene=$work/$2.scene window=$3
    shift 3
    rm -f "$work/wanted.u16"
    : >"$work/all"
    words=
    for station in "$@"; do
        told "$station"
        tool rays.py --patches --rows $tiles $beside ${axes:+--axes $axes} "$work/in.view" "$work/wanted.u16" >>"$work/all"
        words="$words $station"
    done
    grep -v '^row \|^tile ' "$work/all" >"$work/wanted-p"
    grep -v '^patch ' "$work/all" >"$work/wanted-r"
    grep -v '^patch ' "$work/wanted-p" >"$work/wanted"
    gives $metres ${axes:+-a $axes}
}

# in_metres AXES SCENE WINDOW STATION...: the same of stations in metres.
in_metres() {
    metres=-m
    turned "$@"
    metres=
}

# wide KIND...: turned, in_metres or level, of a window in tiles.
wide() {
    tiles=--tiles
    "$@"
    tiles=
}

# level SCENE WINDOW STATION...: without axes; and with those of the level view no other bills.
level() {
    turned "" "$@"
    gives -a 1 0 0 0 1 0 0 0 1
}

# made NAME LINE...: a scene from lines of text.
made() {
    name=$1
    shift
    printf '%s\n' "$@" | tool scene.py build - "$work/$name.scene"
}

# piece PANEL FORWARD LEFT RIGHT BOTTOM TOP: the line of a patch across the bore.
piece() { echo "patch $1 $3,$2,$5 $4,$2,$5 $4,$2,$6 $3,$2,$6"; }

# crowd COUNT: a scene in which one triangle stands this often.
crowd() {
    { echo "$node" && seq "$1" | sed 's/.*/patch 5 -50,100,-50 50,100,-50 0,100,50/'; } |
        tool scene.py build - "$work/crowd.scene"
}

# prints EXPECTED WORD...: what console prints.
prints() {
    expected=$1
    shift
    got=$("$work/console" "$@" 2>/dev/null)
    [ "$got" = "$expected" ]
    count $? "console $*"
}

# misused WORD...: console says how it is used.
misused() {
    "$work/console" "$@" >/dev/null 2>&1
    [ $? -eq 2 ]
    count $? "console $*: misused"
}

# becomes UNITS DOUBLE...: each of these doubles is this number of units to the right. Only from there the line straight forward
# meets a slot one unit wide: it runs along the left edge, and shows what is right of it.
becomes() {
    units=$1
    shift
    made slot 'node 0,1,0 1,1,0 0,1,1' "$(piece 5 1 "$units" $((units + 1)) -1 1)"
    for double in "$@"; do
        prints "$(printf '%s\n' 'view 1 1 1' '5 1' 'nothing 0' 'total 1')" -m "$work/slot.scene" 1 1 1 "$double" 0 0
    done
}

# limits AXES PART...: each of these parts of the axes passes with 100 and -100, and no further.
limits() {
    words=$1
    shift
    for part in "$@"; do
        for number in 100 -100 101 -101; do
            axes=$(echo "$words" | awk -v part="$part" -v number="$number" '{ $part = number; print }')
            case $number in *0) wanted='view 1 1 4' ;; *) wanted='refused 14' ;; esac
            got=$("$work/console" -a $axes "$work/s.scene" 1 1 4 0 0 0)
            case $got in "$wanted"*) true ;; *) false ;; esac
            count $? "axes $axes: $wanted"
        done
    done
}

cc -std=c11 -O2 -Wall -Wextra -Werror -I "$root/include" "$root/examples/console.c" \
    -L "$1" -lsurvey -o "$work/console" || { echo "FAILED: console.c does not build"; exit 1; }

for name in s t quarters wall roof bars; do
    tool scene.py build "$root/samples/$name.txt" - | tail -c +13 >"$work/$name.scene"
done
tail -c +13 "$root/samples/ring.view" >"$work/ring.scene"

level s "4 4 4" "0 0 0" "0 75 0" "3 -20 5" "0 0 0"
level t "4 4 4" "0 0 0" "0 75 0" "3 -20 5" "0 0 0"
level ring "64 32 40" "0 20 0" "300 1000 -200" "0 -900 50"

# Cameras that look any way: rolled, upside down, aside, up, back, far out of square, with parts at their limits.
turned "0 0 -1 0 1 0 1 0 0" quarters "4 2 4" "0 0 0" "-30 20 10"
turned "-1 0 0 0 1 0 0 0 -1" quarters "4 2 4" "0 0 0" "-30 20 10"
turned "1 0 0 1 1 0 0 0 1" quarters "4 2 4" "0 0 0"
turned "100 0 0 0 100 0 0 0 100" quarters "4 2 4" "0 0 0"
turned "9 2 -7 3 12 -4 11 -1 8" quarters "6 4 5" "-19 -49 26"
turned "0 -1 0 1 0 0 0 0 1" wall "4 4 4" "0 0 0"
turned "100 -100 0 100 100 0 0 0 100" wall "4 4 4" "0 0 0" "-70 11 7"
turned "1 0 0 0 0 1 0 -1 0" roof "4 4 4" "0 0 0" "5 -40 -20"
turned "-1 0 0 0 -1 0 0 0 1" t "4 4 4" "0 200 0" "0 75 0"
turned "1 0 1 0 2 0 -1 0 1" bars "9 7 8" "0 0 0"
turned "1 0 -1 0 2 0 1 0 1" bars "9 7 8" "0 0 0"
turned "-97 31 -12 25 100 -8 -9 14 -100" ring "64 32 40" "0 20 0" "300 1000 -200"
turned "-4 3 0 -3 -4 1 0 1 6" ring "64 32 40" "300 1000 -200" "40 4700 -100"

# Sight lines along joints and through corners: four panels that meet, level and turned; walls that meet on a line and open to
# the right; a floor in two strips; S with half-width 25.
node='node 0,100,0 1,100,0 0,100,1' nearer='node 0,50,0 1,50,0 0,50,1'
fold='0,100,-60 100,150,-60 100,150,60' front='0,100,-60 100,80,-60 100,80,60'
made walls "node $fold positive 1" "patch 1 $fold 0,100,60" "node $front" "patch 9 $front 0,100,60"
made floor 'node 0,0,-20 1,0,-20 0,1,-20' 'patch 3 -40,40,-20 0,40,-20 0,160,-20 -40,160,-20' \
    'patch 4 0,40,-20 40,40,-20 40,160,-20 0,160,-20'
made narrow "$node" "$(piece 5 100 -25 25 -25 25)"
level quarters "3 3 4" "0 0 0" "10 -40 0" "0 50 10"
turned "0 0 -1 0 1 0 1 0 0" quarters "3 3 4" "0 0 0"
turned "-1 0 0 0 1 0 0 0 -1" quarters "3 3 4" "0 0 0"
turned "1 0 1 0 2 0 -1 0 1" quarters "3 3 4" "0 0 0"
turned "1 0 -1 0 2 0 0 0 1" quarters "3 3 4" "0 0 0"
level walls "3 3 4" "0 0 0" "0 200 0"
turned "-1 0 0 0 -1 0 0 0 1" walls "3 3 4" "0 200 0"
level floor "5 5 10" "0 0 0" "0 0 -20"
level narrow "4 4 4" "0 0 0"
prints "$(printf '%s\n' 'view 4 4 4' '5 1' 'nothing 15' 'total 16' 'patch 0: 5 1' 'unlit 0: (0,4)' 'unlit 1: (0,1) (2,2)' \
    'unlit 2: (0,4)' 'unlit 3: (0,4)')" -u -p "$work/narrow.scene" 4 4 4 0 0 0
prints "$(printf '%s\n' 'view 3 3 4' '1 1' '2 2' '3 2' '4 4' 'nothing 0' 'total 9')" "$work/quarters.scene" 3 3 4 0 0 0
prints "$(printf '%s\n' 'view 3 3 4' '1 2' '2 1' '3 4' '4 2' 'nothing 0' 'total 9')" \
    -a 0 0 -1 0 1 0 1 0 0 "$work/quarters.scene" 3 3 4 0 0 0
prints "$(printf '%s\n' 'view 3 3 4' '9 6' 'nothing 3' 'total 9')" "$work/walls.scene" 3 3 4 0 0 0

# Which piece of a panel was seen: a square that stands twice; its left half before and after the whole; pieces of two panels
# that overlap; pieces of one panel one behind the other; a piece that is hidden; no patch, without a node and with one; the ring
# with each patch twice.
square=$(piece 5 100 -50 50 -50 50) half=$(piece 5 100 -50 0 -50 50)
made twice "$node" "$square" "$square"
made half_first "$node" "$half" "$square"
made whole_first "$node" "$square" "$half"
made overlap "$node" "$(piece 3 100 -50 0 -50 50)" "$(piece 3 100 -80 -20 -50 50)" "$(piece 5 100 -80 80 -80 80)" "$square"
made behind "$node positive 1" "$square" "$nearer" "$(piece 5 50 -10 10 -10 10)"
made hidden "$nearer negative 1" "$(piece 7 50 -20 0 -20 20)" "$node" "$(piece 5 100 -50 10 -50 50)" \
    "$(piece 5 100 10 50 -50 50)"
made none
made bare "$node"
tool scene.py show "$work/ring.scene" | awk '{ print } /^ *patch/ { print }' | tool scene.py build - "$work/doubled.scene"
for name in twice half_first whole_first; do
    level $name "4 4 4" "0 0 0" "0 75 0" "0 200 0" "0 0 0"
done
level overlap "8 4 4" "0 0 0" "-30 40 10"
level behind "8 8 8" "0 0 0" "5 -30 5" "0 200 0"
turned "-1 0 0 0 -1 0 0 0 1" behind "8 8 8" "0 200 0" "0 75 0"
level hidden "8 4 8" "0 0 0" "40 0 0"
level none "4 4 4" "0 0 0" "7 7 7"
level bare "4 4 4" "0 0 0"
level doubled "48 24 30" "0 20 0" "300 1000 -200"
turned "-4 3 0 -3 -4 1 0 1 6" doubled "48 24 30" "40 4700 -100"
prints "$(printf '%s\n' 'view 4 4 4' '5 4' 'nothing 12' 'total 16' 'patch 0: 5 2' 'patch 1: 5 2' 'refused 10' 'view 4 4 4' \
    'nothing 16' 'total 16' 'patch 0: 5 0' 'patch 1: 5 0')" -p "$work/half_first.scene" 4 4 4 0 0 0 0 0 10001 0 200 0
prints "$(printf '%s\n' 'view 1 1 4' '5 1' 'nothing 0' 'total 1' 'patch 0: 5 1' 'patch 1: 5 0')" \
    -u -p "$work/twice.scene" 1 1 4 0 0 0
prints "$(printf '%s\n' 'view 2 1 4' 'nothing 2' 'total 2' 'patch 0: 9 0' 'unlit 0: (0,2)')" \
    -u -p "$work/wall.scene" 2 1 4 0 0 0
prints "$(printf '%s\n' 'view 1 1 4' 'nothing 1' 'total 1')" -p "$work/none.scene" 1 1 4 0 0 0

# The most patches, and one more; and a section of patches that is longer than any.
crowd 1024
level crowd "4 4 4" "0 0 0"
crowd 1025
prints 'refused 2' -p "$work/crowd.scene" 4 4 4 0 0 0
made endless 'patches-at 58 4294967295' "$node" "$square"
prints 'refused 2' -p "$work/endless.scene" 4 4 4 0 0 0

prints 'refused 10' "$work/s.scene" 4 4 4 0 0 10001
for window in '1025 4' '4 513' '65535 65535' '0 4' '4 0' '0 0' '1280 128' '65280 128' '256 65408'; do
    prints 'refused 10' "$work/s.scene" $window 4 0 0 0
done

# Wide windows: the most of one tile, a column or a row more, both, and the widest; from several stations, one of which is
# refused before any tile; turned; in metres.
wide level s "256 128 100" "60 0 30"
wide level s "257 128 100" "60 0 30" "-60 0 20"
wide level s "256 129 100" "60 0 30" "-60 0 20"
wide level t "300 260 257" "-60 0 20" "0 0 10001" "3 -20 5" "0 200 0"
wide level s "1024 1 512" "0 0 0" "50 0 0"
wide level s "1 512 256" "0 0 0"
wide level ring "260 130 160" "0 20 0" "300 1000 -200"
wide turned "-97 31 -12 25 100 -8 -9 14 -100" ring "270 129 160" "0 20 0"
wide turned "1 0 -1 0 2 0 1 0 1" bars "513 7 300" "0 0 0"
wide in_metres "" ring "258 130 160" "1.5 5 -1" "0 nan 0" "0 0.1 0"
wide turned "" s "1024 512 512" "0 0 0"
prints "$(printf '%s\n' 'view 512 2 256' '5 256' 'nothing 768' 'total 1024' 'patch 0: 5 256' 'tile 0 0 256 2' \
    'unlit 0: (0,192)' 'unlit 1: (0,192)' 'tile 256 0 256 2' 'unlit 0: (64,192)' 'unlit 1: (64,192)' 'tile 0 0 256 2' \
    'row 0: 64 lit, first unlit 0' 'row 1: 64 lit, first unlit 0' 'tile 256 0 256 2' 'row 0: 64 lit, first unlit 64' \
    'row 1: 64 lit, first unlit 64')" -u -r -p "$work/s.scene" 512 2 256 0 0 0
prints "$(printf '%s\n' 'view 1024 1 1024' '5 512' 'nothing 512' 'total 1024' 'tile 0 0 256 1' 'row 0: 0 lit, first unlit 0' \
    'tile 256 0 256 1' 'row 0: 256 lit, none unlit' 'tile 512 0 256 1' 'row 0: 256 lit, none unlit' 'tile 768 0 256 1' \
    'row 0: 0 lit, first unlit 0')" -r "$work/s.scene" 1024 1 1024 0 0 0

# Question 14: the range of each part, where right . (forward x up) is above 0 whatever that part is; this number 0 and below
# 0; and the question's place after 10 and after those on scenes.
limits "50 1 2 3 50 4 5 6 50" 2 3 4 6 7 8
limits "-50 50 50 50 -50 50 50 50 -50" 1 5 9
prints 'refused 14' -a -1 0 0 0 1 0 0 0 1 "$work/s.scene" 4 4 4 0 0 0
prints 'refused 14' -a 1 0 0 0 1 0 0 1 0 "$work/s.scene" 4 4 4 0 0 0
prints 'refused 14' -a 0 0 0 0 0 0 0 0 0 "$work/s.scene" 4 4 4 0 0 0
prints 'refused 10' -a 1 0 101 0 1 0 0 0 1 "$work/s.scene" 4 4 0 0 0 0
prints 'refused 14' -a 1 0 101 0 1 0 0 0 1 "$work/s.scene" 4 4 4 0 0 0
misused -a 1 0 0 0 1 0 0 0 40000 "$work/s.scene" 4 4 4 0 0 0
misused -a 1 0 0 0 1 0 0 0 "$work/s.scene" 4 4 4 0 0 0
misused -p
misused "$work/s.scene" 4 4 4 0 0 0 -p

head -c 87 "$work/s.scene" >"$work/short.scene"
prints 'refused 1' "$work/short.scene" 4 4 4 0 0 0
prints 'refused 1' -p "$work/short.scene" 4 4 4 0 0 0
prints 'refused 1' -a 0 0 0 0 0 0 0 0 0 "$work/short.scene" 4 4 4 0 0 0
{ echo 'length 57377' | tool scene.py build - -; head -c 60000 /dev/zero; } >"$work/long.scene"
prints 'refused 1' "$work/long.scene" 4 4 4 0 0 0
# Scenes that end before or within the length of their patch section.
for length in 0 20 22; do
    head -c $length "$work/ring.scene" >"$work/cut.scene"
    prints 'refused 1' -p "$work/cut.scene" 4 4 4 0 0 0
done
prints "$(printf '%s\n' 'view 4 4 4' '5 4' 'nothing 12' 'total 16' 'unlit 0: (0,4)' \
    'unlit 1: (0,1) (3,1)' 'unlit 2: (0,1) (3,1)' 'unlit 3: (0,4)')" -u "$work/s.scene" 4 4 4 0 0 0
prints "$(printf '%s\n' 'view 4 4 4' '9 4' 'nothing 12' 'total 16' 'unlit 0: (0,3)' 'unlit 1: (0,3)' \
    'unlit 2: (0,3)' 'unlit 3: (0,3)')" -u -a 100 -100 0 100 100 0 0 0 100 "$work/wall.scene" 4 4 4 0 0 0

# Rows: all lit and none, in the widest window and in one a word and a column wide; after patches and unlit lists, and after a
# refusal those of the next station alone.
prints "$(printf '%s\n' 'view 4 4 4' '5 4' 'nothing 12' 'total 16' 'row 0: 0 lit, first unlit 0' 'row 1: 2 lit, first unlit 0' \
    'row 2: 2 lit, first unlit 0' 'row 3: 0 lit, first unlit 0')" -r "$work/s.scene" 4 4 4 0 0 0
prints "$(printf '%s\n' 'view 256 1 256' '5 128' 'nothing 128' 'total 256' 'row 0: 128 lit, first unlit 128')" \
    -r "$work/s.scene" 256 1 256 50 0 0
prints "$(printf '%s\n' 'view 256 1 4096' '5 256' 'nothing 0' 'total 256' 'row 0: 256 lit, none unlit')" \
    -r "$work/s.scene" 256 1 4096 0 0 0
prints "$(printf '%s\n' 'view 65 1 4096' '5 65' 'nothing 0' 'total 65' 'row 0: 65 lit, none unlit' 'refused 10' 'view 65 1 4096' \
    'nothing 65' 'total 65' 'row 0: 0 lit, first unlit 0')" -r "$work/s.scene" 65 1 4096 0 0 0 0 10001 0 0 200 0
prints "$(printf '%s\n' 'view 4 1 4' '5 2' 'nothing 2' 'total 4' 'patch 0: 5 2' 'unlit 0: (0,1) (3,1)' \
    'row 0: 2 lit, first unlit 0')" -r -u -p "$work/s.scene" 4 1 4 0 0 0
level s "256 128 100" "60 0 30"
level wall "130 3 60" "90 -40 0"
misused -r

# Stations in metres. What a double becomes: zeros, halves with the request's own first, doubles next to halves, the limit.
in_metres "" s "4 4 4" "0 0 0" "0 0.375 0" "0.015 -0.1 0.025" "0 nan 0" "-0 0.5 0"
in_metres "" ring "64 32 40" "0 0.1 0" "1.5 5 -1" "0.0025 -4.5 0.1875" "0 0 -64" "1.501 4.999 -1"
in_metres "9 2 -7 3 12 -4 11 -1 8" quarters "6 4 5" "-0.095 -0.245 0.13" "-0.0974 -0.2426 0.1324"
in_metres "100 -100 0 100 100 0 0 0 100" wall "4 4 4" "-0.35 0.055 0.035" "0 0 0"
becomes 0 0 -0 0.0 1e-400 -1e-400 4.9e-324 0.002499999999999999
becomes 12 0.0625 6.25e-2 0x1p-4 0.0624999 0.058
becomes 38 0.1875 0.1900
becomes 13 0.06250000000000001
becomes -12 -0.0625
becomes -38 -0.1875
becomes 1 0.0025 0.005 0.0075
becomes 3 0.0125
becomes -1 -0.0025
becomes 9988 49.9375
becomes -10000 -50 -50.0025
in_metres "" s "4 4 4" "50.0025 -50.0025 50.0025"
prints 'refused 15' -m "$work/s.scene" 4 4 4 50.00250000000001 0 0
prints 'refused 15' -m "$work/s.scene" 4 4 4 0 -50.00250000000001 0
prints 'refused 10' "$work/s.scene" 4 4 4 10001 0 0
for double in nan -nan 'nan(50)' inf -inf infinity 1e400 -1e400 64 327.68 21474836.48; do
    prints 'refused 15' -m "$work/s.scene" 4 4 4 "$double" 0 0
    prints 'refused 15' -m "$work/s.scene" 4 4 4 0 "$double" 0
    prints 'refused 15' -m "$work/s.scene" 4 4 4 0 0 "$double"
done

# The question's place: after those on scenes, before 10.
prints 'refused 1' -m "$work/short.scene" 4 4 4 nan 0 0
prints 'refused 2' -m "$work/endless.scene" 4 4 4 0 64 0
prints 'refused 15' -m "$work/s.scene" 0 4 4 nan 0 0
prints 'refused 15' -m "$work/s.scene" 0 4 4 64 0 0
prints 'refused 15' -m -a 0 0 0 0 0 0 0 0 0 "$work/s.scene" 4 4 4 0 0 inf
prints 'refused 10' -m -a 0 0 0 0 0 0 0 0 0 "$work/s.scene" 4 4 0 0 0 0
prints 'refused 14' -m -a 0 0 0 0 0 0 0 0 0 "$work/s.scene" 4 4 4 0 0 0
prints "$(printf '%s\n' 'view 1 1 4' '5 1' 'nothing 0' 'total 1' 'patch 0: 5 1' 'refused 15' 'view 1 1 4' 'nothing 1' 'total 1' \
    'patch 0: 5 0' 'unlit 0: (0,1)')" -u -p -m "$work/s.scene" 1 1 4 0 0 0 0 nan 0 0 0.5 0

# What is no number, and no whole number of units.
for double in x '' 0.5m 1,5 0x nanx '1 2'; do
    misused -m "$work/s.scene" 4 4 4 0 "$double" 0
done
for word in 0.5 nan inf 1e2; do
    misused "$work/s.scene" 4 4 4 0 "$word" 0
done
misused -m "$work/s.scene" 4 4 4 0 0
misused "$work/s.scene" 4 4 4 -m 0 0 0 0 0

echo "console: $passed passed, $failed failed"
[ "$failed" -eq 0 ]
