#!/bin/sh
# What the programs that read do where their input cannot be read or their output cannot be written: they write nothing, no bill, refusal or row, and a message on standard error.
# And what the programs of rows make of inputs that are too short, too long, or not whole.
#   tests/failures.sh FOLDER      with `ringbill`, `rows_laid` and `rows_worst`
# Ends with 1 if anything differs.
[ $# -eq 1 ] || { echo "usage: failures.sh FOLDER" >&2; exit 2; }
root=$(cd "$(dirname "$0")/.." && pwd) || exit 1
folder=$1
passed=0 failed=0

# same NAME GOT WANTED
same() {
    if [ "$2" = "$3" ]; then
        passed=$((passed + 1))
    else
        failed=$((failed + 1))
        echo "FAILED: $1: '$2', not '$3'"
    fi
}

# fails PROGRAM UNWRITTEN EMPTY: this message where the output cannot be written, and these words for an empty input
fails() {
    program=$folder/$1
    stdin=$root/crates/$1/stdin
    unread="$1: standard input cannot be read"
    same "$1: a folder as input prints nothing" "$("$program" <"$root" 2>/dev/null)" ""
    same "$1: a folder as input is told" "$("$program" <"$root" 2>&1 >/dev/null)" "$unread"
    same "$1: a closed input prints nothing" "$("$program" <&- 2>/dev/null)" ""
    same "$1: a closed input is told" "$("$program" <&- 2>&1 >/dev/null)" "$unread"
    same "$1: an empty input is no failure" "$("$program" </dev/null 2>&1)" "$3"
    same "$1: a full device is told" "$("$program" <"$stdin" 2>&1 >/dev/full | sort -u)" "$1: $2"
    same "$1: a closed output is told" "$("$program" <"$stdin" 2>&1 >&- | sort -u)" "$1: $2"
    same "$1: an input in pieces is read whole" \
        "$({ head -c 9 "$stdin"; sleep 0.1; tail -c +10 "$stdin"; } | "$program" 2>&1)" "$(cat "$root/crates/$1/stdout")"
}
fails ringbill 'the bill could not be written whole' 'refused 1'
fails rows_laid 'a row could not be written' ''
fails rows_worst 'a line could not be written' ''

# repeated COUNT HEX: these bytes, so many times
repeated() { python3 -c 'import sys; sys.stdout.buffer.write(bytes.fromhex(sys.argv[2]) * int(sys.argv[1]))' "$1" "$2"; }
# A row of eight columns: without spans, with a part of one, with one and a part of the next, with 4,096, and with one more.
laid() { { printf '\010\000' && repeated "$1" "$2"; } | "$folder/rows_laid"; }
same "rows_laid: a part of a width" "$(printf '\010' | "$folder/rows_laid")" ""
same "rows_laid: no span" "$(laid 1 '')" ""
same "rows_laid: a part of a span" "$(laid 1 020003)" ""
rest='0: 0 2 4 4 | 000000000000000c 0000000000000000 0000000000000000 0000000000000000 | 0 0 1 1 0 0 0 0'
same "rows_laid: a part of a second span" "$(laid 1 02000300020003)" "1 1 2 $rest"
same "rows_laid: 4,096 spans" "$(laid 4096 02000300 | tail -n 1)" "4096 2 0 $rest"
same "rows_laid: 4,097 spans" "$(laid 4097 02000300 | wc -l)" 4096
worst() { repeated "$1" "$2" | "$folder/rows_worst"; }
same "rows_worst: a part of a number" "$(worst 1 01000000000000)" ""
same "rows_worst: a part of a second number" "$(worst 1 030000000000000001)" "5 5 6"
same "rows_worst: 1,024 numbers" "$(worst 1024 0200000000000000 | wc -l)" 1024
same "rows_worst: 1,025 numbers" "$(worst 1025 0200000000000000 | sort -u | wc -l) $(worst 1025 0200000000000000 | wc -l)" "1 1024"

echo "failures: $passed passed, $failed failed"
[ "$failed" -eq 0 ]
