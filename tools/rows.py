#!/usr/bin/env python3
"""How many unlit segments of a row do spans look at? And the worst case of it.

    rows.py [--bytes OUT] WIDTH I-J [I-J ...]  spans of the columns I to J, on a fresh row
    rows.py [--bytes OUT] --worst N [N ...]    the worst case's spans of these numbers

The spans are laid in order on a row of WIDTH columns, 0 to 256, the n-th with panel n; at most
4,096 of them. A span may end beyond the width; one with J below I has no column: it is not laid and
looks at 0. After each a line is printed, as the program `rows_laid` prints it: the span's number,
the segments that it looked at, the cells that it newly lit, 1 where no column is unlit any more or
else 0; after the colon the offset and the length of each segment that is left; after the first bar
the row's four words of the lit map in hexadecimal, bit i mod 64 of word i / 64 set where column i
is lit; after the second the cells, 0 where unlit.

With --worst a line is printed for each N, from 0 to 18,446,744,073,709,551,615, as `rows_worst`
prints it: the first and the last column of the worst case's N-th span on a row 256 wide and, up to
65,535, how many segments the first N spans look at together. At most 1,024 numbers are taken.

With --bytes nothing is printed: the file OUT gets what the program reads on standard input. A file
named - is standard output. Examples:

    $ rows.py 3 1-1 0-9
    1 1 1 0: 0 1 2 1 | 0000000000000002 0000000000000000 0000000000000000 0000000000000000 | 0 1 0
    2 2 2 1: | 0000000000000007 0000000000000000 0000000000000000 0000000000000000 | 2 1 2
    $ rows.py --worst 1 2 300
    1 1 1
    3 3 3
    255 255 30272
    $ rows.py --bytes - 16 0-3 6-11 | crates/rows_laid/out/rows_laid

It is worked out slowly: a row is the set of its unlit columns, and its segments are found anew from
this set whenever they are asked for.
"""

import struct
import sys

sys.dont_write_bytecode = True
import scene as scenes  # noqa: E402

WIDEST = 256
WORD, WORDS = 64, 4
MOST_SPANS, MOST_NUMBERS = 4096, 1024
SUMMED = 65535


# --- rows and spans ------------------------------------------------------------------------------

class Row:
    """The columns that are unlit, and all cells: a panel each, 0 where unlit."""

    def __init__(self, width):
        self.unlit = set(range(width))
        self.cells = [0] * width


def segments(unlit):
    """(first column, last column) of each unlit segment, in order: the rules' "stretches"."""
    firsts = sorted(column for column in unlit if column - 1 not in unlit)
    lasts = sorted(column for column in unlit if column + 1 not in unlit)
    return list(zip(firsts, lasts))


def looks(unlit, last):
    """"the stretches from the row's first up to and including the first that ends at or after the
    span's end, or at all if none does": how many.
    """
    found = segments(unlit)
    for number, (_, end) in enumerate(found, 1):
        if end >= last:
            return number
    return len(found)


def lay(row, first, last, panel):
    """Lay a span, if it has a column: (segments looked at, cells newly lit, whether no column is
    unlit any more).
    """
    if last < first:
        return 0, 0, not row.unlit
    looked = looks(row.unlit, last)
    newly = {column for column in row.unlit if first <= column <= last}
    for column in newly:
        row.cells[column] = panel
    row.unlit -= newly
    return looked, len(newly), not row.unlit


def map_words(row):
    """The row's words of the lit map: "bit i mod 64 of word i / 64 set when column i is lit.
    Columns beyond the width stay clear."
    """
    words = [0] * WORDS
    for column in set(range(len(row.cells))) - row.unlit:
        words[column // WORD] |= 1 << column % WORD
    return words


def row_line(number, told, row):
    """What is printed of a span and of the row after it."""
    pairs = [(first, last - first + 1) for first, last in segments(row.unlit)]
    return ("%d %d %d %d:" % (number, *told) + "".join(" %d %d" % pair for pair in pairs)
            + " |" + "".join(" %016x" % word for word in map_words(row))
            + " |" + "".join(" %d" % cell for cell in row.cells))


def laid_lines(width, spans):
    row = Row(width)
    return [row_line(number, lay(row, *span, number), row) for number, span in enumerate(spans, 1)]


# --- the worst case ------------------------------------------------------------------------------

def worst_span(k):
    """The one column of the maker's k-th span, as first and as last. "k of 0 is taken as 1"."""
    column = min(2 * max(k, 1) - 1, WIDEST - 1)
    return column, column


def worst_looks():
    """What each of the maker's spans looks at, laid in order on a fresh row: up to one after which
    all look at the same number.
    """
    row, found = Row(WIDEST), []
    for k in range(1, SUMMED + 1):
        looked, lit, _ = lay(row, *worst_span(k), 1)
        found.append(looked)
        # The maker's columns never fall: where this span is the one of number 65,535, so are all
        # between. Where it lit nothing they do not change the row, and look at the same number.
        if lit == 0 and worst_span(k) == worst_span(SUMMED):
            break
    return found


def together(found, count):
    """What the first `count` of the maker's spans look at together."""
    return sum(found[:count]) + max(count - len(found), 0) * found[-1]


def worst_line(k, found):
    """What is printed of a number, by what each of the maker's spans looks at."""
    line = "%d %d" % worst_span(k)
    return "%s %d" % (line, together(found, k)) if k <= SUMMED else line


def worst_lines(numbers):
    found = worst_looks()
    return [worst_line(k, found) for k in numbers]


# --- the command ---------------------------------------------------------------------------------

def columns(word):
    ends = word.split("-")
    if len(ends) != 2:
        raise scenes.Fault("%r is not a span of two columns" % word)
    return scenes.u16(ends[0]), scenes.u16(ends[1])


def ask_most(words, most, what):
    if len(words) > most:
        raise scenes.Fault("%d %s, more than %d" % (len(words), what, most))


def read_laid(words):
    """(width, spans) of a command's words."""
    ask_most(words[1:], MOST_SPANS, "spans")
    return scenes.number(words[0], 0, WIDEST), [columns(word) for word in words[1:]]


def read_worst(words):
    """The numbers of a command's words."""
    ask_most(words, MOST_NUMBERS, "numbers")
    return [scenes.number(word, 0, 2 ** 64 - 1) for word in words]


def pack_laid(width, spans):
    ends = [end for span in spans for end in span]
    return struct.pack("<%dH" % (1 + len(ends)), width, *ends)


def pack_worst(numbers):
    return struct.pack("<%dQ" % len(numbers), *numbers)


def run(words):
    out = scenes.take_option(words, "--bytes", 1, "files")
    worst = words[:1] == ["--worst"]
    if len(words) < 2:
        sys.exit("usage: rows.py [--bytes OUT] WIDTH I-J [I-J ...]\n"
                 "       rows.py [--bytes OUT] --worst N [N ...]")
    given = (read_worst(words[1:]),) if worst else read_laid(words)
    if out is None:
        print("\n".join((worst_lines if worst else laid_lines)(*given)))
    else:
        scenes.write_file(out[0], (pack_worst if worst else pack_laid)(*given))


def main():
    try:
        run(sys.argv[1:])
    except (scenes.Fault, OSError) as fault:
        sys.exit("rows.py: %s" % fault)


if __name__ == "__main__":
    main()
