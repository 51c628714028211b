"""Holds include/ring.h to documents 01 and 02 and to the library.

    header.py LIBDIR      the folder that holds libsurvey.a

tests/header.c compiles with the header, links with the archive and runs; it speaks of every name of the header, lists the
results in the header's order and declares the calls word for word; the archive exports these calls and nothing else. The
numbers in the header's words are those of the papers, written here a second time. That all this can fail: of the header's
numbers and types each is changed alone, and none of these headers compiles; any two numbers of a call's view, or any two of
its lengths, are exchanged, and the call paints another picture or is refused; any two numbers of a call on a row are, and it
answers otherwise. Each case is counted; a case that fails is named.
"""

import collections
import itertools
import os
import re
import subprocess
import sys
import tempfile

ROOT = os.path.dirname(os.path.dirname(os.path.abspath(__file__)))
CHECK = os.path.join(ROOT, "tests", "header.c")
CC = ["cc", "-std=c11", "-Wall", "-Wextra", "-Werror"]
COMMENT = re.compile(r"/\*.*?\*/", flags=re.DOTALL)

# What is changed in turn, and what is put in its place.
CHANGES = (("number", r"\b\d+\b", lambda found: str(int(found) + 1)),
           ("type", r"\b(?:u?int\d+_t|size_t|double)\b", lambda found: "char"),
           ("const", r"\bconst\b", lambda found: ""),
           ("pointer", r"\*(?=\w)", lambda found: ""))

# Numbers of a call's view, eye, right, forward, up, window and tile, and the lengths of what it lends, by their places in a call.
# The first of them are the eye's, of which the gate asks the same. And those of the calls on rows: the map's length and the row,
# and between them the width.
NUMBERS, LENGTHS, EYE = range(19), range(19, 24), 3
ROW_NUMBERS = {"ring_row_lit": range(2), "ring_row_first_unlit": range(3)}

# The numbers in the header's words, by the name that a comment is about: those of each question, and where something else is
# quoted or meant, that.
SAID = {
    "RING_H": "5 0 1024",                           # "One length unit is 5 mm"; a length of 0; "at most 1,024 nodes"
    "RING_LEVEL_VIEW": "1 0 0 0 1 0 0 0 1 0 20 0 256 128 160",  # "(1,0,0), (0,1,0), (0,0,1)", and the numbers of a call
    "RING_WHOLE_TILE": "0 20 0 256 128 160 256 128",  # the numbers of a call on a window that is one tile
    "RING_PICTURE_LEN": "20 1 9",                   # after 8 bytes three pairs of "u32 offset and length": the second's length
    "ring_result": "0 15 10 14 10 13",              # "just before question 10"; "right after question 10"; "question 13 is struck"
    "RING_BAD_HEADER": "32 57376 1 0",
    "RING_BAD_SECTIONS": "26 6 6 1024 1024 4096",
    "RING_BAD_RANGE": "10000 10000",
    "RING_BAD_TREE": "65535",
    "RING_BAD_RUNS": "3 8",
    "RING_BAD_PANEL": "1 1024",
    "RING_BAD_METRES": "10000 10000",
    "RING_BAD_VIEW": "10000 10000 1 1024 1 512 1 4096 1 256 1 128",  # the eye; the window; the tile
    "RING_BAD_AXES": "100 100 0 0 0",
    "RING_BAD_BUFFERS": "1025 256 4",
    "RING_BAD_COUNTER": "4294967295",
    # columns, rows, directions; what is lent, in order, the map last
    "ring_survey": "0 0 1 1 1 1 0 1025 0 0 0 256 256 256 128 0 0 0 128 4 4 64 64 0",
    "ring_survey_metres": "0.0625 12 0.1875 38 0.0625 12 0 10000 10000 50.0025 10000 10001",  # the request's own; the limit
    "ring_row_lit": "0 4 4 3 0",                    # the map's first word; "four u64 words a row"; no lit cell, or no such row
    "ring_row_first_unlit": "256 0 0 0",            # four words' columns; no such row, an unlit first column, or no column
}

tally = collections.Counter()


def check(name, held):
    tally[bool(held)] += 1
    if not held:
        print("FAILED: " + name)


def content(name):
    with open(name, encoding="utf-8") as file:
        return file.read()


def plain(text):
    """A C text without its comments."""
    return COMMENT.sub("", text)


def said(text):
    """The numbers in the comments of a header, by the result that a comment stands behind, or else by the name that follows."""
    found = collections.defaultdict(list)
    for comment in COMMENT.finditer(text):
        behind = re.search(r"(RING_\w+) = \d+,? *$", text[:comment.start()])
        name = behind or re.search(r"(?i)\b(ring_\w+)", plain(text[comment.end():]))
        found[name.group(1)] += re.findall(r"(?<![\w.])\d+(?:,\d{3})*(?:\.\d+)?(?!\w)", comment.group())
    return {name: " ".join(numbers).replace(",", "") for name, numbers in found.items() if numbers}


def succeeds(command, quiet=False):
    hidden = subprocess.DEVNULL if quiet else None
    return subprocess.run(command, stderr=hidden, check=False).returncode == 0


def compiles(header, folder):
    """Does header.c compile with this text for ring.h?"""
    with open(os.path.join(folder, "ring.h"), "w", encoding="utf-8") as file:
        file.write(header)
    return succeeds(CC + ["-I", folder, "-fsyntax-only", CHECK], quiet=True)


def exported(archive):
    """Every name that the archive defines for others."""
    shown = subprocess.run(["nm", "-g", "--defined-only", archive], capture_output=True, text=True, check=True).stdout
    return {line.split()[2] for line in shown.splitlines() if len(line.split()) == 3}


def calls(text):
    """The calls that a text declares, at the beginning of a line: each name with its parameters, by name and in order."""
    found = re.findall(r"^[a-z]\w* (\w+)\(([^)]*)\);", text, flags=re.MULTILINE)
    return {name: [" ".join(one.split()) for one in parameters.split(",")] for name, parameters in found}


def exchanged(call):
    """The pairs of places whose numbers are exchanged in a call."""
    if call in ROW_NUMBERS:
        return list(itertools.combinations(ROW_NUMBERS[call], 2))
    pairs = [*itertools.combinations(NUMBERS, 2), *itertools.combinations(LENGTHS, 2)]
    return [(one, other) for one, other in pairs if "survey" in call or other >= EYE]


def agrees(library, folder, declared):
    program = os.path.join(folder, "header")
    build = CC + ["-I", os.path.join(ROOT, "include"), CHECK, "-L", library, "-lsurvey", "-o", program]
    built = succeeds(build)
    check("header.c builds and runs", built and succeeds([program]))
    for call in declared:
        for one, other in exchanged(call):
            shows = built and not succeeds([program, call, str(one), str(other)])
            check("it shows when numbers %d and %d of %s are exchanged" % (one, other, call), shows)


def names(header, body, archive):
    stated = re.findall(r"^IS(?:_NINE|_FOUR)?\((\w+)", body, flags=re.MULTILINE)
    for name in set(re.findall(r"\bRING_\w+", header)) - {"RING_H"}:
        check("header.c says what %s is" % name, name in stated)
    results = re.findall(r"\b(RING_\w+) = ", header)
    check("header.c lists the results in the header's order", [name for name in stated if name in results] == results)
    check("no result has a number that is struck", not {"13"} & set(re.findall(r"\bRING_\w+ = (\d+)", header)))
    check("header.c declares the calls of the header", calls(body) == calls(header))
    check("the archive exports the calls of the header", exported(archive) == set(calls(header)))


def words(text):
    got = said(text)
    for name in sorted({*SAID, *got}):
        wanted, found = SAID.get(name), got.get(name)
        check("the numbers in the words on %s are %s, not %s" % (name, wanted, found), found == wanted)


def can_fail(header, folder):
    check("the header without comments compiles", compiles(header, folder))
    for what, pattern, change in CHANGES:
        places = list(re.finditer(pattern, header))
        check("the header has a " + what, places)
        for place in places:
            wrong = header[:place.start()] + change(place.group()) + header[place.end():]
            line = header.count("\n", 0, place.start()) + 1
            check("another %s does not compile: line %d without comments" % (what, line), not compiles(wrong, folder))


def main():
    if len(sys.argv) != 2:
        sys.exit("usage: header.py LIBDIR")
    text = content(os.path.join(ROOT, "include", "ring.h"))
    header, body = plain(text), plain(content(CHECK))
    words(text)
    with tempfile.TemporaryDirectory() as folder:
        agrees(sys.argv[1], folder, sorted(calls(header)))
        names(header, body, os.path.join(sys.argv[1], "libsurvey.a"))
        can_fail(header, folder)
    print("header: %d passed, %d failed" % (tally[True], tally[False]))
    return 1 if tally[False] or not tally[True] else 0


if __name__ == "__main__":
    sys.exit(main())
