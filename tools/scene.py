#!/usr/bin/env python3
"""Lining scenes as text and as bytes.

    scene.py build IN.txt OUT            text to bytes
    scene.py show [--view] IN [OUT.txt]  bytes to text; --view: the 12-byte view stands first
    scene.py view IN.scene OUT.view X Y Z WIDTH HEIGHT LENS
                                         put the view before a scene: the input of `ringbill`

A file named - is standard input or output. The eye X Y Z is in units; `--metres X Y Z` in its place
tells it in metres, and the view holds the whole-number station that these doubles become.

The text form
-------------
One line for each node and each patch; `#` starts a comment; blank lines and indentation are
free. A point is three numbers with commas and no blanks: right, forward, up. Nodes, patches and
corners are numbered from 0 in the order in which they stand.

    node POINT POINT POINT [positive CHILD] [negative CHILD] [patches FIRST COUNT]
        A plane through three points. A child is a node's number or `none`, which need not be
        said. The patch lines from here to the next node line are the node's run.
    patch PANEL POINT POINT POINT ...  [corners FIRST COUNT]
        A panel number and the patch's corners in order.
    view POINT WIDTH HEIGHT LENS
        Put the 12-byte view (eye and window) before the scene.

Example, the square of panel 5 seen through a window of 4 by 4 cells with lens 4:

    view 0,0,0 4 4 4
    node 0,100,0 1,100,0 0,100,1
      patch 5  -50,100,-50 50,100,-50 50,100,50 -50,100,50

Bad scenes, to try refusals. `build` checks nothing but that a number fits its field, and these
lines and words write what they are told:

    patches FIRST COUNT     (on a node line) this run in place of the patches listed below it
    corners FIRST COUNT     (on a patch line) this run in place of the corners on the line
    corner POINT ...        corners that no patch line lists
    version N, zero N, length N
    nodes-at OFFSET LENGTH, patches-at OFFSET LENGTH, corners-at OFFSET LENGTH
                            this number in the header in place of the right one
    tail HEX ...            bytes after the last section
    bytes HEX ...           the file is these bytes; only `view` and more `bytes` beside it

What `show` does. Where the header's three sections follow each other from byte 32 in whole
records, it writes nodes, patches and corners, with the lines and words above wherever a number
is not the one that `build` would choose (a wrong version or length, a run out of place, bytes
after the sections). Any other file it writes as `bytes` lines, with the reason in a comment. In
both cases `build` gives back the same bytes, so the round trip is exact for every file.
"""

import argparse
import struct
import sys

sys.dont_write_bytecode = True
import metres  # noqa: E402

HEADER = struct.Struct("<HHIIIIIII")
NODE = struct.Struct("<13H")
NODE_POINTS = struct.Struct("<9h")
PATCH = struct.Struct("<3H")
CORNER = struct.Struct("<3h")
VIEW = struct.Struct("<3h3H")
NONE = 65535
LEVEL = ((1, 0, 0), (0, 1, 0), (0, 0, 1))
AXES = "[--axes RX RY RZ FX FY FZ UX UY UZ]"
STATION = "[--metres X Y Z]"
SECTIONS = ("nodes", "patches", "corners")
RECORDS = (NODE.size, PATCH.size, CORNER.size)


class Fault(Exception):
    """Something the user must hear of: a line that cannot be read, a number that does not fit."""


class Node:
    """Three points of a plane, two children, and a run of patches."""

    def __init__(self, points, positive=NONE, negative=NONE, first=0, count=0):
        self.points = points
        self.positive = positive
        self.negative = negative
        self.first = first
        self.count = count


class Patch:
    """A panel number and a run of corners."""

    def __init__(self, panel, first=0, count=0):
        self.panel = panel
        self.first = first
        self.count = count


class Scene:
    """The records, and the header's numbers where they are not the right ones."""

    def __init__(self, nodes=(), patches=(), corners=()):
        self.nodes = list(nodes)
        self.patches = list(patches)
        self.corners = list(corners)
        self.version = 1
        self.zero = 0
        self.length = None
        self.sections = {}
        self.tail = b""

    def corners_of(self, patch):
        return self.corners[patch.first:patch.first + patch.count]


# --- bytes ---------------------------------------------------------------------------------------

def pack_node(node):
    flat = [part for point in node.points for part in point]
    links = (node.positive, node.negative, node.first, node.count)
    return NODE_POINTS.pack(*flat) + struct.pack("<4H", *links)


def pack_header(scene, sizes):
    pairs, offset = [], HEADER.size
    for name, size in zip(SECTIONS, sizes):
        pairs += scene.sections.get(name, (offset, size))
        offset += size
    length = offset + len(scene.tail) if scene.length is None else scene.length
    return HEADER.pack(scene.version, scene.zero, length, *pairs)


def pack(scene):
    """The bytes of a scene; a Fault where a number does not fit its field."""
    try:
        parts = [b"".join(pack_node(n) for n in scene.nodes),
                 b"".join(PATCH.pack(p.panel, p.first, p.count) for p in scene.patches),
                 b"".join(CORNER.pack(*c) for c in scene.corners)]
        return pack_header(scene, [len(p) for p in parts]) + b"".join(parts) + scene.tail
    except struct.error as error:
        raise Fault("a number does not fit its field: %s" % error) from None


def whole_sections(data):
    """The three (offset, length) pairs, or a Fault that says why they cannot be read."""
    if len(data) < HEADER.size:
        raise Fault("%d bytes are too few for a header" % len(data))
    numbers = HEADER.unpack_from(data)[3:]
    pairs, at = list(zip(numbers[0::2], numbers[1::2])), HEADER.size
    for name, record, (offset, size) in zip(SECTIONS, RECORDS, pairs):
        if offset != at:
            raise Fault("%s begin at %d and not at %d" % (name, offset, at))
        if size % record:
            raise Fault("%s are %d bytes long, no multiple of %d" % (name, size, record))
        at += size
    if at > len(data):
        raise Fault("the sections end at %d, beyond the %d bytes" % (at, len(data)))
    return pairs


def unpack_node(record):
    numbers = NODE_POINTS.unpack_from(record)
    points = [numbers[0:3], numbers[3:6], numbers[6:9]]
    return Node(points, *struct.unpack_from("<4H", record, NODE_POINTS.size))


def unpack(data):
    """The scene that the bytes spell; a Fault where the sections are not in order."""
    pairs = whole_sections(data)
    tables = []
    for (offset, size), record in zip(pairs, RECORDS):
        tables.append([data[at:at + record] for at in range(offset, offset + size, record)])
    scene = Scene([unpack_node(r) for r in tables[0]],
                  [Patch(*PATCH.unpack(r)) for r in tables[1]],
                  [CORNER.unpack(r) for r in tables[2]])
    scene.version, scene.zero, length = HEADER.unpack_from(data)[:3]
    scene.length = None if length == len(data) else length
    scene.tail = data[sum(pairs[2]):]
    return scene


def split_view(data):
    """(view numbers, scene bytes) of an input of `ringbill`."""
    if len(data) < VIEW.size:
        raise Fault("%d bytes are too few for a view" % len(data))
    return VIEW.unpack_from(data), data[VIEW.size:]


def pack_view(numbers):
    for number, low, high in zip(numbers, [-32768] * 3 + [0] * 3, [32767] * 3 + [65535] * 3):
        if not low <= number <= high:
            raise Fault("view: %d is not from %d to %d" % (number, low, high))
    return VIEW.pack(*numbers)


# --- text to bytes -------------------------------------------------------------------------------

def number(word, low, high):
    try:
        value = int(word)
    except ValueError:
        raise Fault("%r is not a whole number" % word) from None
    if not low <= value <= high:
        raise Fault("%d is not from %d to %d" % (value, low, high))
    return value


def i16(word):
    return number(word, -32768, 32767)


def u16(word):
    return number(word, 0, 65535)


def u32(word):
    return number(word, 0, 4294967295)


def point(word):
    parts = word.split(",")
    if len(parts) != 3:
        raise Fault("%r is not a point of three numbers" % word)
    return tuple(i16(p) for p in parts)


def take(words, count, what):
    """Take `count` words off the front."""
    if len(words) < count:
        raise Fault("%s: %d more needed" % (what, count - len(words)))
    taken = words[:count]
    del words[:count]
    return taken


def child(word):
    return NONE if word == "none" else u16(word)


def hexes(words):
    try:
        return bytes.fromhex("".join(words))
    except ValueError:
        raise Fault("not pairs of hex digits") from None


class Builder:
    """Reads lines, gathers a scene and notes which runs are given."""

    def __init__(self):
        self.scene = Scene()
        self.view = None
        self.bytes = None
        self.given = set()
        self.structured = False
        self.node = None

    def line(self, words):
        verb = words.pop(0)
        readers = {"node": self.read_node, "patch": self.read_patch, "corner": self.read_corner,
                   "view": self.read_view, "bytes": self.read_bytes}
        if verb not in ("view", "bytes"):
            self.structured = True
        readers.get(verb, lambda rest: self.read_header(verb, rest))(words)
        if words:
            raise Fault("%r is not understood here" % words[0])

    def read_node(self, words):
        node = Node([point(w) for w in take(words, 3, "points of a node")])
        node.first = len(self.scene.patches)
        while words:
            word = words.pop(0)
            if word in ("positive", "negative"):
                setattr(node, word, child(take(words, 1, word)[0]))
            elif word == "patches":
                node.first, node.count = map(u16, take(words, 2, word))
                self.given.add(node)
            else:
                raise Fault("%r is not understood here" % word)
        self.scene.nodes.append(node)
        self.node = node

    def read_patch(self, words):
        patch = Patch(u16(take(words, 1, "panel")[0]), len(self.scene.corners))
        while words and words[0] != "corners":
            self.scene.corners.append(point(words.pop(0)))
            patch.count += 1
        if words:
            words.pop(0)
            patch.first, patch.count = map(u16, take(words, 2, "corners"))
        self.scene.patches.append(patch)
        if self.node is not None and self.node not in self.given:
            self.node.count += 1

    def read_corner(self, words):
        self.scene.corners += [point(w) for w in words]
        words.clear()

    def read_view(self, words):
        numbers = list(point(take(words, 1, "eye")[0])) + list(map(u16, take(words, 3, "window")))
        self.view = pack_view(numbers)

    def read_bytes(self, words):
        self.bytes = (self.bytes or b"") + hexes(words)
        words.clear()

    def read_header(self, verb, words):
        scene = self.scene
        if verb in ("version", "zero"):
            setattr(scene, verb, u16(take(words, 1, verb)[0]))
        elif verb == "length":
            scene.length = u32(take(words, 1, verb)[0])
        elif verb == "tail":
            scene.tail += hexes(words)
            words.clear()
        elif verb.endswith("-at") and verb[:-3] in SECTIONS:
            scene.sections[verb[:-3]] = tuple(map(u32, take(words, 2, verb)))
        else:
            raise Fault("a line cannot begin with %r" % verb)

    def result(self):
        if self.bytes is not None and self.structured:
            raise Fault("`bytes` stands alone: no node, patch, corner or header line beside it")
        return (self.view or b"") + (pack(self.scene) if self.bytes is None else self.bytes)


def build(text):
    """The bytes that a text spells."""
    builder = Builder()
    for place, line in enumerate(text.splitlines(), 1):
        words = line.split("#", 1)[0].split()
        try:
            if words:
                builder.line(words)
        except Fault as fault:
            raise Fault("line %d: %s" % (place, fault)) from None
    return builder.result()


# --- bytes to text -------------------------------------------------------------------------------

def point_text(where):
    return "%d,%d,%d" % tuple(where)


def hex_lines(word, data):
    return ["%s %s" % (word, data[at:at + 32].hex(" ", 2)) for at in range(0, len(data), 32)]


def node_text(node, place, given):
    words = ["node"] + [point_text(p) for p in node.points]
    for name in ("positive", "negative"):
        if getattr(node, name) != NONE:
            words += [name, str(getattr(node, name))]
    if given:
        words += ["patches %d %d" % (node.first, node.count)]
    return " ".join(words) + "  # node %d" % place


class Shower:
    """Writes a scene's lines, each patch below its node and each corner on its patch's line."""

    def __init__(self, scene):
        self.scene = scene
        self.lines = []
        self.patch = 0
        self.corner = 0

    def follows(self, run, at, size):
        return run.first == at and at + run.count <= size

    def show_patches(self, count):
        for place in range(self.patch, self.patch + count):
            patch = self.scene.patches[place]
            words = "  patch %d " % patch.panel
            if self.follows(patch, self.corner, len(self.scene.corners)):
                words += "".join(" " + point_text(c) for c in self.scene.corners_of(patch))
                self.corner += patch.count
            else:
                words += " corners %d %d" % (patch.first, patch.count)
            self.lines.append(words + "  # patch %d" % place)
        self.patch += count

    def show_node(self, place):
        node, size = self.scene.nodes[place], len(self.scene.patches)
        plain = self.follows(node, self.patch, size)
        count = node.count if plain else 0
        if place == len(self.scene.nodes) - 1 and self.patch + count < size:
            plain, count = False, size - self.patch     # patches that no run reaches
        self.lines.append(node_text(node, place, not plain))
        self.show_patches(count)

    def show_header(self):
        if self.scene.version != 1:
            self.lines.append("version %d" % self.scene.version)
        if self.scene.zero != 0:
            self.lines.append("zero %d" % self.scene.zero)
        if self.scene.length is not None:
            self.lines.append("length %d" % self.scene.length)

    def text(self):
        scene = self.scene
        self.show_header()
        if not scene.nodes:
            self.show_patches(len(scene.patches))
        for place in range(len(scene.nodes)):
            self.show_node(place)
        for place in range(self.corner, len(scene.corners)):
            self.lines.append("corner %s  # corner %d" % (point_text(scene.corners[place]), place))
        return self.lines + hex_lines("tail", scene.tail)


def raw_lines(data, reason):
    lines = ["# not written as records: %s" % reason]
    if len(data) >= HEADER.size:
        numbers = HEADER.unpack_from(data)
        lines.append("# version %d, zero %d, length %d of %d bytes" % (numbers[:3] + (len(data),)))
        lines.append("# nodes at %d, %d bytes; patches at %d, %d; corners at %d, %d" % numbers[3:])
    return lines + (hex_lines("bytes", data) or ["bytes"])


def scene_lines(data):
    try:
        return Shower(unpack(data)).text()
    except Fault as reason:
        return raw_lines(data, reason)


def show(data, with_view=False):
    """The text of a scene's bytes, or of a view and a scene."""
    lines = []
    if with_view:
        numbers, data = split_view(data)
        lines.append("view %s %d %d %d" % ((point_text(numbers[:3]),) + numbers[3:]))
    return "".join(line + "\n" for line in lines + scene_lines(data))


# --- commands ------------------------------------------------------------------------------------

def read_file(name):
    if name == "-":
        return sys.stdin.buffer.read()
    with open(name, "rb") as file:
        return file.read()


def write_file(name, data):
    if name == "-":
        sys.stdout.buffer.write(data)
        return
    with open(name, "wb") as file:
        file.write(data)


def take_option(words, option, count, what):
    """Take an option and the words after it out of a command's words; None where not given."""
    if option not in words:
        return None
    at = words.index(option)
    rest = words[at + 1:]
    taken = take(rest, count, "%s after %s" % (what, option))
    words[at:] = rest
    return taken


def take_word(words, word):
    """Take an option of one word out of a command's words: does it stand there?"""
    given = word in words
    if given:
        words.remove(word)
    return given


def take_axes(words):
    """Take the option AXES out of a command's words: right, forward, up; level where not given."""
    taken = take_option(words, "--axes", 9, "numbers")
    if taken is None:
        return LEVEL
    parts = [i16(word) for word in taken]
    return tuple(parts[0:3]), tuple(parts[3:6]), tuple(parts[6:9])


def double(word):
    try:
        # Python's own grouping of digits is no form of a number elsewhere.
        return float("" if "_" in word else word)
    except ValueError:
        raise Fault("%r is not a number" % word) from None


def take_metres(words):
    """Take the option STATION out of a command's words: three doubles; None where not given."""
    taken = take_option(words, "--metres", 3, "numbers")
    return None if taken is None else tuple(double(word) for word in taken)


def view_numbers(station, numbers):
    """The six numbers of a view: as they stand, or those of a station in metres and a window."""
    if len(numbers) != (6 if station is None else 3):
        raise Fault("a view is an eye of three numbers, width, height and lens")
    try:
        return list(metres.whole_station(station) if station else ()) + list(numbers)
    except metres.Out as out:
        raise Fault("no view for what is refused with 15: %s" % out) from None


def arguments(words):
    parser = argparse.ArgumentParser(description="Lining scenes as text and as bytes.")
    commands = parser.add_subparsers(dest="command", required=True)
    build_it = commands.add_parser("build", help="text to bytes")
    show_it = commands.add_parser("show", help="bytes to text")
    show_it.add_argument("--view", action="store_true", help="the file begins with a view")
    view_it = commands.add_parser("view", help="put the 12-byte view before a scene")
    for command in (build_it, show_it, view_it):
        command.add_argument("source")
    build_it.add_argument("target")
    show_it.add_argument("target", nargs="?", default="-")
    view_it.add_argument("target")
    view_it.add_argument("numbers", type=int, nargs="+", metavar="NUMBER",
                         help="X Y Z, or --metres X Y Z, then WIDTH HEIGHT LENS")
    return parser.parse_args(words)


def run(options, station):
    data = read_file(options.source)
    if options.command == "build":
        return build(data.decode("utf-8"))
    if options.command == "show":
        return show(data, options.view).encode("utf-8")
    return pack_view(view_numbers(station, options.numbers)) + data


def main():
    words = sys.argv[1:]
    try:
        station = take_metres(words) if words[:1] == ["view"] else None
        options = arguments(words)
        write_file(options.target, run(options, station))
    except (Fault, OSError, UnicodeDecodeError) as fault:
        sys.exit("scene.py: %s" % fault)


if __name__ == "__main__":
    main()
