#!/usr/bin/env python3
"""Are two scenes two cuttings of one ring? Does each panel cover the same points in both?

    cover.py FIRST.view SECOND.view            views and scenes, as `ringbill` reads them
    cover.py --scene FIRST.scene SECOND.scene  scenes alone

Questions 1 to 9 are asked of both scenes; what a panel covers does not hang on the eye and window
in front, so these are not asked about. A panel covers the points of its pieces, edges and corners
counted in, whatever the pieces are: they may overlap, stand twice, be turned round or lie in other
nodes. A panel without a piece covers nothing.

Prints `the same points: N panels`, or a line for each panel that differs, with a point in whole
numbers and fractions which that panel covers in the one scene and not in the other. It is a
decision in whole numbers and fractions; no point is sampled or rounded. Ends with 0 where the
points are the same and with 1 where they differ; with 2 where there is no answer, as a scene is
refused (`the first: refused N` and in words what was found) or a file cannot be read. Examples:

    $ ring.py one.scene && ring.py other.scene --tree halves
    $ cover.py --scene one.scene other.scene
    the same points: 112 panels
    $ ring.py less.scene --without 3
    $ cover.py --scene one.scene less.scene
    panel 3: only the first covers -495,150,-647/2

How it is decided. What a panel covers in a plane is bounded by the segments of its pieces' edges
that have no piece on their other side: its outline, each segment with the side that the panel is
on. Pieces have their edges and an area, so beside a point that only one scene covers lies an area
that only this one covers. A way from there to a place far off, which neither covers, through no
corner, crosses a segment that with its side is in one outline alone. So the points are the same
exactly where the outlines are, plane by plane; and just beside a segment of one outline alone lies
a point to show. Pieces in other planes cannot cover an area of this one. The work is done within
each scene, and joints inside a panel fall away first, so that many small pieces in both cost
little. Boxes around pieces are rounded outward, and only leave out pieces that are too far away.
"""

import collections
import itertools
import math
import sys
from fractions import Fraction

sys.dont_write_bytecode = True
import gate  # noqa: E402
import scene as scenes  # noqa: E402
from gate import cross, dot, minus, normal, side  # noqa: E402

NAMES = ("first", "second")


# --- planes and lines ----------------------------------------------------------------------------
#
# Points of a plane are told apart by two of their three parts, and are written flat: (x, y, 1). A
# line of the plane is three numbers whose product with a flat point is 0 on the line, and above 0
# on the side called 0. A place on a line is told by one number, its position.

def primitive(numbers):
    """The numbers without a shared factor, the first that is not 0 above 0: the same three for all
    normals of a plane, and for all edges along a line.
    """
    shared = math.gcd(*numbers) * (1 if numbers > (0, 0, 0) else -1)
    return tuple(number // shared for number in numbers)


def plane_of(corners):
    """(normal, its product with each point), the same for all patches of a plane."""
    across = primitive(normal(*corners[:3]))
    return across, dot(across, corners[0])


def steep_axis(plane):
    """A part which the other two decide for each point of the plane."""
    return next(axis for axis in range(3) if plane[0][axis])


def flat(point, axis):
    return point[:axis] + point[axis + 1:] + (1,)


def in_space(place, plane):
    """The point of a plane that is written so when it is written flat."""
    across, product = plane
    axis = steep_axis(plane)
    point = list(place[:2])
    point.insert(axis, 0)
    point[axis] = Fraction(product - dot(across, point), across[axis])
    return tuple(point)


def trace(plane, other):
    """The line in which another plane meets this one; two numbers 0 where they are parallel."""
    axis = steep_axis(plane)
    (n, product), (m, level) = plane, other
    one, two = (m[k] * n[axis] - m[axis] * n[k] for k in range(3) if k != axis)
    return one, two, m[axis] * product - level * n[axis]


def position(line, place):
    return place[0] if line[1] else place[1]


def place_on(line, at):
    """The flat point of a line at this position."""
    a, b, c = line
    return (at, Fraction(-c - a * at, b), 1) if b else (Fraction(-c, a), at, 1)


# --- segments of a line --------------------------------------------------------------------------
#
# Pairs of two positions, the lower first. Their ends do not count: two segments that touch are
# one, and a single place is none.

def joined(segments):
    """The same places of a line, as segments in order that do not touch."""
    found = []
    for start, end in sorted(segments):
        if found and start <= found[-1][1]:
            found[-1] = (found[-1][0], max(found[-1][1], end))
        else:
            found.append((start, end))
    return found


def less(segments, gone):
    """What is left when others are taken away; both in order and not touching."""
    left, passed = [], 0
    for start, end in segments:
        while passed < len(gone) and gone[passed][1] <= start:
            passed += 1
        for low, high in itertools.takewhile(lambda other: other[0] < end,
                                             itertools.islice(gone, passed, None)):
            if low > start:
                left.append((start, low))
            start = high
        if start < end:
            left.append((start, end))
    return left


# --- pieces --------------------------------------------------------------------------------------

def box(places):
    """The least upright box in whole numbers around places: left, right, bottom, top."""
    across, up, _ = zip(*places)
    return (math.floor(min(across)), math.ceil(max(across)),
            math.floor(min(up)), math.ceil(max(up)))


class Piece:
    """A patch as it lies in its plane, flat and with its inside left of each edge."""

    def __init__(self, corners):
        self.corners = corners
        self.plane = plane_of(corners)
        places = [flat(corner, steep_axis(self.plane)) for corner in corners]
        self.places = places if dot(cross(*places[:2]), places[2]) > 0 else places[::-1]
        self.box = box(places)

    def edges(self):
        """(line, which side of it the piece is on, segment) of each edge."""
        found = []
        for p, q in zip(self.places, self.places[1:] + self.places[:1]):
            edge = cross(p, q)
            line = primitive(edge)
            ends = sorted((position(line, p), position(line, q)))
            found.append((line, 0 if edge > (0, 0, 0) else 1, tuple(ends)))
        return found

    def inner_segment(self, line):
        """[the segment of a line in the piece] where the piece is on both sides of it; else []."""
        sides = [dot(line, place) for place in self.places]
        if not min(sides) < 0 < max(sides):
            return []
        met = []
        for k, place in enumerate(self.places):
            here, before = position(line, place), position(line, self.places[k - 1])
            if sides[k] == 0:
                met.append(here)
            elif sides[k] * sides[k - 1] < 0:
                met.append(Fraction(before * sides[k] - here * sides[k - 1],
                                    sides[k] - sides[k - 1]))
        return [(min(met), max(met))]

    def covers(self, point):
        """"its pieces' edges and corners counted in": in the plane, and on the inner side of every
        edge or on it. Straight from the corners in space, so that a witness is held to the rule.
        """
        if side(*self.corners[:3], point) != 0:
            return False
        n, turned = normal(*self.corners[:3]), self.corners[1:] + self.corners[:1]
        return all(dot(n, cross(minus(w, v), minus(point, v))) >= 0
                   for v, w in zip(self.corners, turned))


def pieces_of(scene):
    """Each panel's pieces."""
    panels = collections.defaultdict(list)
    for patch in scene.patches:
        panels[patch.panel].append(Piece(scene.corners_of(patch)))
    return panels


# --- outlines ------------------------------------------------------------------------------------

def near_ones(line, start, end, pieces):
    """The pieces that may reach a segment of a line, by the boxes around them."""
    left, right, bottom, top = box([place_on(line, start), place_on(line, end)])
    return [piece for piece in pieces
            if piece.box[0] <= right and left <= piece.box[1]
            and piece.box[2] <= top and bottom <= piece.box[3]]


def outer(line, segments, pieces):
    """The segments of a line less what is inside a piece that lies on both sides of it. A few
    pieces first, then twice as many: where many overlap, a few often hide all.
    """
    near, count = near_ones(line, segments[0][0], segments[-1][1], pieces), 8
    while near and segments:
        gone = [segment for piece in near[:count] for segment in piece.inner_segment(line)]
        segments = less(segments, joined(gone))
        near, count = near[count:], 2 * count
    return segments


def outline(pieces):
    """{(line, side): segments} of pieces in one plane: where they end, and on which side of the
    line they are there. Where edges of two pieces lie against each other neither ends.
    """
    edges = collections.defaultdict(lambda: ([], []))
    for piece in pieces:
        for line, which, segment in piece.edges():
            edges[line][which].append(segment)
    found = {}
    for line, (ones, others) in edges.items():
        ones, others = joined(ones), joined(others)
        for which, segments in enumerate((less(ones, others), less(others, ones))):
            segments = segments and outer(line, segments, pieces)
            if segments:
                found[line, which] = segments
    return found


def segment_alone(one, other):
    """(line, side, segment) of the one outline that is not of the other, or None."""
    for (line, which), segments in one.items():
        left = less(segments, other.get((line, which), []))
        if left:
            return line, which, left[0]
    return None


# --- a point to show -----------------------------------------------------------------------------

def lines_beside(line, plane, pieces):
    """All other lines of the plane that a piece may end on: edges in it, and other planes."""
    lines = {primitive(trace(plane, other)) for other in {piece.plane for piece in pieces} - {plane}
             if any(trace(plane, other)[:2])}
    for piece in pieces:
        if piece.plane == plane:
            lines.update(edge for edge, _, _ in piece.edges())
    return lines - {line}


def free_step(place, way, lines):
    """How far one can go from a place this way, and back from it, without meeting a line: half as
    far as the nearest line is; 0 where a line passes through the place.
    """
    sides = [(abs(dot(line, place)), abs(dot(line, way))) for line in lines]
    if not all(far for far, _ in sides):
        return 0
    return min((Fraction(far, rate) for far, rate in sides if rate), default=2) / Fraction(2)


def beside(found, plane, pieces):
    """Two points on the two sides of a segment with nothing between but the segment: first the one
    on the side named. Each other line passes through one place of the segment at most, so one of so
    many places is off them all.
    """
    line, which, (start, end) = found
    lines = lines_beside(line, plane, pieces)
    way = (1, 0, 0) if line[0] else (0, 1, 0)
    for k in range(1, len(lines) + 2):
        place = place_on(line, start + (end - start) * Fraction(k, k + 1))
        step = free_step(place, way, lines)
        if step:
            break
    return [in_space(tuple(p + turn * step * w for p, w in zip(place, way)), plane)
            for turn in ((1, -1) if which == 0 else (-1, 1))]


def covered(pieces, point):
    return any(piece.covers(point) for piece in pieces)


def witness(found, which, plane, both):
    """(scene, point that it alone covers) beside a segment of the outline of scene `which` alone.
    This scene covers the inner side and not the outer one; the other does not do the same.
    """
    for place, point in zip((which, 1 - which), beside(found, plane, both[0] + both[1])):
        if covered(both[place], point) and not covered(both[1 - place], point):
            return place, point
    raise AssertionError("no point to show beside a segment of one outline alone")


def by_plane(pieces):
    planes = collections.defaultdict(list)
    for piece in pieces:
        planes[piece.plane].append(piece)
    return planes


def difference(first, second):
    """(0 or 1, a point that only this one's pieces cover), or None where they cover the same."""
    ones, others = by_plane(first), by_plane(second)
    for plane in sorted({*ones, *others}):
        outlines = outline(ones[plane]), outline(others[plane])
        for which in (0, 1):
            found = segment_alone(outlines[which], outlines[1 - which])
            if found:
                return witness(found, which, plane, (first, second))
    return None


def compare(first, second):
    """{panel: None, or (0 or 1, a point that this scene's panel alone covers)} of two scenes."""
    ones, others = pieces_of(first), pieces_of(second)
    return {panel: difference(ones[panel], others[panel]) for panel in sorted({*ones, *others})}


# --- the command ---------------------------------------------------------------------------------

def difference_line(panel, which, point):
    return "panel %d: only the %s covers %s" % (panel, NAMES[which], ",".join(map(str, point)))


def report(found):
    """The lines to print."""
    lines = [difference_line(panel, *told) for panel, told in found.items() if told]
    return lines or ["the same points: %d panels" % len(found)]


def no_answer(words):
    print(words, file=sys.stderr)
    sys.exit(2)


def read_scene(which, name, alone):
    """The scene of a file, if questions 1 to 9 all say yes; else the end."""
    data = scenes.read_file(name)
    try:
        return gate.check_scene(data if alone else data[scenes.VIEW.size:])
    except gate.No as no:
        print("the %s: %s" % (which, no))
        sys.exit(2)


def run(words):
    alone = words[:1] == ["--scene"]
    names = words[1:] if alone else words
    if len(names) != 2 or names == ["-", "-"]:
        no_answer("usage: cover.py FIRST.view SECOND.view\n"
                  "       cover.py --scene FIRST.scene SECOND.scene")
    return compare(*(read_scene(which, name, alone) for which, name in zip(NAMES, names)))


def main():
    try:
        found = run(sys.argv[1:])
    except OSError as fault:
        no_answer("cover.py: %s" % fault)
    print("\n".join(report(found)))
    sys.exit(1 if any(found.values()) else 0)


if __name__ == "__main__":
    main()
