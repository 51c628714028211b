#!/usr/bin/env python3
"""Makes sample rings: a tunnel lining of concrete segments with its tree of planes.

    ring.py OUT [--rings N] [--segments N] [--facets N] [--radius N] [--length N] [--turn N]
                [--bend N] [--seed N] [--tree chain|halves|walls] [--cut none|across|diagonal]
                [--without P,P,...] [--drop N] [--view X Y Z WIDTH HEIGHT LENS]

The lining is a row of rings along the bore. A ring is --segments segments of --facets flat quads
each, and a key of one quad; each segment and each key is a panel. A quad has two corners on the
ring's near edge and the same two moved along the bore on its far edge, so it is a parallelogram
and flat in whole numbers. Every second ring is turned by --turn facets, so that joints are
staggered and yet no gap is left; ring k leans k times --bend to the right over its length, so
that the bore curves. Lengths are in units of 5 mm.

--seed 0 numbers the panels from 1 along the bore; another seed draws their numbers from 1 to
1,024. --tree changes the tree and nothing else:
    chain   planes across the bore between rings, then a ring's faces one below the other
    halves  the same across the bore, then planes through two joints that halve a ring's faces
    walls   the faces' planes for all rings at once, many patches to a node (needs --bend 0)
--cut changes the pieces that a panel is cut into and not the points that it covers:
    none      each quad is one patch
    across    each is cut in two halfway along the bore (needs an even --length and --bend)
    diagonal  each is cut into two triangles
--without takes the named panels away, --drop a number of them drawn by the seed.

OUT is written as text where its name ends in .txt, and as bytes otherwise; with --view the view
stands before the scene, its eye in units; `--view --metres X Y Z WIDTH HEIGHT LENS` tells the eye
in metres, and the view holds the whole-number station that it becomes. Nothing is written that the
questions of gate.py refuse. Example:

    $ ring.py samples/ring.view --view 0 20 0 256 128 160
    112 panels, 304 patches, 319 nodes
"""

import argparse
import math
import random
import sys

sys.dont_write_bytecode = True
import gate  # noqa: E402
import scene as scenes  # noqa: E402


class Face:
    """One quad of the lining: its panel, its ring, its corners."""

    def __init__(self, panel, ring, corners):
        self.panel = panel
        self.ring = ring
        self.corners = corners


# --- the lining ----------------------------------------------------------------------------------

def circle(radius, count):
    """Whole-number points around the axis, counted from the crown."""
    angles = [2 * math.pi * k / count + math.pi / 2 for k in range(count)]
    return [(round(radius * math.cos(a)), round(radius * math.sin(a))) for a in angles]


def quad(one, other, right, forward, lean, length):
    """The parallelogram between two points of a ring's near edge and its far edge."""
    near = [(x + right, forward, z) for x, z in (one, other)]
    far = [(x + lean, y + length, z) for x, y, z in near]
    return [near[0], near[1], far[1], far[0]]


def panel_numbers(count, seed):
    if count > gate.PANELS:
        raise scenes.Fault("%d panels, more than %d" % (count, gate.PANELS))
    if seed == 0:
        return list(range(1, count + 1))
    return random.Random(seed).sample(range(1, gate.PANELS + 1), count)


def ring_faces(shape, ring, right, panels):
    """The faces of one ring whose near edge is centred at `right`, the key's last."""
    count = shape.segments * shape.facets + 1
    points = circle(shape.radius, count)
    faces = []
    for facet in range(count):
        place = (facet + shape.turn * (ring % 2)) % count
        ends = points[place], points[(place + 1) % count]
        corners = quad(*ends, right, ring * shape.length, shape.bend * ring, shape.length)
        panel = panels[ring * (shape.segments + 1) + facet // shape.facets]
        faces.append(Face(panel, ring, corners))
    return faces


def lining(shape):
    """All faces, ring after ring."""
    panels = panel_numbers(shape.rings * (shape.segments + 1), shape.seed)
    faces, right = [], 0
    for ring in range(shape.rings):
        faces += ring_faces(shape, ring, right, panels)
        right += shape.bend * ring
    return faces


def taken_away(shape, faces):
    """The faces left when the chosen panels are gone."""
    gone = set(shape.without)
    kept = sorted({face.panel for face in faces} - gone)
    gone |= set(random.Random(shape.seed).sample(kept, min(shape.drop, len(kept))))
    return [face for face in faces if face.panel not in gone]


# --- the tree ------------------------------------------------------------------------------------

def plane_across(forward):
    """Across the bore, its positive side ahead."""
    return [(0, forward, 0), (0, forward, 1), (1, forward, 0)]


def plane_through(one, other):
    """Through the near joints at which two faces of one ring begin, along the bore."""
    return [one.corners[0], other.corners[0], one.corners[3]]


def halfway(one, other):
    """The middle of a side along the bore."""
    sums = [a + b for a, b in zip(one, other)]
    if any(total % 2 for total in sums):
        raise scenes.Fault("--cut across needs an even --length and --bend")
    return tuple(total // 2 for total in sums)


def pieces(cut, corners):
    """A quad as it is cut: all pieces lie in its plane."""
    one, two, three, four = corners
    if cut == "diagonal":
        return [[one, two, three], [one, three, four]]
    if cut == "across":
        left, right = halfway(one, four), halfway(two, three)
        return [[one, two, right, left], [left, right, three, four]]
    return [corners]


def choose_plane(form, faces):
    rings = sorted({face.ring for face in faces})
    if form != "walls" and len(rings) > 1:
        middle = rings[len(rings) // 2]
        return plane_across(min(f.corners[0][1] for f in faces if f.ring == middle))
    if form == "halves" and len(faces) > 1:
        return plane_through(faces[0], faces[len(faces) // 2])
    return faces[0].corners[:3]


def divide(plane, faces):
    """The faces on the plane, before it and behind it; one that it cuts the gate will refuse."""
    parts = {0: [], 1: [], -1: []}
    for face in faces:
        sides = [gate.side(*plane, corner) for corner in face.corners]
        parts[(max(sides) > 0) - (min(sides) < 0)].append(face)
    return parts[0], parts[1], parts[-1]


def plant(shape, faces, scene):
    """Add the nodes, patches and corners of these faces; the number of the topmost node."""
    if not faces:
        return scenes.NONE
    plane = choose_plane(shape.tree, faces)
    own, before, behind = divide(plane, faces)
    node = scenes.Node(plane, first=len(scene.patches))
    place = len(scene.nodes)
    scene.nodes.append(node)
    for face in sorted(own, key=lambda face: face.panel):
        for corners in pieces(shape.cut, face.corners):
            scene.patches.append(scenes.Patch(face.panel, len(scene.corners), len(corners)))
            scene.corners += corners
    node.count = len(scene.patches) - node.first
    node.positive = plant(shape, before, scene)
    node.negative = plant(shape, behind, scene)
    return place


def make(shape):
    """The scene of a shape, sure to pass the questions on scenes."""
    if shape.tree == "walls" and shape.bend:
        raise scenes.Fault("--tree walls needs --bend 0")
    scene = scenes.Scene()
    plant(shape, taken_away(shape, lining(shape)), scene)
    try:
        gate.check_scene(scenes.pack(scene))
    except gate.No as no:
        raise scenes.Fault("this shape makes no legal scene: %s" % no) from None
    return scene


# --- the command ---------------------------------------------------------------------------------

def numbers(word):
    return [int(part) for part in word.split(",") if part]


def at_least(low):
    def read(word):
        value = int(word)
        if value < low:
            raise argparse.ArgumentTypeError("must be %d or more" % low)
        return value
    return read


def arguments(words, station=None):
    parser = argparse.ArgumentParser(description="Makes a sample ring.")
    parser.add_argument("out")
    for name, low, value in (("rings", 1, 16), ("segments", 3, 6), ("facets", 1, 3),
                             ("radius", 1, 600), ("length", 1, 300), ("seed", 0, 0),
                             ("drop", 0, 0)):
        parser.add_argument("--" + name, type=at_least(low), default=value)
    parser.add_argument("--turn", type=int, default=4)
    parser.add_argument("--bend", type=int, default=20)
    parser.add_argument("--tree", choices=("chain", "halves", "walls"), default="chain")
    parser.add_argument("--cut", choices=("none", "across", "diagonal"), default="none")
    parser.add_argument("--without", type=numbers, default=[])
    # The eye and the window; after --metres the window alone.
    parser.add_argument("--view", type=int, nargs=6 if station is None else 3)
    return parser.parse_args(words)


def written(shape, scene):
    data = scenes.pack(scene)
    if shape.view:
        data = scenes.pack_view(shape.view) + data
    if shape.out.endswith(".txt"):
        return scenes.show(data, bool(shape.view)).encode("utf-8")
    return data


def main():
    words = sys.argv[1:]
    try:
        station = scenes.take_metres(words)
        shape = arguments(words, station)
        if shape.view or station:
            shape.view = scenes.view_numbers(station, shape.view or ())
        scene = make(shape)
        scenes.write_file(shape.out, written(shape, scene))
    except (scenes.Fault, OSError) as fault:
        sys.exit("ring.py: %s" % fault)
    panels = len({patch.panel for patch in scene.patches})
    print("%d panels, %d patches, %d nodes" % (panels, len(scene.patches), len(scene.nodes)),
          file=sys.stderr)


if __name__ == "__main__":
    main()
