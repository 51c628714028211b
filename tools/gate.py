#!/usr/bin/env python3
"""The gate's questions on a scene (1 to 9) and on a view (15, 10, 14), asked slowly and one by one.

    gate.py [--tile LEFT TOP WIDTH HEIGHT | --tiles] [--metres X Y Z]
            [--axes RX RY RZ FX FY FZ UX UY UZ] IN.view
                              a view and a scene, as `ringbill` reads them
    gate.py --scene IN.scene  a scene alone: questions 1 to 9

--axes turns the camera: its vectors right, forward and up, which question 14 is about. Without
it the view is level, (1,0,0), (0,1,0), (0,0,1), as it is for `ringbill`. --metres puts a station
of three doubles in metres in the place of the view's eye, which question 15 is about. --tile asks
for one tile of the window: the column and row of its top left cell, and its size; --tiles for all
tiles of a window up to 1,024 by 512. Without them the window is one tile, as it is for `ringbill`,
and question 10 refuses one above 256 by 128.

Prints `accepted`, or `refused N` and in words what was found. Questions 11 and 12 are about the
caller's buffers and counter and are not asked here. Examples:

    $ gate.py samples/ring.view
    accepted
    $ gate.py --axes 1 0 0 0 1 0 0 2 0 samples/ring.view
    refused 14: right · (forward × up) is 0, not above 0
    $ gate.py --metres 0 nan 0 samples/ring.view
    refused 15: y of the eye is nan metres, which is not finite
    $ gate.py --tile 200 0 57 128 samples/ring.view
    refused 10: the tile ends at column 257 of 256
"""

import sys

sys.dont_write_bytecode = True
import metres  # noqa: E402
import scene as scenes  # noqa: E402
import tiles  # noqa: E402

SHORTEST, LONGEST = 32, 57376
MOST = (1024, 1024, 4096)
REACH = 10000
PART = 100
PANELS = 1024
WINDOW = (("width", 1024), ("height", 512), ("lens", 4096))
TILE = (("tile width", tiles.MOST_WIDE), ("tile height", tiles.MOST_HIGH))


class No(Exception):
    """A question answered no: its number and what was found."""

    def __init__(self, question, found):
        super().__init__("refused %d: %s" % (question, found))
        self.question = question
        self.found = found


# --- vectors -------------------------------------------------------------------------------------

def minus(p, q):
    return (p[0] - q[0], p[1] - q[1], p[2] - q[2])


def dot(u, v):
    return u[0] * v[0] + u[1] * v[1] + u[2] * v[2]


def cross(u, v):
    return (u[1] * v[2] - u[2] * v[1], u[2] * v[0] - u[0] * v[2], u[0] * v[1] - u[1] * v[0])


def normal(a, b, c):
    return cross(minus(b, a), minus(c, a))


def side(a, b, c, p):
    """Above 0 on the positive side of the plane a, b, c; below 0 on the negative; 0 on it."""
    return dot(minus(p, a), normal(a, b, c))


# --- questions 1 to 9 ----------------------------------------------------------------------------

def ask_1(data):
    if not SHORTEST <= len(data) <= LONGEST:
        raise No(1, "%d bytes, not %d to %d" % (len(data), SHORTEST, LONGEST))
    version, zero, length = scenes.HEADER.unpack_from(data)[:3]
    if version != 1:
        raise No(1, "version %d" % version)
    if zero != 0:
        raise No(1, "the zero field is %d" % zero)
    if length != len(data):
        raise No(1, "length %d of %d bytes" % (length, len(data)))


def ask_2(data):
    try:
        pairs = scenes.whole_sections(data)
    except scenes.Fault as fault:
        raise No(2, str(fault)) from None
    if sum(pairs[2]) != len(data):
        raise No(2, "the sections end at %d, not at %d" % (sum(pairs[2]), len(data)))
    for name, (_, size), record, most in zip(scenes.SECTIONS, pairs, scenes.RECORDS, MOST):
        if size // record > most:
            raise No(2, "%d %s, more than %d" % (size // record, name, most))


def ask_3(scene):
    for place, node in enumerate(scene.nodes):
        for point in node.points:
            if max(map(abs, point)) > REACH:
                raise No(3, "node %d has the point %s" % (place, scenes.point_text(point)))
    for place, corner in enumerate(scene.corners):
        if max(map(abs, corner)) > REACH:
            raise No(3, "corner %d is %s" % (place, scenes.point_text(corner)))


def ask_4(scene):
    for place, node in enumerate(scene.nodes):
        if normal(*node.points) == (0, 0, 0):
            raise No(4, "node %d: three points on one line" % place)


def ask_5(scene):
    named = [0] * len(scene.nodes)
    for place, node in enumerate(scene.nodes):
        for child in (node.positive, node.negative):
            if child == scenes.NONE:
                continue
            if not place < child < len(scene.nodes):
                raise No(5, "node %d names %d as its child" % (place, child))
            named[child] += 1
    for place, times in enumerate(named[1:], 1):
        if times != 1:
            raise No(5, "node %d is named %d times" % (place, times))


def ask_run(what, runs, size):
    """Do the runs follow each other from 0 and use all `size` records?"""
    at = 0
    for place, run in enumerate(runs):
        if run.first != at:
            raise No(6, "the run of %s %d begins at %d, not %d" % (what, place, run.first, at))
        at += run.count
    if at != size:
        raise No(6, "the runs of all %s records use %d, not %d" % (what, at, size))


def ask_6(scene):
    ask_run("node", scene.nodes, len(scene.patches))
    ask_run("patch", scene.patches, len(scene.corners))
    for place, patch in enumerate(scene.patches):
        if not 3 <= patch.count <= 8:
            raise No(6, "patch %d has %d corners" % (place, patch.count))


def own_patches(scene, node):
    return scene.patches[node.first:node.first + node.count]


def ask_7(scene):
    for place, patch in enumerate(scene.patches):
        if not 1 <= patch.panel <= PANELS:
            raise No(7, "patch %d has panel %d" % (place, patch.panel))
    for place, node in enumerate(scene.nodes):
        panels = [patch.panel for patch in own_patches(scene, node)]
        for one, next_one in zip(panels, panels[1:]):
            if next_one < one:
                raise No(7, "node %d: panel %d after %d" % (place, next_one, one))


def is_flat(corners):
    return all(side(*corners[:3], corner) == 0 for corner in corners)


def is_strictly_convex(corners):
    """Is each corner off an edge strictly inside that edge?"""
    n, count = normal(*corners[:3]), len(corners)
    for k in range(count):
        v, w = corners[k], corners[(k + 1) % count]
        for other in range(count):
            if other in (k, (k + 1) % count):
                continue
            if dot(n, cross(minus(w, v), minus(corners[other], v))) <= 0:
                return False
    return True


def ask_8(scene):
    for place, patch in enumerate(scene.patches):
        corners = scene.corners_of(patch)
        if not is_flat(corners):
            raise No(8, "patch %d is not flat" % place)
        if not is_strictly_convex(corners):
            raise No(8, "patch %d is not strictly convex" % place)


def on_its_side(points, corners, sign):
    """All corners on the plane (sign 0), or none beyond it and one off it."""
    sides = [side(*points, corner) for corner in corners]
    if sign == 0:
        return all(number == 0 for number in sides)
    return all(number * sign >= 0 for number in sides) and any(sides)


def ask_9_of(scene, place, above):
    """The node's patches against its own plane and all (number, points, sign) above it."""
    points = scene.nodes[place].points
    for patch in own_patches(scene, scene.nodes[place]):
        corners = scene.corners_of(patch)
        for number, plane, sign in above + [(place, points, 0)]:
            if not on_its_side(plane, corners, sign):
                raise No(9, "patch of panel %d in node %d is not %s the plane of node %d"
                         % (patch.panel, place, ("on", "before", "behind")[sign], number))


def ask_9(scene):
    waiting = [(0, [])] if scene.nodes else []
    while waiting:
        place, above = waiting.pop()
        ask_9_of(scene, place, above)
        node = scene.nodes[place]
        for child, sign in ((node.positive, 1), (node.negative, -1)):
            if child != scenes.NONE:
                waiting.append((child, above + [(place, node.points, sign)]))


def check_scene(data):
    """The scene, if questions 1 to 9 all say yes; else No."""
    ask_1(data)
    ask_2(data)
    scene = scenes.unpack(data)
    for ask in (ask_3, ask_4, ask_5, ask_6, ask_7, ask_8, ask_9):
        ask(scene)
    return scene


# --- questions 15, 10 and 14 ---------------------------------------------------------------------

def check_station(eye, station):
    """The eye: in units as it stands, or a station in metres as the whole numbers it becomes."""
    if station is None:
        return eye
    try:
        return metres.whole_station(station)
    except metres.Out as out:
        raise No(15, str(out)) from None


def check_sizes(limits, sizes):
    for (name, most), number in zip(limits, sizes):
        if not 1 <= number <= most:
            raise No(10, "%s %d, not 1 to %d" % (name, number, most))


def check_tile(view, tile):
    """Has the tile a cell, is it no larger than a tile may be, and wholly inside the window?"""
    check_sizes(TILE, tile[2:])
    for name, first, size, most in zip(("column", "row"), tile[:2], tile[2:], view[3:5]):
        if first + size > most:
            raise No(10, "the tile ends at %s %d of %d" % (name, first + size, most))


def check_view(view, tiling=tiles.one_tile):
    """Question 10 of the eye and the window, and of each tile that is to be surveyed."""
    if max(map(abs, view[:3])) > REACH:
        raise No(10, "the eye is %s" % scenes.point_text(view[:3]))
    check_sizes(WINDOW, view[3:])
    for tile in tiling(view):
        check_tile(view, tile)


def check_axes(axes):
    for name, vector in zip(("right", "forward", "up"), axes):
        if max(map(abs, vector)) > PART:
            raise No(14, "%s is %s" % (name, scenes.point_text(vector)))
    right, forward, up = axes
    turn = dot(right, cross(forward, up))
    if turn <= 0:
        raise No(14, "right · (forward × up) is %d, not above 0" % turn)


def check_input(data, axes=scenes.LEVEL, station=None, tiling=tiles.one_tile):
    """(view, scene) of an input of `ringbill`, perhaps with a station in metres for its eye and in
    other tiles, if questions 1 to 9, 15, 10 and 14 all say yes; else No.
    """
    if not scenes.VIEW.size <= len(data) <= scenes.VIEW.size + LONGEST:
        raise No(1, "%d bytes of view and scene" % len(data))
    view, data = scenes.split_view(data)
    scene = check_scene(data)
    view = tuple(check_station(view[:3], station)) + view[3:]
    check_view(view, tiling)
    check_axes(axes)
    return view, scene


def run(words):
    alone = words[:1] == ["--scene"]
    axes = None if alone else scenes.take_axes(words)
    station = None if alone else scenes.take_metres(words)
    tiling = None if alone else tiles.take_tiling(words)
    if len(words) != (2 if alone else 1):
        sys.exit("usage: gate.py %s %s %s IN.view\n       gate.py --scene IN.scene"
                 % (tiles.TILES, scenes.STATION, scenes.AXES))
    data = scenes.read_file(words[-1])
    if alone:
        check_scene(data)
    else:
        check_input(data, axes, station, tiling)


def main():
    try:
        run(sys.argv[1:])
    except No as no:
        print(no)
        sys.exit(1)
    except (scenes.Fault, OSError) as fault:
        sys.exit("gate.py: %s" % fault)
    print("accepted")


if __name__ == "__main__":
    main()
