"""Tests of tools/: worked scenes, turned cameras, joints, cells by patch, round trips, the gate,
stations in metres, wide windows from tiles, sample rings, two cuttings of one ring, spans laid on
rows, the lit map, pictures, the commands.

Run by tools.sh. Each case is counted; a case that fails is named.
"""

import collections
import copy
import itertools
import math
import os
import random
import re
import struct
import subprocess
import sys
import tempfile
import zlib
from fractions import Fraction

sys.dont_write_bytecode = True
ROOT = os.path.dirname(os.path.dirname(os.path.abspath(__file__)))
sys.path.insert(0, os.path.join(ROOT, "tools"))
import cover  # noqa: E402
import draw  # noqa: E402
import gate  # noqa: E402
import metres  # noqa: E402
import rays  # noqa: E402
import ring  # noqa: E402
import rows as laying  # noqa: E402
import scene  # noqa: E402
import tiles as tilings  # noqa: E402

tally = collections.Counter()


def check(name, got, wanted=True):
    """Count a case; say what went wrong with it."""
    tally[got == wanted] += 1
    if got != wanted:
        print("FAILED: %s\n    wanted: %.300r\n    got:    %.300r" % (name, wanted, got))


def stored(name):
    with open(os.path.join(ROOT, name), "rb") as file:
        return file.read()


# --- text fragments ------------------------------------------------------------------------------

def plane(forward):
    """A node across the bore, its positive side ahead."""
    return "node 0,%d,0 0,%d,1 1,%d,0" % (forward, forward, forward)


def square(half, forward):
    h, y = half, forward
    return "-%d,%d,-%d %d,%d,-%d %d,%d,%d -%d,%d,%d" % (h, y, h, h, y, h, h, y, h, h, y, h)


NODE, FRONT = plane(100), plane(50)
FIVE, SEVEN = "patch 5 " + square(50, 100), "patch 7 " + square(20, 50)
VIEW = "view 0,0,0 4 4 4"


def text_of(*lines):
    return "".join(line + "\n" for line in lines)


# --- the worked scenes ---------------------------------------------------------------------------

def picture(*lines):
    return rays.survey(*gate.check_input(scene.build(text_of(*lines))))


def middle(panel):
    """The four cells of the middle show this panel, the others none."""
    edge, inner = [0] * 4, [0, panel, panel, 0]
    return [edge, inner, inner, edge]


def test_worked_scenes():
    check("square", picture(VIEW, NODE, FIVE), middle(5))
    check("half-width 25", picture(VIEW, NODE, "patch 5 " + square(25, 100)),
          rows_of("0000 0500 0000 0000"))
    check("half-width 26", picture(VIEW, NODE, "patch 5 " + square(26, 100)), middle(5))
    check("eye in the plane", picture("view 0,100,0 4 4 4", NODE, FIVE), middle(0))
    check("eye beyond", picture("view 0,200,0 4 4 4", NODE, FIVE), middle(0))
    check("one cell", picture("view 0,0,0 1 1 4", NODE, FIVE), [[5]])
    check("two squares", picture(VIEW, FRONT + " positive 1", SEVEN, NODE, FIVE), middle(7))
    check("less panel 5", picture(VIEW, FRONT, SEVEN), middle(7))
    check("less panel 7", picture(VIEW, FRONT + " positive 1", NODE, FIVE), middle(5))
    check("far one first in the list",
          picture(VIEW, NODE + " negative 1", FIVE, FRONT, SEVEN), middle(7))
    check("two panels on one square",
          picture(VIEW, NODE, "patch 3 " + square(50, 100), FIVE), middle(3))
    check("no nodes", picture(VIEW), middle(0))


def test_stored_scenes():
    s, t = (scene.build(stored("samples/%s.txt" % name).decode()) for name in "st")
    check("s.txt: 88 bytes", len(s) - 12, 88)
    check("s.txt: picture", rays.survey(*gate.check_input(s)), middle(5))
    check("t.txt: picture", rays.survey(*gate.check_input(t)), middle(7))


# --- turned cameras ------------------------------------------------------------------------------

def axes_of(numbers):
    """Right, forward and up from a text of nine numbers."""
    return scene.take_axes(["--axes"] + numbers.split())


def built(name, view=None):
    """An input of `ringbill` from samples/, perhaps with another view."""
    data = scene.build(stored("samples/%s.txt" % name).decode())
    return data if view is None else scene.pack_view(view) + data[12:]


def rows_of(digits):
    """Rows of panels 0 to 9, a word each."""
    return [[int(digit) for digit in word] for word in digits.split()]


LEVEL = "1 0 0  0 1 0  0 0 1"
BACK = "-1 0 0  0 -1 0  0 0 1"
SKEWED = "9 2 -7  3 12 -4  11 -1 8"
EMPTY = "0000 0000 0000 0000"
BARS_LEVEL = "000000000 000000000 004400000 000000000 000003300 000000000 000000000"
BARS_LEFT = "000440000 000044000 000000000 000000000 000000000 000330000 000033000"
BARS_RIGHT = "000000000 000000000 004000030 044000330 040000300 000000000 000000000"

# A scene of samples/, the camera's axes, and what it shows.
TURNED = (("quarters", LEVEL, "1122 3344"),
          ("quarters", "0 0 -1  0 1 0  1 0 0", "2244 1133"),
          ("quarters", "-1 0 0  0 1 0  0 0 -1", "4433 2211"),
          ("quarters", "1 0 0  1 1 0  0 0 1", "2200 4400"),
          ("quarters", "100 0 0  0 100 0  0 0 100", "1122 3344"),
          ("wall", "0 -1 0  1 0 0  0 0 1", "0000 0990 0990 0000"),
          ("wall", LEVEL, EMPTY),
          ("wall", "100 -100 0  100 100 0  0 0 100", "0009 0009 0009 0009"),
          ("roof", "1 0 0  0 0 1  0 -1 0", "0000 0880 0660 0000"),
          ("roof", LEVEL, EMPTY),
          ("bars", LEVEL, BARS_LEVEL),
          ("bars", "1 0 1  0 2 0  -1 0 1", BARS_LEFT),
          ("bars", "1 0 -1  0 2 0  1 0 1", BARS_RIGHT))

# A view of samples/quarters.txt whose numbers all differ, in a call's order: eye, axes, window.
OBLIQUE = (-19, -49, 26, *map(int, SKEWED.split()), 6, 4, 5)
OBLIQUE_ROWS = "022000 112400 013440 003300"


def seen_along(data, axes, station=None, tiling=tilings.one_tile):
    """The picture of an input along these axes, or the number that it is refused with."""
    try:
        return rays.survey_input(data, axes, station, tiling)[1]
    except gate.No as no:
        return no.question


def test_turned_stations():
    for name, axes, digits in TURNED:
        check("%s along %s" % (name, axes), seen_along(built(name), axes_of(axes)), rows_of(digits))
    behind = built("t", (0, 200, 0, 4, 4, 4))
    check("t, looking back", seen_along(behind, axes_of(BACK)), middle(5))
    check("t, from there forward", seen_along(behind, axes_of(LEVEL)), middle(0))


def test_level_view():
    """The level view is the one of the calls that name no axes."""
    data = scene.pack_view(SMALL_WINDOW) + scene.pack(made(""))
    view, whole = gate.check_input(data)
    check("no axes are the level ones", scene.take_axes([]), axes_of(LEVEL))
    check("level ring", seen_along(data, axes_of(LEVEL)), rays.survey(view, whole))
    check("first ray of 4 by 2, lens 7", rays.ray_of((4, 2, 7), scene.LEVEL, 0, 0), (-3, 7, 1))
    check("last ray of 4 by 2, lens 7", rays.ray_of((4, 2, 7), scene.LEVEL, 3, 1), (3, 7, -1))


def oblique(numbers):
    """What samples/quarters.txt shows for the numbers of a call, in its order."""
    axes = numbers[3:6], numbers[6:9], numbers[9:12]
    return seen_along(built("quarters", numbers[:3] + numbers[12:]), axes)


def exchanged(numbers, one, other):
    changed = list(numbers)
    changed[one], changed[other] = numbers[other], numbers[one]
    return tuple(changed)


def test_oblique_view():
    """Each number of a view has its place and its sign: any change shows."""
    rows = rows_of(OBLIQUE_ROWS)
    check("oblique view", oblique(OBLIQUE), rows)
    signed = range(12)
    for one, other in itertools.combinations(signed, 2):
        check("numbers %d and %d exchanged" % (one, other),
              oblique(exchanged(OBLIQUE, one, other)) != rows)
    for place in signed:
        turned = OBLIQUE[:place] + (-OBLIQUE[place],) + OBLIQUE[place + 1:]
        check("number %d with the other sign" % place, oblique(turned) != rows)


def moved(data, axes):
    """The scene with its points and its eye moved to where these axes are right, forward and up."""
    view, whole = gate.check_input(data)

    def move(point):
        x, y, z = point
        return tuple(x * right + y * forward + z * up for right, forward, up in zip(*axes))
    for node in whole.nodes:
        node.points = [move(point) for point in node.points]
    whole.corners = [move(corner) for corner in whole.corners]
    return scene.pack_view(move(view[:3]) + view[3:]) + scene.pack(whole)


def random_axes(draws):
    """Axes with small parts that question 14 lets pass."""
    while True:
        axes = tuple(tuple(draws.randint(-3, 3) for _ in range(3)) for _ in range(3))
        if gate.dot(axes[0], gate.cross(*axes[1:])) > 0:
            return axes


def test_moved_scenes():
    """A scene that moves with the camera's axes keeps its level picture, skewed or not."""
    draws = random.Random(3)
    views = (built("bars", (5, -20, 7, 9, 7, 8)), built("quarters", (-9, 30, 4, 6, 4, 5)))
    for data in views:
        level = seen_along(data, scene.LEVEL)
        check("a picture to keep", len({panel for row in level for panel in row}) > 2)
        for axes in (random_axes(draws) for _ in range(20)):
            check("moved along %s" % (axes,), seen_along(moved(data, axes), axes), level)


# --- joints --------------------------------------------------------------------------------------

def patch_line(panel, corners):
    return "patch %d " % panel + " ".join("%d,%d,%d" % corner for corner in corners)


def piece(panel, forward, left, right, bottom, top):
    """The line of a patch across the bore."""
    corners = (left, bottom), (right, bottom), (right, top), (left, top)
    return patch_line(panel, [(x, forward, z) for x, z in corners])


def wall(panel, *ends, high=60):
    """An upright patch between two places (x, y) of the floor plan."""
    (x, y), (u, v) = ends
    return patch_line(panel, [(x, y, -high), (u, v, -high), (u, v, high), (x, y, high)])


def roof(panel, *ends):
    """A patch across the bore between two places (y, z)."""
    (y, z), (v, w) = ends
    return patch_line(panel, [(-60, y, z), (60, y, z), (60, v, w), (-60, v, w)])


def triangle(*places):
    """Panel 6 at forward 100, with corners (x, z)."""
    return NODE, patch_line(6, [(x, 100, z) for x, z in places])


def two_planes(first, second):
    """Two nodes on the planes of their patches, the second's on its side of the first's plane."""
    words, others = first.split()[2:], second.split()[2:]
    points = [scene.point(word) for word in words[:3]]
    before = any(gate.side(*points, scene.point(word)) > 0 for word in others)
    child = " positive 1" if before else " negative 1"
    return "node " + " ".join(words[:3]) + child, first, "node " + " ".join(others[:3]), second


def floor(panel, left, right):
    return patch_line(panel, [(left, 40, -20), (right, 40, -20), (right, 160, -20),
                              (left, 160, -20)])


FOUR = (NODE, piece(1, 100, -60, 0, 0, 60), piece(2, 100, 0, 60, 0, 60),
        piece(3, 100, -60, 0, -60, 0), piece(4, 100, 0, 60, -60, 0))
WIDE = piece(5, 100, -60, 60, -60, 60)
NONE_OF_NINE, MIDDLE_ONE = "000 000 000", "000 060 000"
HALVES = piece(1, 100, -60, 0, -60, 60), piece(2, 100, 0, 60, -60, 60)
ROLLED, OVER = "0 0 -1  0 1 0  1 0 0", "-1 0 0  0 1 0  0 0 -1"

# The lines of a scene, a window, the axes, and what shows: the rays read by themselves, and as the
# lines just beside them. Middle rays of 3 by 3, lens 4, pass through x 0 and z 0.
JOINTS = (
    ("1 left, 2 right", (NODE, *HALVES), "3 3 4", LEVEL, "102 102 102", "122 122 122"),
    ("2 left, 1 right",
     (NODE, piece(1, 100, 0, 60, -60, 60), piece(2, 100, -60, 0, -60, 60)),
     "3 3 4", LEVEL, "201 201 201", "211 211 211"),
    ("1 above, 2 below",
     (NODE, piece(1, 100, -60, 60, 0, 60), piece(2, 100, -60, 60, -60, 0)),
     "3 3 4", LEVEL, "111 000 222", "111 222 222"),
    ("four meet", FOUR, "3 3 4", LEVEL, "102 000 304", "122 344 344"),
    ("two above a half", (*FOUR[:3], piece(3, 100, -60, 60, -60, 0)),
     "3 3 4", LEVEL, "102 000 333", "122 333 333"),
    ("four meet, rolled", FOUR, "3 3 4", ROLLED, "204 000 103", "244 133 133"),
    ("four meet, upside down", FOUR, "3 3 4", OVER, "403 000 201", "433 211 211"),
    ("four meet, half rolled", FOUR, "3 3 4", "1 0 1  0 2 0  -1 0 1",
     "010 302 040", "112 322 442"),
    ("four meet, right leaning", FOUR, "3 3 4", "1 0 -1  0 2 0  0 0 1",
     "100 104 004", "124 144 344"),
    ("walls of a corner",
     two_planes(wall(1, (0, 100), (-100, 50)), wall(2, (0, 100), (100, 50))),
     "3 3 4", LEVEL, "102 102 102", "122 122 122"),
    ("walls open to the right",
     two_planes(wall(1, (0, 100), (100, 150)), wall(9, (0, 100), (100, 80))),
     "3 3 4", LEVEL, "009 009 009", "099 099 099"),
    ("roofs open downward",
     two_planes(roof(1, (100, 0), (150, -100)), roof(9, (100, 0), (80, -100))),
     "3 3 4", LEVEL, "000 000 999", "000 999 999"),
    ("a wedge down to the right", triangle((0, 0), (20, -40), (40, -20)),
     "3 3 4", LEVEL, NONE_OF_NINE, NONE_OF_NINE),
    ("a corner under a level edge", triangle((0, 0), (0, -40), (40, 0)),
     "3 3 4", LEVEL, NONE_OF_NINE, MIDDLE_ONE),
    ("a corner open to the right", triangle((0, 0), (40, -40), (40, 40)),
     "3 3 4", LEVEL, NONE_OF_NINE, MIDDLE_ONE),
    ("a corner over a level edge", triangle((0, 0), (40, 0), (40, 40)),
     "3 3 4", LEVEL, NONE_OF_NINE, NONE_OF_NINE),
    ("a strip below the middle row", (NODE, piece(6, 100, -30, 30, -10, 0)),
     "3 3 4", LEVEL, NONE_OF_NINE, MIDDLE_ONE),
    ("a strip above the middle row", (NODE, piece(6, 100, -30, 30, 0, 10)),
     "3 3 4", LEVEL, NONE_OF_NINE, NONE_OF_NINE),
    ("7 ahead on the left", (NODE + " negative 1", WIDE, FRONT, piece(7, 50, -30, 0, -30, 30)),
     "3 3 4", LEVEL, "755 755 755", "755 755 755"),
    ("7 ahead on the right", (NODE + " negative 1", WIDE, FRONT, piece(7, 50, 0, 30, -30, 30)),
     "3 3 4", LEVEL, "557 557 557", "577 577 577"),
    ("3 edge on before 5",
     two_planes(piece(5, 100, 0, 60, -60, 60), wall(3, (0, 50), (0, 90), high=10)),
     "3 3 4", LEVEL, "005 005 005", "055 055 055"),
    ("the eye on an edge's line",
     ("node 0,0,0 1,0,0 0,1,0", patch_line(6, [(0, 50, 0), (0, 90, 0), (40, 90, 0)])),
     "3 3 4", LEVEL, NONE_OF_NINE, NONE_OF_NINE),
    ("a floor in two strips", ("node 0,0,-20 1,0,-20 0,1,-20", floor(3, -40, 0), floor(4, 0, 40)),
     "5 5 10", LEVEL, "00000 00000 00000 03040 33044", "00000 00000 00000 33440 33444"),
    ("half-width 25", (NODE, "patch 5 " + square(25, 100)),
     "4 4 4", LEVEL, "0000 0000 0000 0000", "0000 0500 0000 0000"))


def along_each(view, whole, axes, line_at):
    """The picture along lines that a function tells, with no row's patches left out."""
    window, patches = view[3:], rays.seen_from(view[:3], whole)
    return rays.panels_of(whole, [
        [rays.closest_patch(line_at(window, axes, column, row), patches)
         for column in range(window[0])] for row in range(window[1])])


def ray_alone(window, axes, column, row):
    """A line that nothing is added to."""
    return (rays.ray_of(window, axes, column, row),)


def test_joints():
    for name, lines, window, numbers, old, now in JOINTS:
        axes = axes_of(numbers)
        view, whole = gate.check_input(input_of(lines, window), axes)
        check("joints: " + name, rays.survey(view, whole, axes), rows_of(now))
        check("joints read plainly: " + name, along_each(view, whole, axes, ray_alone),
              rows_of(old))


# Steps for right and for up, small enough for the scenes here.
STEPS = tuple((Fraction(a, 10 ** 12), Fraction(c, 10 ** 24))
              for a, c in ((1, 1), (7, 2), (Fraction(1, 9), Fraction(1, 900))))


def stepped(steps):
    """Lines of one ray, with "right times any small enough step above 0 added, and up times any
    step above 0 small enough beside that taken away".
    """
    def line_at(window, axes, column, row):
        ray, (right, _, up) = rays.ray_of(window, axes, column, row), axes
        return (tuple(d + steps[0] * r - steps[1] * u for d, r, u in zip(ray, right, up)),)
    return line_at


def check_steps(name, view, whole, axes):
    """Rays with such steps show what the rule shows."""
    for steps in STEPS:
        check("steps %s %s: %s" % (*steps, name), along_each(view, whole, axes, stepped(steps)),
              rays.survey(view, whole, axes))


def test_steps():
    for name, lines, window, numbers, _, _ in JOINTS:
        axes = axes_of(numbers)
        check_steps(name, *gate.check_input(input_of(lines, window), axes), axes)
    draws = random.Random(6)
    for trial in range(20):
        whole = scene.unpack(scene.build(text_of(*random_pieces(draws))))
        axes = draws.choice((scene.LEVEL, random_axes(draws)))
        check_steps("pieces %d" % trial, (0, 0, 0, 4, 4, 4), whole, axes)


# --- cells by patch ------------------------------------------------------------------------------


HALF = piece(5, 100, -50, 0, -50, 50)
MIDDLE = "0000 0550 0550 0000"
AMID = "00000000 00000000" + " 00555500" * 4 + " 00000000 00000000"

# The lines of a scene, a window, what it shows, and the cells of each patch of the list.
PIECES = (("a square twice", (NODE, FIVE, FIVE), "4 4 4", MIDDLE, [4, 0]),
          ("half before the whole", (NODE, HALF, FIVE), "4 4 4", MIDDLE, [2, 2]),
          ("the whole before half", (NODE, FIVE, HALF), "4 4 4", MIDDLE, [4, 0]),
          ("pieces of two panels that overlap",
           (NODE, piece(3, 100, -50, 0, -50, 50), piece(3, 100, -80, -20, -50, 50),
            piece(5, 100, -80, 80, -80, 80), FIVE),
           "8 4 4", "00555500 00335500 00335500 00555500", [2, 2, 12, 0]),
          ("the nearer of one panel's pieces second in the list",
           (NODE + " negative 1", FIVE, FRONT, piece(5, 50, -10, 10, -10, 10)),
           "8 8 8", AMID, [12, 4]),
          ("a piece behind another panel",
           (FRONT + " positive 1", piece(7, 50, -20, 0, -20, 20),
            NODE, piece(5, 100, -50, 10, -50, 50), piece(5, 100, 10, 50, -50, 50)),
           "8 4 8", "00775500 " * 4, [8, 0, 8]),
          ("S", (NODE, FIVE), "4 4 4", MIDDLE, [4]),
          ("T", (FRONT + " positive 1", SEVEN, NODE, FIVE),
           "4 4 4", MIDDLE.replace("5", "7"), [4, 0]),
          ("T, the far one first in the list", (NODE + " negative 1", FIVE, FRONT, SEVEN),
           "4 4 4", MIDDLE.replace("5", "7"), [0, 4]),
          ("panels 3 and 5 on one square", (NODE, "patch 3 " + square(50, 100), FIVE),
           "4 4 4", MIDDLE.replace("5", "3"), [4, 0]),
          ("no patches", (), "4 4 4", EMPTY, []))


def booked(view, whole, axes=scene.LEVEL):
    """The picture, and the cells of each patch."""
    numbers = rays.closest_patches(view, whole, axes)
    return rays.panels_of(whole, numbers), rays.patch_cells(whole, numbers)


def input_of(lines, window):
    return scene.build(text_of("view 0,0,0 " + window, *lines))


def test_pieces():
    for name, lines, window, digits, cells in PIECES:
        found = booked(*gate.check_input(input_of(lines, window)))
        check("pieces: " + name, found, (rows_of(digits), cells))
    view, both = gate.check_input(input_of((FRONT + " positive 1", SEVEN, NODE, FIVE), "4 4 4"))
    check("pieces: T, looking back", booked((0, 200, 0) + view[3:], both, axes_of(BACK)),
          (middle(5), [0, 4]))


def check_sums(name, view, whole, axes=scene.LEVEL):
    """A panel's count is the sum over its patches."""
    rows, cells = booked(view, whole, axes)
    shown = collections.Counter(panel for row in rows for panel in row)
    for patch, count in zip(whole.patches, cells):
        shown[patch.panel] -= count
    nothing = view[3] * view[4] - sum(cells)
    check("sums: " + name, {panel: left for panel, left in shown.items() if left},
          {0: nothing} if nothing else {})


def test_panel_sums():
    for name, lines, window, _, _ in PIECES:
        check_sums(name, *gate.check_input(input_of(lines, window)))
    for options in ("", "--tree halves --seed 7", "--tree walls --bend 0 --drop 40 --seed 8"):
        check_sums("ring " + options, SMALL_WINDOW, made(options))
        check_sums("turned ring " + options, SMALL_WINDOW, made(options), axes_of(SKEWED))


def distance(ray, patch):
    """Along one ray, a fraction of two whole numbers."""
    return Fraction(patch.eye_product, gate.dot(ray, patch.normal))


def shows_before(ray, one, other):
    """The rule for two patches that are met: the nearer, the lower panel, the earlier."""
    if distance(ray, one) != distance(ray, other):
        return distance(ray, one) < distance(ray, other)
    if one.panel != other.panel:
        return one.panel < other.panel
    return one.number < other.number


def random_pieces(draws):
    """Overlapping pieces in two planes, with edges that rays run along. Some stand twice; panels
    may fall, which no accepted scene has, but the rule is for any list.
    """
    lines = []
    for _ in range(draws.randint(2, 10)):
        left, bottom = draws.randint(-4, 2), draws.randint(-4, 2)
        right, top = draws.randint(left + 1, 4), draws.randint(bottom + 1, 4)
        sizes = (25 * side for side in (left, right, bottom, top))
        line = piece(draws.randint(1, 3), draws.choice((50, 100, 100)), *sizes)
        lines += [line] * draws.choice((1, 1, 2))
    return lines


def first_shown(ray, patches):
    """The numbers of the met patches that show before every other one."""
    met = [patch for patch in patches if patch.is_met((ray,))]
    return [one.number for one in met
            if all(shows_before(ray, one, other) for other in met if other is not one)]


def test_rule_by_twos():
    """A cell's patch is the one that shows before every other."""
    draws, view = random.Random(5), (0, 0, 0, 4, 4, 4)
    for trial in range(40):
        whole = scene.unpack(scene.build(text_of(*random_pieces(draws))))
        patches = rays.seen_from(view[:3], whole)
        found = [[[] if cell is None else [cell] for cell in row]
                 for row in rays.closest_patches(view, whole)]
        line_at = stepped(STEPS[0])
        wanted = [[first_shown(line_at(view[3:], scene.LEVEL, column, row)[0], patches)
                   for column in range(4)] for row in range(4)]
        check("pieces by twos, %d" % trial, found, wanted)


# --- round trips ---------------------------------------------------------------------------------

def comes_back(data, with_view=False):
    return scene.build(scene.show(data, with_view)) == data


def damaged(data, draws):
    """The file, perhaps cut short or made longer, with up to three bytes changed."""
    data = bytearray(data[:draws.choice((len(data), draws.randrange(len(data) + 1)))])
    data += bytes(draws.choice((0, 0, 0, 5)))
    for _ in range(draws.randrange(4) if data else 0):
        data[draws.randrange(len(data))] = draws.randrange(256)
    return bytes(data)


def test_round_trips():
    view = stored("samples/ring.view")
    check("ring.view", comes_back(view, True))
    check("ring.view as a scene", comes_back(view))
    check("empty file", comes_back(b""))
    check("empty scene", comes_back(scene.pack(scene.Scene())))
    check("patches without a node", comes_back(scene.build(text_of(FIVE, SEVEN))))
    repeated = scene.build(text_of(NODE, FIVE, FIVE, HALF))
    check("a patch that stands twice", comes_back(repeated))
    check("its numbers", scene.show(repeated).count("# patch"), 3)
    draws = random.Random(1)
    whole = scene.build(stored("samples/t.txt").decode())[12:]
    bad = [data for data in (damaged(whole, draws) for _ in range(1500)) if not comes_back(data)]
    check("1,500 damaged scenes", bad, [])


def test_odd_records():
    """Wrong numbers in the records and the header are shown in words and not as raw bytes."""
    lines = ("version 9", "zero 3", "length 7", NODE + " patches 7 3", "patch 5 1,2,3 corners 0 9",
             NODE, "patch 6 4,5,6 7,8,9", "corner 1,1,1", "tail 0102")
    data = scene.build(text_of(*lines))
    shown = scene.show(data)
    check("odd records come back", scene.build(shown), data)
    for words in ("version 9", "zero 3", "length 7", "patches 7 3", "corners 0 9", "tail 0102"):
        check("shown: " + words, words in shown)
    check("no raw bytes", "bytes" in shown, False)
    check("raw bytes", scene.show(b"\1\2").splitlines()[-1], "bytes 0102")


def fault(work, *words):
    """What a call says when it finds fault."""
    try:
        work(*words)
    except scene.Fault as found:
        return str(found)
    return "none"


def test_bad_text():
    for line in ("node 1,2,3", "node 1,2,3 4,5,6 40000,0,0", "node 1,2,3 4,5,6 7,8,9 left 1",
                 "patch 70000", "patch 5 1,2", "patch x", "plane 1", "bytes 1", "version 1 2",
                 "view 1,2,3 4"):
        check("text: " + line, fault(scene.build, "\n" + line)[:7], "line 2:")
    check("text: bytes beside a node", fault(scene.build, "bytes 00\n" + NODE)[:7], "`bytes`")


# --- the gate ------------------------------------------------------------------------------------

def answer(data):
    try:
        gate.check_input(data)
    except gate.No as no:
        return no.question
    return 0


def asks(name, number, *lines):
    check("gate: " + name, answer(scene.build(text_of(VIEW, *lines))), number)


def test_gate_bytes():
    asks("version 2", 1, "version 2", NODE, FIVE)
    asks("zero field", 1, "zero 1", NODE, FIVE)
    asks("length", 1, "length 87", NODE, FIVE)
    asks("31 bytes", 1, "bytes " + "00" * 31)
    asks("too long", 1, *["corner 0,0,0"] * 9558)
    check("gate: no view", answer(b"\0" * 11), 1)
    asks("byte after the sections", 2, NODE, FIVE, "tail 00")
    asks("section out of place", 2, "patches-at 59 6", NODE, FIVE)
    asks("part of a node", 2, "nodes-at 32 20", "patches-at 52 12", NODE, FIVE)
    asks("part of a patch", 2, "patches-at 58 9", "corners-at 67 24", NODE, FIVE, "tail 000000")
    asks("part of a corner", 2, "corners-at 64 27", NODE, FIVE, "tail 000000")
    asks("1,024 nodes pass", 5, *[NODE] * 1024)
    asks("1,025 nodes", 2, *[NODE] * 1025)
    asks("1,025 patches", 2, *["patch 1"] * 1025)
    asks("4,097 corners", 2, *["corner 0,0,0"] * 4097)
    asks("coordinate 10,000", 0, plane(10000), "patch 5 " + square(50, 10000))
    asks("coordinate 10,001", 3, NODE, "patch 5 " + square(50, 10001))
    asks("node's coordinate", 3, "node 0,100,0 1,100,0 0,100,-10001", FIVE)


def test_gate_tree():
    asks("points on one line", 4, "node 0,100,0 1,100,0 2,100,0", FIVE)
    asks("own number as child", 5, NODE + " positive 0", FIVE)
    asks("child beyond the nodes", 5, NODE + " negative 1", FIVE)
    asks("node named twice", 5, FRONT + " positive 1 negative 1", NODE, FIVE)
    asks("node never named", 5, FRONT, NODE, FIVE)
    asks("run with a gap", 6, NODE + " patches 0 0", FIVE)
    asks("empty run out of place", 6,
         FRONT + " positive 1 patches 1 0", NODE + " patches 0 1", FIVE)
    asks("patch without a node", 6, FIVE)
    asks("corner without a patch", 6, NODE, FIVE, "corner 0,100,0")


def test_gate_patches():
    asks("two corners", 6, NODE, "patch 5 0,100,0 1,100,0")
    asks("eight corners", 0, NODE, "patch 5 -1,100,-3 1,100,-3 3,100,-1 3,100,1 "
         "1,100,3 -1,100,3 -3,100,1 -3,100,-1")
    asks("nine corners", 6, NODE, "patch 5 %s %s 0,100,0" % (square(50, 100), square(50, 100)))
    asks("panel 0", 7, NODE, "patch 0 " + square(50, 100))
    asks("panel 1,024", 0, NODE, "patch 1024 " + square(50, 100))
    asks("panel 1,025", 7, NODE, "patch 1025 " + square(50, 100))
    asks("falling panels", 7, NODE, FIVE, "patch 3 " + square(50, 100))
    asks("level panels", 0, NODE, FIVE, FIVE)
    asks("not flat", 8, NODE, "patch 5 -50,100,-50 50,100,-50 50,100,50 -50,101,50")
    asks("corner midway along an edge", 8, NODE, "patch 5 0,100,-50 50,100,-50 50,100,50 "
         "-50,100,50 -50,100,-50")
    asks("corner twice", 8, NODE, "patch 5 0,100,0 0,100,0 50,100,0 50,100,50")


def test_gate_sides():
    floor = "node 0,0,%d 1,0,%d 0,1,%d positive 1"
    asks("off its plane", 9, NODE, "patch 5 " + square(50, 101))
    asks("on the wrong side", 9, FRONT + " negative 1", NODE, FIVE)
    asks("one edge on the plane above", 0, floor % (-50, -50, -50), NODE, FIVE)
    asks("wholly on the plane above", 9, NODE + " positive 1", NODE, FIVE)
    asks("cut by a plane two above", 9, floor % (0, 0, 0), FRONT + " positive 2", NODE, FIVE)


def test_gate_view():
    for view, number in (("0,0,0 256 128 4096", 0), ("0,0,0 257 4 4", 10), ("0,0,0 4 129 4", 10),
                         ("0,0,0 4 4 4097", 10), ("0,0,0 0 4 4", 10), ("0,0,-10001 4 4 4", 10),
                         ("10000,-10000,0 4 4 4", 0)):
        asks("view " + view, number, "view " + view, NODE, FIVE)


def axes_answer(numbers, data=None):
    """The answer to an input, S unless said, along axes of these nine numbers."""
    found = seen_along(data or built("s"), axes_of(numbers))
    return found if isinstance(found, int) else 0


def test_gate_axes_range():
    """Each part, where right · (forward × up) is above 0 whatever that part is."""
    for numbers, places in (("50 1 2 3 50 4 5 6 50", (1, 2, 3, 5, 6, 7)),
                            ("-50 50 50 50 -50 50 50 50 -50", (0, 4, 8))):
        for place, part in itertools.product(places, (100, -100, 101, -101)):
            words = numbers.split()
            words[place] = str(part)
            check("gate: axes " + " ".join(words), axes_answer(" ".join(words)),
                  14 if abs(part) > 100 else 0)


def test_gate_axes():
    for name, numbers, number in (("level", LEVEL, 0),
                                  ("far out of square", SKEWED, 0),
                                  ("all limits", "-100 100 100 100 -100 100 100 100 -100", 0),
                                  ("mirrored", "-1 0 0 0 1 0 0 0 1", 14),
                                  ("right and up exchanged", "0 0 1 0 1 0 1 0 0", 14),
                                  ("up is forward", "1 0 0 0 1 0 0 1 0", 14),
                                  ("in one plane", "1 2 3 4 5 6 7 8 9", 14),
                                  ("all 0", "0 0 0 0 0 0 0 0 0", 14),
                                  ("out of range", "1 0 101 0 1 0 0 0 1", 14)):
        check("gate: axes " + name, axes_answer(numbers), number)


def test_gate_axes_order():
    """14 is asked right after 10, and 10 after the questions on scenes."""
    bad = "1 0 101 0 1 0 0 0 1"
    check("gate: lens 0 and a part 101", axes_answer(bad, built("s", (0, 0, 0, 4, 4, 0))), 10)
    check("gate: an eye too far and no axes",
          axes_answer("0 0 0 0 0 0 0 0 0", built("s", (10001, 0, 0, 4, 4, 4))), 10)
    check("gate: a short scene and a part 101", axes_answer(bad, built("s")[:-1]), 1)
    wrong = scene.build(text_of(VIEW, NODE, "patch 5 " + square(50, 101)))
    check("gate: a patch off its plane and a part 101", axes_answer(bad, wrong), 9)


# --- stations in metres --------------------------------------------------------------------------

# Doubles by their bits, and the whole numbers of units that they become, None for those that are
# not finite. Zeros and numbers next to them; halves, the request's own first, and doubles next to
# halves, where a product of doubles would be the half; the limit's neighbours and what is beyond;
# infinities and NaNs, quiet and signalling ones with payloads.
LENGTHS = ((0, 0), (1 << 63, 0), (1, 0), (0x800fffffffffffff, 0), (0x0010000000000000, 0),
           (0x3fb0000000000000, 12), (0x3fc8000000000000, 38),
           (0xbfb0000000000000, -12), (0xbfc8000000000000, -38),
           (0x3fd4000000000000, 62), (0x3fdc000000000000, 88), (0x4048f80000000000, 9988),
           (0x3fafffffffffffff, 12), (0x3fb0000000000001, 13), (0xbfb0000000000001, -13),
           (0x3f647ae147ae147a, 0), (0x3f647ae147ae147b, 1), (0x3f7eb851eb851eb8, 1),
           (0x3f7eb851eb851eb9, 2), (0x3f89999999999999, 2), (0x3f8999999999999a, 3),
           (0x3fe0000000000000, 100), (0x4049000000000000, 10000),
           (0x40490051eb851eb8, 10000), (0x40490051eb851eb9, 10001),
           (0xc0490051eb851eb8, -10000), (0xc0490051eb851eb9, -10001),
           (0x4050000000000000, 12800), (0x4340000000000001, 200 * (2 ** 53 + 2)),
           (0x7ff0000000000000, None), (0xfff0000000000000, None),
           (0x7ff8000000000000, None), (0xfffc0000deadbeef, None),
           (0x7ff0000000000001, None), (0xfff7ffffffffffff, None))


def of_bits(bits):
    return struct.unpack("<d", struct.pack("<Q", bits))[0]


def is_nearest(number, exact):
    """No whole number is nearer to a fraction, and one as near is odd."""
    away = abs(exact - number)
    return away < Fraction(1, 2) or away == Fraction(1, 2) and number % 2 == 0


def test_whole_numbers():
    for bits, number in LENGTHS:
        check("units of the double %016x" % bits, metres.whole_number(of_bits(bits)), number)
    check("units of 0.0625 and 0.1875", [metres.whole_number(part) for part in (0.0625, 0.1875)],
          [12, 38])


def test_nearest_whole_numbers():
    """Doubles of all sizes, halves and their neighbours, by what "nearest" means."""
    draws = random.Random(7)
    exponents = [draws.randrange(1005, 1040) for _ in range(300)] + list(range(0, 2047, 13))
    doubles = [of_bits(draws.getrandbits(1) << 63 | exponent << 52 | draws.getrandbits(52))
               for exponent in exponents]
    for odd in range(-801, 801, 2):
        half = struct.unpack("<Q", struct.pack("<d", odd / 16))[0]
        doubles += [of_bits(half - 1), of_bits(half), of_bits(half + 1)]
    check("doubles that become no nearest number",
          [double for double in doubles
           if not is_nearest(metres.whole_number(double), 200 * Fraction(double))], [])


def in_metres(*station, data=None, axes=scene.LEVEL):
    """What S, or another input, shows from a station in metres, or what it is refused with."""
    return seen_along(data or built("s"), axes, station)


def test_gate_metres():
    """Question 15 of each part of a station: the whole number decides."""
    empty = scene.pack_view((0, 0, 0, 1, 1, 1)) + scene.pack(scene.Scene())
    for (bits, number), part in itertools.product(LENGTHS, range(3)):
        station = [0.0, -0.0, 0.0]
        station[part] = of_bits(bits)
        passes = number is not None and abs(number) <= 10000
        check("gate: %016x in part %d" % (bits, part), in_metres(*station, data=empty),
              [[0]] if passes else 15)
    check("gate: three NaNs", in_metres(*[math.nan] * 3), 15)


def test_gate_metres_order():
    """15 is asked just before 10, after the questions on scenes; units are never asked it."""
    far, bad = (64.0, 0.0, 0.0), (0.0, 0.0, math.nan)
    none, here = axes_of("0 0 0 0 0 0 0 0 0"), (0.0, 0.0, 0.0)
    no_width = built("s", (0, 0, 0, 0, 4, 4))
    for name, lines, number in (("version 0", ("version 0", NODE, FIVE), 1),
                                ("a patch off its plane", (NODE, "patch 5 " + square(50, 101)), 9)):
        data = scene.build(text_of(VIEW, *lines))
        check("gate: a NaN and " + name, in_metres(*bad, data=data), number)
        check("gate: 64 metres and " + name, in_metres(*far, data=data), number)
    check("gate: a NaN and width 0", in_metres(*bad, data=no_width), 15)
    check("gate: 64 metres and width 0", in_metres(*far, data=no_width), 15)
    check("gate: a NaN and no axes", in_metres(*bad, axes=none), 15)
    check("gate: in metres, width 0 and no axes", in_metres(*here, data=no_width, axes=none), 10)
    check("gate: in metres, no axes", in_metres(*here, axes=none), 14)
    check("gate: 10,001 units", answer(built("s", (10001, 0, 0, 4, 4, 4))), 10)
    check("gate: 10,001 units and width 0", answer(built("s", (0, -10001, 0, 0, 4, 4))), 10)
    check("gate: metres in the place of 10,001 units",
          in_metres(*here, data=built("s", (10001, 0, 0, 4, 4, 4))), middle(5))


def test_seen_in_metres():
    """"The picture is that of the whole-number station", whatever the view's own eye is."""
    check("s from 0 metres", in_metres(0.0, -0.0, 0.0), middle(5))
    check("s from half a metre forward", in_metres(0.0, 0.5, 0.0), middle(0))
    data, axes = built("quarters", (7, 7, 7) + OBLIQUE[12:]), axes_of(SKEWED)
    eye = tuple(part / 200 for part in OBLIQUE[:3])
    check("oblique view in metres", seen_along(data, axes, eye), rows_of(OBLIQUE_ROWS))
    for one, other in itertools.combinations(range(3), 2):
        check("parts %d and %d of a station exchanged" % (one, other),
              seen_along(data, axes, exchanged(eye, one, other)) != rows_of(OBLIQUE_ROWS))


# --- wide windows from tiles ---------------------------------------------------------------------

# S in 4 by 4: tiles of it, and what they show. Read as a window of its own, each of 2 by 2 would
# show 5 in every cell.
TILED = (((0, 0, 2, 2), "00 05"), ((2, 0, 2, 2), "00 50"), ((0, 2, 2, 2), "05 00"),
         ((2, 2, 2, 2), "50 00"), ((1, 1, 2, 2), "55 55"), ((0, 0, 4, 4), MIDDLE),
         ((1, 0, 3, 2), "000 550"), ((0, 1, 4, 1), "0550"), ((1, 0, 1, 4), "0 5 5 0"),
         ((3, 3, 1, 1), "0"))

# The quarters in 5 by 3, with joints in the middle column and row: the whole, and tiles that hold
# each cell once.
FIVE_BY_THREE, WHOLE_QUARTERS = (0, 0, 0, 5, 3, 4), "11220 33440 33440"
QUARTER_TILES = (((0, 0, 2, 3), "11 33 33"), ((2, 0, 3, 1), "220"), ((2, 1, 1, 2), "4 4"),
                 ((3, 1, 2, 2), "40 40"))


def only(*tile):
    """The tiling of one tile, by the words of a command."""
    return tilings.take_tiling(["--tile", *map(str, tile)])


def test_tiles_of_a_window():
    for tile, digits in TILED:
        check("s, tile %s" % (tile,), seen_along(built("s"), scene.LEVEL, tiling=only(*tile)),
              rows_of(digits))
    quarters = built("quarters", FIVE_BY_THREE)
    check("quarters in 5 by 3", seen_along(quarters, scene.LEVEL), rows_of(WHOLE_QUARTERS))
    for tile, digits in QUARTER_TILES:
        check("quarters, tile %s" % (tile,), seen_along(quarters, scene.LEVEL, tiling=only(*tile)),
              rows_of(digits))
    listed, shown = zip(*QUARTER_TILES)
    pictures = [rows_of(digits) for digits in shown]
    check("quarters, put together", tilings.put_together(listed, pictures), rows_of(WHOLE_QUARTERS))
    check("quarters, the added counts", rays.bill(FIVE_BY_THREE, listed, pictures),
          ["view 5 3 4", "1 2", "2 2", "3 4", "4 4", "nothing 3", "total 15"])


def guillotine(draws, left, top, width, height):
    """Random tiles that hold each cell of a part once: it is cut in two, and these parts again."""
    cuts = [("across", at) for at in range(1, height)] + [("down", at) for at in range(1, width)]
    if not cuts or draws.random() < 0.2:
        return [(left, top, width, height)]
    way, at = draws.choice(cuts)
    if way == "across":
        return (guillotine(draws, left, top, width, at)
                + guillotine(draws, left, top + at, width, height - at))
    return (guillotine(draws, left, top, at, height)
            + guillotine(draws, left + at, top, width - at, height))


def check_tiling(name, view, whole, axes, listed):
    """Each tile is a part of the whole picture, and together they are all of it, with its counts
    and each patch's cells.
    """
    numbers = rays.closest_patches(view, whole, axes)
    rows = rays.panels_of(whole, numbers)
    numbered = [rays.closest_patches(view, whole, axes, tile) for tile in listed]
    pictures = [rays.panels_of(whole, some) for some in numbered]
    check("parts: " + name, numbered, [[row[left:left + width] for row in numbers[top:top + height]]
                                       for left, top, width, height in listed])
    check("together: " + name, tilings.put_together(listed, pictures), rows)
    check("added: " + name, rays.bill(view, listed, pictures),
          rays.bill(view, tilings.one_tile(view), [rows]))
    check("patches added: " + name, rays.patch_lines(whole, numbered),
          rays.patch_lines(whole, [numbers]))


def test_random_tiles():
    draws, whole = random.Random(9), made("--facets 1")
    for trial in range(12):
        view = (0, 20, 0, draws.randint(1, 24), draws.randint(1, 12), draws.randint(4, 16))
        axes = draws.choice((scene.LEVEL, random_axes(draws)))
        listed = guillotine(draws, 0, 0, *view[3:5])
        check_tiling("%d, %d tiles" % (trial, len(listed)), view, whole, axes,
                     draws.sample(listed, len(listed)))


def test_all_tiles():
    """Each cell lies in one tile, and the tiles are no larger than they may be."""
    for width, height in ((1, 1), (256, 128), (257, 128), (256, 129), (1024, 512), (1023, 511),
                          (300, 260), (512, 1)):
        listed = tilings.all_tiles((0, 0, 0, width, height, 1))
        across, down = -(-width // 256), -(-height // 128)
        check("%d by %d: how many tiles" % (width, height), len(listed), across * down)
        check("%d by %d: no tile is refused" % (width, height),
              [fits(tile, (width, height)) for tile in listed], [0] * len(listed))
        numbered = [[[(x, y) for x in range(left, left + wide)] for y in range(top, top + high)]
                    for left, top, wide, high in listed]
        check("%d by %d: each cell once" % (width, height), tilings.put_together(listed, numbered),
              [[(x, y) for x in range(width)] for y in range(height)])


def together(*listed):
    """Can these tiles, of one number each, be put together?"""
    try:
        return tilings.put_together(listed, [[[1] * wide] * high for _, _, wide, high in listed])
    except ValueError:
        return None


def test_tiles_put_together():
    check("together: one tile", together((3, 2, 2, 1)), [[1, 1]])
    check("together: in any order", together((5, 2, 1, 1), (3, 2, 2, 1)), [[1, 1, 1]])
    for name, listed in (("a gap", ((0, 0, 1, 1), (2, 0, 1, 1))),
                         ("an overlap", ((0, 0, 2, 1), (1, 0, 2, 1))),
                         ("twice", ((0, 0, 1, 1), (0, 0, 1, 1))),
                         ("a row not begun", ((0, 0, 1, 2), (1, 0, 1, 1))),
                         ("a row missing", ((0, 0, 1, 1), (0, 2, 1, 1))),
                         ("a gap of the right area", ((0, 0, 2, 1), (0, 1, 1, 1), (2, 1, 1, 1)))):
        check("not together: " + name, together(*listed), None)


def fits(tile, window, lens=4, eye=(0, 0, 0), axes=LEVEL):
    """The answer to S in a window and a tile of it. A tile is not surveyed here."""
    try:
        gate.check_input(built("s", eye + window + (lens,)), axes_of(axes), tiling=only(*tile))
    except gate.No as no:
        return no.question
    return 0


WIDEST, LAST = (1024, 512), (768, 384, 256, 128)


def test_gate_tiles():
    for tile, window, number in (
            (LAST, WIDEST, 0), ((0, 0, 256, 128), WIDEST, 0), ((1023, 511, 1, 1), WIDEST, 0),
            ((769, 384, 256, 128), WIDEST, 10), ((768, 385, 256, 128), WIDEST, 10),
            (LAST, (1025, 512), 10), (LAST, (1024, 513), 10), (LAST, (1023, 512), 10),
            (LAST, (1024, 511), 10), ((0, 0, 1, 1), (0, 4), 10), ((0, 0, 1, 1), (4, 0), 10),
            ((0, 0, 0, 128), WIDEST, 10), ((0, 0, 257, 128), WIDEST, 10),
            ((0, 0, 256, 0), WIDEST, 10), ((0, 0, 256, 129), WIDEST, 10),
            ((1024, 0, 1, 1), WIDEST, 10), ((0, 512, 1, 1), WIDEST, 10),
            ((65535, 0, 1, 1), WIDEST, 10), ((0, 65535, 1, 1), WIDEST, 10),
            ((65535, 65535, 65535, 65535), WIDEST, 10), ((0, 0, 5, 4), (4, 4), 10),
            ((0, 0, 4, 5), (4, 4), 10), ((0, 0, 4, 4), (4, 4), 0), ((0, 3, 4, 1), (5, 4), 0),
            ((3, 0, 1, 4), (4, 5), 0), ((1, 0, 4, 1), (4, 9), 10), ((0, 1, 1, 4), (9, 4), 10)):
        check("gate: tile %s of %s" % (tile, window), fits(tile, window), number)
    check("gate: lens 4,097 of a wide window", fits(LAST, WIDEST, lens=4097), 10)
    check("gate: an eye too far in a wide window", fits(LAST, WIDEST, eye=(0, 0, 10001)), 10)


def test_gate_tiles_order():
    """A tile is asked with 10: after 15 and the questions on scenes, before 14."""
    none = "0 0 0 0 0 0 0 0 0"
    check("gate: a tile outside and no axes", fits((1, 0, 4, 4), (4, 4), axes=none), 10)
    check("gate: a tile inside and no axes", fits((0, 0, 4, 4), (4, 4), axes=none), 14)
    outside = only(1, 0, 4, 4)
    check("gate: a NaN and a tile outside",
          seen_along(built("s"), scene.LEVEL, (math.nan, 0.0, 0.0), outside), 15)
    check("gate: a short scene and a tile outside",
          seen_along(built("s")[:-1], scene.LEVEL, tiling=outside), 1)


def test_wide_windows():
    """S in the widest window, by tiles of one row, and by one of the largest size."""
    rows = []
    for left in range(0, 1024, 256):
        data = built("s", (0, 0, 0, 1024, 512, 512))
        rows += seen_along(data, scene.LEVEL, tiling=only(left, 255, 256, 1))[0]
    check("s, row 255 of 1,024 by 512", rows, [0] * 384 + [5] * 256 + [0] * 384)
    nearer = built("s", (0, 0, 0, 1024, 512, 1024))
    check("s, a tile that is full", seen_along(nearer, scene.LEVEL, tiling=only(256, 0, 256, 128)),
          [[5] * 256] * 128)
    check("s, wide as one tile", seen_along(nearer, scene.LEVEL), 10)
    for window in ((0, 0, 0, 1025, 1, 4), (0, 0, 0, 1, 513, 4), (0, 0, 0, 0, 4, 4)):
        check("s, no tiles of %s" % (window,),
              seen_along(built("s", window), scene.LEVEL, tiling=tilings.all_tiles), 10)
    view = (0, 20, 0, 260, 130, 160)
    check_tiling("260 by 130", view, made(""), scene.LEVEL, tilings.all_tiles(view))


# --- sample rings --------------------------------------------------------------------------------

SMALL_WINDOW = (0, 20, 0, 48, 24, 30)


def made(options):
    """The scene of these options, straight from the maker."""
    return ring.make(ring.arguments(["-"] + options.split()))


def panels(made_scene):
    return {patch.panel for patch in made_scene.patches}


def patches(made_scene):
    """The patches in an order of their own."""
    return sorted((p.panel, made_scene.corners_of(p)) for p in made_scene.patches)


def test_rings_legal():
    flat = "--segments 9 --facets 1 "
    for options, count in (("", 112), ("--rings 1 --segments 3 --facets 1", 4),
                           (flat + "--rings 92 --length 100 --bend 1 --seed 3", 920),
                           (flat + "--rings 100 --length 90 --bend 0 --tree walls", 1000),
                           ("--tree halves --drop 40 --seed 7", 72),
                           ("--tree walls --bend 0 --drop 40 --seed 8", 72),
                           ("--drop 112", 0)):
        one = made(options)
        check("legal ring: " + options, answer(scene.pack_view(SMALL_WINDOW) + scene.pack(one)), 0)
        check("panels of: " + options, len(panels(one)), count)


def test_ring_numbers():
    check("seed 0 counts along the bore", panels(made("")), set(range(1, 113)))
    drawn = panels(made("--seed 1"))
    check("a seed draws from 1 to 1,024", len(drawn) == 112 and drawn <= set(range(1, 1025)))
    check("another seed, other numbers", drawn != panels(made("--seed 2")))
    check("the same seed, the same ring", patches(made("--seed 1")) == patches(made("--seed 1")))


def test_rings_refused():
    for options, words in (("--rings 30 --segments 9 --facets 4", "refused 1:"),
                           ("--rings 40 --length 300 --bend 0", "refused 3:"),
                           ("--radius 2", "refused 4:"), ("--radius 40000", "does not fit"),
                           ("--tree walls", "needs --bend 0"), ("--rings 300", "2100 panels")):
        check("no ring: %s (%s)" % (options, words), words in fault(made, options))


def pieces_seen(made_scene):
    """The picture, and the patches with their cells in an order of their own."""
    rows, cells = booked(SMALL_WINDOW, made_scene)
    return rows, sorted((patch.panel, made_scene.corners_of(patch), count)
                        for patch, count in zip(made_scene.patches, cells))


def test_trees():
    """Other trees of the same patches: other bytes, the same picture."""
    for one, other in (("--seed 1", "--tree halves --seed 1"),
                       ("--seed 9 --bend 0", "--tree walls --seed 9 --bend 0"),
                       ("--seed 2 --drop 20", "--tree halves --seed 2 --drop 20")):
        first, second = made(one), made(other)
        check("other tree: " + other, scene.pack(first) != scene.pack(second))
        check("same patches: " + other, patches(first) == patches(second))
        check("same picture and pieces: " + other, pieces_seen(first) == pieces_seen(second))


def test_ring_cuttings():
    """Other pieces of the same panels, also under another tree: the same picture."""
    whole = made("--seed 1")
    rows, cells = booked(SMALL_WINDOW, whole)
    for options in ("--cut across", "--cut diagonal", "--cut across --tree halves",
                    "--cut diagonal --tree halves"):
        other = made("--seed 1 " + options)
        now, own = booked(SMALL_WINDOW, other)
        check("two pieces a quad: " + options, len(other.patches), 2 * len(whole.patches))
        check("the same picture: " + options, now, rows)
        check("other pieces have cells: " + options, sorted(own) != sorted(cells))
        check("the same points: " + options, set(cover.compare(whole, other).values()), {None})
    for options in ("--bend 19", "--length 301"):
        check("not cut across: " + options, "even" in fault(made, "--cut across " + options))
    check("cut across a straight bore", len(made("--cut across --bend 0").patches), 608)


def less(gone):
    return made("--without " + ",".join(map(str, sorted(gone))))


def test_panels_taken_away():
    """Hidden panels may go unseen; one that shows leaves its cells to what is behind."""
    whole = made("")
    rows = rays.survey(SMALL_WINDOW, whole)
    seen = {panel for row in rows for panel in row} - {0}
    hidden = panels(whole) - seen
    check("some panels hidden", bool(hidden))
    check("hidden ones gone", panels(less(hidden)), seen)
    check("hidden ones gone: picture", rays.survey(SMALL_WINDOW, less(hidden)), rows)
    one = min(seen)
    after = rays.survey(SMALL_WINDOW, less({one}))
    cells = [cell for row, now in zip(rows, after) for cell in zip(row, now)]
    changed = [was for was, now in cells if was != now]
    check("one that shows gone", changed, [one] * sum(row.count(one) for row in rows))


def test_stored_ring():
    data = scene.pack_view((0, 20, 0, 256, 128, 160)) + scene.pack(made(""))
    check("samples/ring.view is what ring.py makes", stored("samples/ring.view") == data)


def test_row_bound():
    """Leaving patches out of a row by its plane changes nothing."""
    view, whole = SMALL_WINDOW[:3] + (16, 8, 10), made("--facets 1")
    for axes in (scene.LEVEL, axes_of(SKEWED)):
        check("rows without the bound along %s" % (axes,), rays.survey(view, whole, axes),
              along_each(view, whole, axes, rays.line_of))


# --- two cuttings of one ring --------------------------------------------------------------------

def across(*places, panel=5):
    """The line of a patch at forward 100 with corners (x, z)."""
    return patch_line(panel, [(x, 100, z) for x, z in places])


def upright(right, *children):
    """A node along the bore, its positive side to the right."""
    return " ".join(["node %d,0,0 %d,1,0 %d,0,1" % (right, right, right), *children])


BOTH_SIDES = "positive 1 negative 2"
OTHER_HALF = piece(5, 100, 0, 50, -50, 50)

# The square of panel 5, cut in six ways.
CUTTINGS = (
    ("whole", (NODE, FIVE)),
    ("quarters", (NODE, piece(5, 100, -50, 0, -50, 0), piece(5, 100, 0, 50, -50, 0),
                  piece(5, 100, -50, 0, 0, 50), piece(5, 100, 0, 50, 0, 50))),
    ("two triangles", (NODE, across((-50, -50), (50, -50), (50, 50)),
                       across((50, 50), (-50, 50), (-50, -50)))),
    ("four triangles", (NODE, across((0, 0), (-50, -50), (50, -50)),
                        across((50, 50), (0, 0), (50, -50)), across((0, 0), (50, 50), (-50, 50)),
                        across((-50, 50), (-50, -50), (0, 0)))),
    ("pieces that overlap, turned round",
     (NODE, across((20, 50), (20, -50), (-50, -50), (-50, 50)), across((9, 9), (9, 0), (0, 0)),
      across((50, 50), (-20, 50), (-20, -50), (50, -50)), OTHER_HALF, OTHER_HALF)),
    ("halves on two sides", (upright(0, BOTH_SIDES), NODE, OTHER_HALF, NODE, HALF)))

# Which of two scenes may be told to cover a point that the other does not.
FIRST, SECOND, EITHER = (0,), (1,), (0, 1)

# What is not a cutting of that square, and the panels that differ when the square comes first.
SPOILT = (
    ("a gap of one unit", (NODE, HALF, piece(5, 100, 1, 50, -50, 50)), {5: FIRST}),
    ("too wide by one", (NODE, HALF, piece(5, 100, 0, 51, -50, 50)), {5: SECOND}),
    ("moved by one", (NODE, piece(5, 100, -49, 51, -50, 50)), {5: EITHER}),
    ("a corner cut off", (NODE, across((-50, -50), (50, -50), (50, 49), (49, 50), (-50, 50))),
     {5: FIRST}),
    ("triangles that gape", (NODE, across((-50, -50), (50, -50), (50, 50)),
                             across((-50, -50), (49, 50), (-50, 50))), {5: FIRST}),
    ("a hole in the middle", (NODE, piece(5, 100, -50, 0, -50, 50), piece(5, 100, 1, 50, -50, 50),
                              piece(5, 100, 0, 1, -50, 0), piece(5, 100, 0, 1, 1, 50)),
     {5: FIRST}),
    ("half as another panel", (NODE, piece(4, 100, -50, 0, -50, 50), OTHER_HALF),
     {4: SECOND, 5: FIRST}),
    ("half one unit behind", (NODE + " positive 1", HALF, plane(101),
                              piece(5, 101, 0, 50, -50, 50)), {5: EITHER}),
    ("all of it one unit behind", (plane(101), piece(5, 101, -50, 50, -50, 50)), {5: EITHER}),
    ("half missing", (NODE, HALF), {5: FIRST}),
    ("no patch", (), {5: FIRST}),
    ("a panel more", (FRONT + " positive 1", SEVEN, NODE, FIVE), {7: SECOND}))


def accepted(lines):
    return gate.check_scene(scene.build(text_of(*lines)))


def in_triangle(point, a, b, c):
    """In the plane, and with no weight on a corner below 0."""
    n = gate.normal(a, b, c)
    weights = [gate.dot(n, gate.normal(point, p, q)) for p, q in ((b, c), (c, a), (a, b))]
    return gate.side(a, b, c, point) == 0 and min(weights) >= 0


def panel_covers(whole, panel, point):
    """Is the point in a triangle of the fan of some piece of the panel, or on its edge?"""
    pieces = [whole.corners_of(patch) for patch in whole.patches if patch.panel == panel]
    return any(in_triangle(point, corners[0], *two)
               for corners in pieces for two in zip(corners[1:], corners[2:]))


def is_right(scenes, panel, told):
    """Does the panel cover the point in the scene that is named, and not in the other?"""
    which, point = told
    return (all(isinstance(part, (int, Fraction)) for part in point)
            and panel_covers(scenes[which], panel, point)
            and not panel_covers(scenes[1 - which], panel, point))


def check_cover(name, first, second, wanted):
    """The panels that differ are these, each told with a point that shows it."""
    found = cover.compare(first, second)
    told = {panel: found[panel] for panel in found if found[panel]}
    named = {panel: told[panel][0] for panel in told}
    fits = named.keys() == wanted.keys() and all(named[panel] in wanted[panel] for panel in named)
    check("cover: " + name, wanted if fits else named, wanted)
    for panel in told:
        check("witness: %s, panel %d" % (name, panel),
              is_right((first, second), panel, told[panel]))


def check_both_ways(name, first, second, wanted):
    check_cover(name, first, second, wanted)
    check_cover(name + ", the other first", second, first,
                {panel: tuple(1 - which for which in wanted[panel]) for panel in wanted})


def test_cuttings():
    for (one, first), (other, second) in itertools.product(CUTTINGS, repeat=2):
        check_cover("%s and %s" % (one, other), accepted(first), accepted(second), {})
    (_, whole), *others = CUTTINGS
    for name, lines in others:
        for window in ("3 3 4", "4 4 4", "7 5 3"):
            check("same picture: %s, %s" % (name, window),
                  booked(*gate.check_input(input_of(lines, window)))[0],
                  booked(*gate.check_input(input_of(whole, window)))[0])
    check("no patches in either", cover.compare(accepted(()), accepted((NODE,))), {})
    check("all panels are told", cover.compare(accepted((NODE, FIVE)), accepted((NODE, FIVE))),
          {5: None})


def test_covered_points():
    """"its pieces' edges and corners counted in": of the square and of the square turned round."""
    half = Fraction(1, 2)
    for corners in (accepted((NODE, FIVE)).corners, accepted((NODE, FIVE)).corners[::-1]):
        square_piece = cover.Piece(corners)
        for point in ((-50, 100, -50), (50, 100, 50), (half, 100, 50), (50, 100, half),
                      (0, 100, 0)):
            check("covered: %s,%s,%s" % point, square_piece.covers(point))
        for point in ((51, 100, 0), (0, 100, 50 + half), (-50 - half, 100, 50), (0, 101, 0),
                      (0, 100 + half, 0)):
            check("not covered: %s,%s,%s" % point, square_piece.covers(point), False)


# The square's outline in its plane: the lines x = -50, x = 50, z = -50 and z = 50, each with the
# side that the square is on.
SQUARE_OUTLINE = {((1, 0, 50), 0): [(-50, 50)], ((1, 0, -50), 1): [(-50, 50)],
                  ((0, 1, 50), 0): [(-50, 50)], ((0, 1, -50), 1): [(-50, 50)]}


def test_outlines():
    for name, lines in CUTTINGS:
        pieces = cover.pieces_of(accepted(lines))[5]
        check("outline: " + name, cover.outline(pieces), SQUARE_OUTLINE)


def test_spoilt_cuttings():
    for (one, first), (other, second, wanted) in itertools.product(CUTTINGS, SPOILT):
        check_both_ways("%s and %s" % (one, other), accepted(first), accepted(second), wanted)


def check_lines(name, first, second, wanted):
    check_both_ways(name, accepted(first), accepted(second), wanted)


def test_panels_that_overlap():
    """Each panel by itself, where two overlap in one plane."""
    three, five = piece(3, 100, -50, 10, -50, 50), piece(5, 100, -10, 50, -50, 50)
    threes = piece(3, 100, -50, 0, -50, 50), piece(3, 100, 0, 10, -50, 50)
    both, cut = (NODE, three, five), (NODE, *threes, piece(5, 100, -10, 0, -50, 50), OTHER_HALF)
    check_lines("two panels overlap", both, cut, {})
    check_lines("less what both cover", both, (NODE, *threes, OTHER_HALF), {5: FIRST})
    exchanged_ones = piece(3, 100, -10, 50, -50, 50), piece(5, 100, -50, 10, -50, 50)
    check_lines("panels exchanged", both, (NODE, *exchanged_ones), {3: EITHER, 5: EITHER})


def fin(right, near, far, high=50):
    return wall(5, (right, near), (right, far), high=high)


def fins(rights, near, far, first):
    """Nodes with fins, one below the other, with numbers from the first's on."""
    lines = []
    for place, right in enumerate(rights, first):
        child = "positive %d" % (place + 1) if right != rights[-1] else ""
        lines += [upright(right, child), fin(right, near, far, high=600)]
    return lines


def test_crossing_planes():
    """Pieces of one panel in planes that cross."""
    by_square = (NODE + " " + BOTH_SIDES, FIVE, upright(0), fin(0, 100, 150),
                 upright(0), fin(0, 50, 100))
    by_fin = upright(0, BOTH_SIDES), fin(0, 50, 150), NODE, OTHER_HALF, NODE, HALF
    check_lines("a square and a fin", by_square, by_fin, {})
    shorter = (by_fin[0], fin(0, 50, 149), *by_fin[2:])
    check_lines("a fin shorter by one", by_square, shorter, {5: FIRST})
    fin_alone = upright(0), fin(0, 50, 150)
    check_lines("the square gone", by_square, fin_alone, {5: FIRST})
    amid = across((-50, -50), (50, -50), (0, 50))
    check_lines("a triangle with its middle on the fin",
                (by_square[0], amid, *by_square[2:]), fin_alone, {5: FIRST})


def test_witness_off_many_fins():
    """A witness in a square is off the fins that cross it at many simple fractions of its width."""
    rights = sorted({2520 * over // under for under in range(1, 11) for over in range(under + 1)})
    after = 1 + len(rights)
    square_lines = (NODE + " positive 1 negative %d" % after, piece(5, 100, 0, 2520, -500, 500),
                    *fins(rights, 100, 150, 1), *fins(rights, 50, 100, after))
    check("fins to be off", len(rights), 33)
    check_lines("a square with many fins", square_lines, fins(rights, 50, 150, 0), {5: FIRST})


# Pieces by lattice places (i, j), for any plane: its origin and two vectors.

def random_plane(draws):
    """An origin and two vectors off one line, at times along the axes and at times short."""
    while True:
        reach = draws.choice((1, 2, 45))
        u, v = (tuple(draws.choice((0, 1, 1)) * draws.randint(-reach, reach) for _ in range(3))
                for _ in "uv")
        if gate.cross(u, v) != (0, 0, 0):
            return tuple(draws.randint(-900, 900) for _ in range(3)), u, v


def put(where, place):
    origin, u, v = where
    return tuple(o + place[0] * a + place[1] * b for o, a, b in zip(origin, u, v))


def lattice_patch(where, outline, draws):
    """The line of a piece of panel 5, begun at any corner and either way round."""
    at = draws.randrange(len(outline))
    turned = (outline[at:] + outline[:at])[::draws.choice((1, -1))]
    return patch_line(5, [put(where, place) for place in turned])


def lattice_scene(where, outlines, draws):
    """One node with these pieces in any order."""
    points = ["%d,%d,%d" % put(where, place) for place in ((0, 0), (1, 0), (0, 1))]
    lines = [lattice_patch(where, outline, draws) for outline in outlines]
    return accepted(["node " + " ".join(points), *draws.sample(lines, len(lines))])


def turn(p, q, r):
    """Above 0 where r is left of the line from p to q."""
    return (q[0] - p[0]) * (r[1] - p[1]) - (q[1] - p[1]) * (r[0] - p[0])


def in_outline(outline, place):
    return all(turn(p, q, place) >= 0 for p, q in zip(outline, outline[1:] + outline[:1]))


def tiles():
    """All rectangles, and squares halved along a diagonal, of three by three cells."""
    found = []
    for i, j, k, m in itertools.product(range(4), range(4), range(1, 4), range(1, 4)):
        if i + k < 4 and j + m < 4:
            corners = [(i, j), (i + k, j), (i + k, j + m), (i, j + m)]
            found.append(corners)
            found += [corners[:at] + corners[at + 1:] for at in range(4) if k == m]
    return found


# The quarters of a cell between its diagonals: what a tile covers is known by their middles.
QUARTERS = tuple((i + Fraction(a, 6), j + Fraction(b, 6)) for i in range(3) for j in range(3)
                 for a, b in ((1, 3), (3, 1), (5, 3), (3, 5)))


def test_tiles():
    """Random tiles that overlap, held against the quarters of cells that they cover."""
    draws, kinds = random.Random(12), collections.Counter()
    quarters_of = {tuple(tile): {place for place in QUARTERS if in_outline(tile, place)}
                   for tile in tiles()}
    for trial in range(80):
        ones = draws.sample(tiles(), draws.randint(1, 6))
        covered = set().union(*(quarters_of[tuple(tile)] for tile in ones))
        inside = [tile for tile in tiles() if quarters_of[tuple(tile)] <= covered]
        others = draws.sample(inside, draws.randint((len(inside) + 3) // 4, len(inside)))
        lost = covered - set().union(*(quarters_of[tuple(tile)] for tile in others))
        where = random_plane(draws)
        first, second = (lattice_scene(where, some, draws) for some in (ones, others))
        check_both_ways("tiles %d" % trial, first, second, {5: FIRST} if lost else {})
        kinds[bool(lost)] += 1
    check("both kinds of tiles", min(kinds[True], kinds[False]) > 15)


def lattice_ring(outline):
    """All lattice places of an outline's edges, in order."""
    ring_places = []
    for p, q in zip(outline, outline[1:] + outline[:1]):
        steps = math.gcd(q[0] - p[0], q[1] - p[1])
        ring_places += [(p[0] + k * (q[0] - p[0]) // steps, p[1] + k * (q[1] - p[1]) // steps)
                        for k in range(steps)]
    return ring_places


def corners_only(places):
    return [place for k, place in enumerate(places)
            if turn(places[k - 1], place, places[(k + 1) % len(places)])]


def cut_in_two(outline, draws):
    """The parts on two sides of a line between two lattice places of the edges; the outline alone
    where these are on one edge or a part would have too many corners.
    """
    places = lattice_ring(outline)
    one, other = sorted(draws.sample(range(len(places)), 2))
    parts = [corners_only(places[one:other + 1]), corners_only(places[other:] + places[:one + 1])]
    return parts if all(3 <= len(part) <= 8 for part in parts) else [outline]


def cut_up(outline, cuts, draws):
    """A cutting of the outline by so many lines, each through one piece."""
    pieces = [outline]
    for _ in range(cuts):
        pieces += cut_in_two(pieces.pop(draws.randrange(len(pieces))), draws)
    return pieces


OUTLINES = [[(24 * i, 24 * j) for i, j in places] for places in (
    ((0, 0), (3, 1), (1, 3)), ((0, 0), (3, 0), (3, 3), (0, 3)), ((0, 1), (2, 0), (3, 2), (1, 3)),
    ((0, 0), (2, 0), (3, 1), (3, 3), (1, 3), (0, 2)))]


def corner_moved(pieces, draws):
    """(a piece, one with another corner, which corner it is), both convex."""
    while True:
        old = draws.choice(pieces)
        at, step = draws.randrange(len(old)), (draws.randint(-3, 3), draws.randint(-3, 3))
        new = list(old)
        new[at] = (old[at][0] + step[0], old[at][1] + step[1])
        convex = gate.is_strictly_convex([place + (0,) for place in new])
        if any(step) and convex and turn(*new[:3]) > 0:
            return old, new, at


def test_random_cuttings():
    """Random cuttings of one outline cover the same. Where a corner of one piece is moved, nothing
    new is covered while it stays in the outline, and nothing lost where its old place is in the new
    piece: the other pieces only touch this one.
    """
    draws, kinds = random.Random(13), collections.Counter()
    for trial in range(120):
        outline, where = draws.choice(OUTLINES), random_plane(draws)
        pieces = cut_up(outline, draws.randint(1, 20), draws)
        first = lattice_scene(where, cut_up(outline, draws.randint(0, 12), draws), draws)
        check_cover("random cuttings %d" % trial, first, lattice_scene(where, pieces, draws), {})
        old, new, at = corner_moved(pieces, draws)
        spoilt = lattice_scene(where, [new if some is old else some for some in pieces], draws)
        lost, more = not in_outline(new, old[at]), not in_outline(outline, new[at])
        check_both_ways("corner moved %d" % trial, first, spoilt,
                        {5: FIRST * lost + SECOND * more} if lost or more else {})
        kinds[lost, more] += 1
    check("all kinds of moved corners", min(kinds[lost, more] for lost in (True, False)
                                            for more in (True, False)) > 2)


def left_of(outline, p, q):
    """What of an outline is left of the line from p to q; empty where that has no area."""
    sides = [turn(p, q, place) for place in outline]
    if max(sides, default=0) <= 0:
        return []
    kept = []
    for k, place in enumerate(outline):
        if sides[k - 1] * sides[k] < 0:
            share = Fraction(sides[k]) / (sides[k] - sides[k - 1])
            kept.append(tuple(here + share * (before - here)
                              for here, before in zip(place, outline[k - 1])))
        if sides[k] >= 0:
            kept.append(place)
    return kept


def cut_away(outline, other):
    """What is left of an outline outside another: convex parts with an area."""
    parts = []
    for p, q in zip(other, other[1:] + other[:1]):
        parts.append(left_of(outline, q, p))
        outline = left_of(outline, p, q)
    return [part for part in parts if part]


def area_left(outlines, others):
    """Is an area left of some outline when the others are cut away from it one by one?"""
    parts = outlines
    for other in others:
        parts = [rest for part in parts for rest in cut_away(part, other)]
    return bool(parts)


def random_triangle(draws):
    while True:
        places = [(6 * draws.randint(0, 6), 6 * draws.randint(0, 6)) for _ in range(3)]
        if turn(*places) > 0:
            return places


def recut(outlines, draws):
    """The outlines cut up; perhaps with a piece missing, and perhaps with one more."""
    pieces = [part for outline in outlines for part in cut_up(outline, draws.randrange(4), draws)]
    if draws.random() < 0.5:
        pieces.pop(draws.randrange(len(pieces)))
    return pieces + [random_triangle(draws) for _ in range(draws.choice((0, 0, 0, 1)))]


def test_against_cutting_away():
    """Triangles that overlap, in three planes that cross, held against the slow way: each piece of
    the one less each of the other. The lists stand without a tree, which has no part in it.
    """
    draws, kinds = random.Random(14), collections.Counter()
    for trial in range(60):
        lines, lost, more = ([], []), False, False
        for where in [((0, 0, 0), *random_plane(draws)[1:]) for _ in range(3)]:
            ones = [random_triangle(draws) for _ in range(draws.randint(1, 4))]
            others = recut(ones, draws) if draws.random() < 0.7 else ones
            lost, more = lost or area_left(ones, others), more or area_left(others, ones)
            for some, outlines in zip(lines, (ones, others)):
                some += [lattice_patch(where, outline, draws) for outline in outlines]
        first, second = (scene.unpack(scene.build(text_of(*some))) for some in lines)
        check_both_ways("cut away %d" % trial, first, second,
                        {5: FIRST * lost + SECOND * more} if lost or more else {})
        kinds[lost, more] += 1
    check("all kinds to cut away", len(kinds) == 4 and min(kinds.values()) > 2)


def grid(columns, rows, size):
    """The lines of a grid of pieces of panel 5 over a square of `size` units."""
    wide, high = size // columns, size // rows
    return (NODE, *(piece(5, 100, wide * i, wide * i + wide, high * j, high * j + high)
                    for i in range(columns) for j in range(rows)))


def test_full_scenes():
    """As many pieces as a scene can have, in one plane and around a bore."""
    squares, strips, bars = (accepted(grid(*sizes, 1024))
                             for sizes in ((32, 32), (1024, 1), (1, 1024)))
    check("full scenes", [len(whole.patches) for whole in (squares, strips, bars)], [1024] * 3)
    check_cover("1,024 strips, upright and level", strips, bars, {})
    check_cover("one of 1,024 squares missing", strips, accepted(grid(32, 32, 1024)[:-1]),
                {5: FIRST})
    flat = "--segments 9 --facets 1 --bend 0 --length 100 --rings 92 "
    check_cover("a long ring under two trees", made(flat), made(flat + "--tree walls"), {})
    check_cover("panels of a ring gone", made(""), made("--tree halves --without 3,17"),
                {3: FIRST, 17: FIRST})
    other = cover.compare(made("--seed 1"), made("--seed 2"))
    check("a ring with other numbers", len(other) > 200 and all(other.values()))


# --- spans laid on rows --------------------------------------------------------------------------

# On a row 16 wide whose segments are the columns 4 to 11 and 14 to 15: spans, and how many of the
# two each looks at.
LOOKS = ((1, "1-2 2-6 6-8 2-11"),
         (1, "6-11"),
         (2, "12-13"),
         (2, "2-14 6-14 12-14 15-15"),
         (2, "14-20 16-65535"),
         (0, "9-8 15-0"))

# A number k, the column of the maker's k-th span, and what the first k look at together.
WORST = ((0, 1, 0), (1, 1, 1), (2, 3, 3), (3, 5, 6), (127, 253, 8128), (128, 255, 8256),
         (129, 255, 8384), (300, 255, 30272), (1000, 255, 119872), (65535, 255, 8380352))

# The spans that the program `rows_demo` lays, each on the row above; the last on what the one
# before it left.
DEMO = "1-2 2-6 6-8 2-11 6-11 2-14 6-14 12-14 2-12 12-13 15-15 14-20 16-65535 9-8 0-15 3-5"


# On a fresh row of a width, spans laid in order, and the words of the lit map after the last. The
# rows of S in windows of several widths are among them.
FULL = 16 * "f"
MAPPED = (("4 1-2", "6 0 0 0"),
          ("256 64-191", "0 %s %s 0" % (FULL, FULL)),
          ("256 0-127", "%s %s 0 0" % (FULL, FULL)),
          ("256 128-255", "0 0 %s %s" % (FULL, FULL)),
          ("100 25-74", "fffffffffe000000 7ff 0 0"),
          ("65 0-65535", "%s 1 0 0" % FULL),
          ("256 0-255", "%s %s %s %s" % (FULL, FULL, FULL, FULL)),
          ("64 0-63", "%s 0 0 0" % FULL),
          ("128 63-64", "8000000000000000 1 0 0"),
          ("255 200-300 0-0", "1 0 0 7fffffffffffff00"),
          ("70 0-66 68-68 67-67", "%s 1f 0 0" % FULL),
          ("16 20-65535 9-8", "0 0 0 0"),
          ("1 0-0", "1 0 0 0"),
          ("0 0-3", "0 0 0 0"))


def two_segments():
    """The row above, its other columns lit by panel 1."""
    row = laying.Row(16)
    laying.lay(row, 0, 3, 1)
    laying.lay(row, 12, 13, 1)
    return row


def test_looks():
    check("two segments", laying.segments(two_segments().unlit), [(4, 11), (14, 15)])
    for looked, words in LOOKS:
        for word in words.split():
            check("%s looks at" % word, laying.lay(two_segments(), *laying.columns(word), 2)[0],
                  looked)
    full = two_segments()
    check("all lit", laying.lay(full, 4, 15, 2), (2, 10, True))
    for word in ("0-0", "3-5", "15-15", "0-65535", "9-8"):
        check("%s on a full row" % word, laying.lay(full, *laying.columns(word), 3), (0, 0, True))
    dark, first = drawn_map([]), drawn_map([3])
    check("no column", laying.laid_lines(0, [(0, 0), (3, 9), (1, 0)]),
          ["%d 0 0 1: | %s |" % (number, dark) for number in (1, 2, 3)])
    check("one column", laying.laid_lines(1, [(1, 0), (1, 7), (0, 0)]),
          ["1 0 0 0: 0 1 | %s | 0" % dark, "2 1 0 0: 0 1 | %s | 0" % dark,
           "3 1 1 1: | %s | 3" % first])


def painted(cells, first, last, panel):
    """The cells after a span: those of its columns that held none hold its panel."""
    return [panel if first <= column <= last and cell == 0 else cell
            for column, cell in enumerate(cells)]


def drawn_row(cells, first, last):
    """(looked, lit) of a span by a row drawn as text, a dot where unlit."""
    if last < first:
        return 0, 0
    text = "".join("#" if cell else "." for cell in cells)
    ends = [found.end() for found in re.finditer(r"\.+", text)]
    before = [end for end in ends if end <= last]
    return min(len(before) + 1, len(ends)), text[first:last + 1].count(".")


def drawn_map(cells):
    """A row's words of the lit map, by the row drawn as digits from the right, a 1 where lit."""
    digits = "".join("1" if cell else "0" for cell in reversed(cells)).rjust(256, "0")
    return " ".join("%016x" % int(digits[at:at + 64], 2) for at in (192, 128, 64, 0))


def map_of(line):
    """The part of a line that tells the row's words."""
    return line.split("|")[1].strip()


def test_maps():
    for words, due in MAPPED:
        width, *spans = words.split()
        line = laying.laid_lines(int(width), [laying.columns(span) for span in spans])[-1]
        told = map_of(line).split()
        check("the map of " + words, [word.lstrip("0") or "0" for word in told], due.split())
        check("the map of %s, in whole words" % words, [len(word) for word in told], [16] * 4)
    fresh = [map_of(laying.row_line(0, (0, 0, 0), laying.Row(width))) for width in range(257)]
    check("fresh rows", fresh, [drawn_map([0] * width) for width in range(257)])


def test_narrow_rows():
    """Every span on every row 6 wide, whichever of its columns are lit."""
    wrong = []
    for lit in itertools.product((0, 7), repeat=6):
        for first, last in itertools.product(range(9), repeat=2):
            row = laying.Row(6)
            for column in (column for column, cell in enumerate(lit) if cell):
                laying.lay(row, column, column, 7)
            told, cells = laying.lay(row, first, last, 2), painted(lit, first, last, 2)
            if (told, row.cells) != ((*drawn_row(lit, first, last), 0 not in cells), cells):
                wrong.append((lit, first, last))
            if map_of(laying.row_line(1, told, row)) != drawn_map(cells):
                wrong.append(("map", lit, first, last))
    check("rows 6 wide", wrong, [])


def test_worst_case():
    found = laying.worst_looks()
    for k, column, looks in WORST:
        check("the maker's span %d" % k, laying.worst_span(k), (column, column))
        check("the first %d together" % k, laying.together(found, k), looks)
        check("the line of %d" % k, laying.worst_lines([k]), ["%d %d %d" % (column, column, looks)])
    for k in (65536, 2 ** 32, 2 ** 64 - 1):
        check("the line of %d" % k, laying.worst_lines([k]), ["255 255"])
    check("other numbers beside", laying.worst_lines([3, 70000, 0]), ["5 5 6", "255 255", "1 1 0"])
    row = laying.Row(256)
    looked = [laying.lay(row, *laying.worst_span(k), 1)[0] for k in range(1, 1001)]
    check("each laid", [laying.together(found, k) for k in range(1001)],
          [0, *itertools.accumulate(looked)])


def due_lines(width, lines):
    """(spans, the lines due for them) of a stored block of spans."""
    spans, due, cells = [], [], [0] * width
    for number, line in enumerate(lines, 1):
        _, first, last, _, looked, _, lit, _, *pairs = line.split()
        spans.append((int(first), int(last)))
        cells = painted(cells, *spans[-1], number)
        numbers = [part for pair in pairs for part in pair.split(":")]
        due.append(" ".join([str(number), looked, lit, "0:" if pairs else "1:", *numbers, "|",
                             drawn_map(cells), "|", *map(str, cells)]))
    return spans, due


def stored_blocks(kind):
    """The blocks of a kind in the stored cases about rows: each its lines below the second."""
    blocks = stored("tests/cases/F-6.txt").decode().strip().split("\n\n")[1:]
    return [block.splitlines()[2:] for block in blocks if block.startswith(kind + " ")]


def test_stored_spans():
    blocks, laid = stored_blocks("spans"), 0
    for place, (width, *lines) in enumerate(blocks, 1):
        width = int(width.removeprefix("width "))
        spans, due = due_lines(width, lines)
        told = laying.laid_lines(width, spans)
        check("stored row %d: spans" % place, len(told), len(due))
        for number, (one, wanted) in enumerate(zip(told, due), 1):
            check("stored row %d: span %d" % (place, number), one, wanted)
        laid += len(spans)
    check("stored spans", (len(blocks), laid), (60, 832))


def test_stored_bounds():
    lines, = stored_blocks("bounds")
    found, row = laying.worst_looks(), laying.Row(256)
    looked = [laying.lay(row, *laying.worst_span(k), 1)[0] for k in range(1, 301)]
    kinds = collections.Counter()
    for line in lines:
        kind, *numbers = line.split()
        k, number = map(int, numbers)
        told = looked[max(k, 1) - 1] if kind == "bound" else laying.together(found, k)
        check("stored: " + line, told, number)
        kinds[kind] += 1
    check("stored bounds", kinds, {"bound": 301, "reach": 301})


def test_rows_demo():
    told = []
    for number, word in enumerate(DEMO.split(), 1):
        row = two_segments() if number < 16 else row
        told.append(laying.row_line(number, laying.lay(row, *laying.columns(word), 2), row))
    check("rows_demo", text_of(*told), stored("crates/rows_demo/stdout").decode())


def test_rows_narrow():
    """Segments as narrow and as many as can be; the program's lines tell the row alone."""
    row, rows = laying.Row(256), []

    def shown(row):
        return laying.row_line(0, (0, 0, 0), row).split(":")[1]
    for panel, first in ((1, 3), (2, 1)):
        for column in range(first, 256, 4):
            laying.lay(row, column, column, panel)
        rows.append(shown(row))
    other = copy.deepcopy(row)
    for one, word in ((row, "0-255"), (other, "20-20"), (other, "39-41"), (other, "59-60"),
                      (other, "80-81"), (other, "0-255")):
        laying.lay(one, *laying.columns(word), 3)
        rows.append(shown(one))
    lines = stored("crates/rows_narrow/stdout").decode().splitlines()
    check("rows_narrow", rows, [line.split(":")[1] for line in lines])


# --- pictures ------------------------------------------------------------------------------------

def png_chunks(data):
    chunks, at = [], 8
    while at < len(data):
        size, name = struct.unpack_from(">I4s", data, at)
        body = data[at + 8:at + 8 + size]
        good = struct.unpack_from(">I", data, at + 8 + size)[0] == zlib.crc32(name + body)
        chunks.append((name, body if good else None))
        at += 12 + size
    return chunks


def png_lines(data):
    """Width, height and pixel lines of a PNG as draw.py writes it."""
    (_, head), (_, body), _ = png_chunks(data)
    width, height = struct.unpack_from(">II", head)
    pixels, step = zlib.decompress(body), 1 + 3 * width
    return width, height, [pixels[at:at + step] for at in range(0, len(pixels), step)]


def wanted_lines(rows, scale):
    lines = []
    for row in rows:
        line = b"\0" + b"".join(bytes(draw.colour(cell)) for cell in row for _ in range(scale))
        lines += [line] * scale
    return len(rows[0]) * scale, len(lines), lines


def test_pictures():
    check("colours differ", len({draw.colour(panel) for panel in range(1025)}), 1025)
    rows = [[0, 5, 7], [1024, 0, 5]]
    data = draw.draw(rows, 3)
    check("raw cells", draw.unpack_picture(b"\5\0\0\4\7\1", 3, 1), [(5, 1024, 263)])
    for size in ((3, 2), (0, 0), (-3, -1)):
        check("raw cells, not %d by %d" % size,
              fault(draw.unpack_picture, b"\5\0\0\4\7\1", *size)[:7], "6 bytes")
    check("no such panel", fault(draw.draw, [[1025]], 1), "a cell holds 1025, which is no panel")
    check("PNG begins", data[:8], b"\x89PNG\r\n\x1a\n")
    check("PNG parts", [name for name, body in png_chunks(data) if body is not None],
          [b"IHDR", b"IDAT", b"IEND"])
    check("PNG pixels", png_lines(data), wanted_lines(rows, 3))
    rows = rays.survey(*gate.check_input(stored("samples/ring.view")))
    shows = {panel for row in rows for panel in row}
    kept = stored("docs/sample-ring.png")
    check("docs/sample-ring.png", png_lines(kept) == wanted_lines(rows, 4))
    check("panels and a cell without one in it", len(shows) > 60 and 0 in shows)


# --- the commands --------------------------------------------------------------------------------

def ended(name, *words, data=None):
    """A run of a tool: exit status, standard output, standard error."""
    path = os.path.join(ROOT, "tools", name)
    done = subprocess.run([sys.executable, path, *words], input=data, capture_output=True,
                          check=False)
    return done.returncode, done.stdout, done.stderr


def command(name, *words, data=None):
    """(exit status, standard output) of a tool."""
    return ended(name, *words, data=data)[:2]


def test_scene_command():
    text = stored("samples/s.txt")
    s = scene.build(text.decode())
    check("scene.py build", command("scene.py", "build", "-", "-", data=text), (0, s))
    status, shown = command("scene.py", "show", "--view", "-", data=s)
    check("scene.py show", (status, scene.build(shown.decode())), (0, s))
    view = bytes.fromhex("ffff 0200 fdff 2800 3200 3c00")
    check("scene.py view", command("scene.py", "view", "-", "-", "-1", "2", "-3", "40", "50", "60",
                                   data=s[12:]), (0, view + s[12:]))
    check("scene.py on bad text", command("scene.py", "build", "-", "-", data=b"plane"), (1, b""))


def test_survey_commands():
    s = scene.build(stored("samples/s.txt").decode())
    bill = b"view 4 4 4\n5 4\nnothing 12\ntotal 16\n"
    check("rays.py", command("rays.py", "-", data=s), (0, bill))
    check("rays.py, refused", command("rays.py", "-", data=s[:-1]), (0, b"refused 1\n"))
    check("rays.py, too short", command("rays.py", "-", data=s[:11]), (0, b"refused 1\n"))
    check("gate.py", command("gate.py", "-", data=s), (0, b"accepted\n"))
    check("gate.py --scene", command("gate.py", "--scene", "-", data=s[12:]), (0, b"accepted\n"))
    check("gate.py, refused", command("gate.py", "-", data=s[:-1])[0], 1)


def test_axes_commands():
    wall, aside = built("wall"), "0 -1 0 1 0 0 0 0 1".split()
    bill, empty = b"view 4 4 4\n9 4\nnothing 12\ntotal 16\n", b"view 4 4 4\nnothing 16\ntotal 16\n"
    check("rays.py, level", command("rays.py", "-", data=wall), (0, empty))
    check("rays.py --axes", command("rays.py", "--axes", *aside, "-", data=wall), (0, bill))
    check("rays.py, axes last", command("rays.py", "-", "--axes", *aside, data=wall), (0, bill))
    bad = ["--axes"] + ["0"] * 9
    found = "refused 14: right · (forward × up) is 0, not above 0\n".encode()
    check("rays.py, 14", command("rays.py", *bad, "-", data=wall), (0, b"refused 14\n"))
    check("gate.py, 14", command("gate.py", *bad, "-", data=wall), (1, found))
    check("gate.py, a part", command("gate.py", "--axes", "1", "-101", *aside[2:], "-", data=wall),
          (1, b"refused 14: right is 1,-101,0\n"))
    check("gate.py --axes", command("gate.py", "--axes", *aside, "-", data=wall),
          (0, b"accepted\n"))
    for words in (["rays.py", "--axes", *aside[1:], "-"], ["rays.py", *bad, *bad, "-"],
                  ["rays.py", "--axes", "x", *aside[1:], "-"],
                  ["rays.py", "--axes", "40000", *aside[1:], "-"],
                  ["gate.py", "--scene", "-", *bad], ["gate.py", *bad, "--scene", "-"]):
        check("misused: " + " ".join(words), command(*words, data=wall), (1, b""))
    check("misused: axes of a raw picture",
          command("draw.py", "--raw", "4", "4", "-", "-", *bad, data=bytes(32)), (1, b""))


def test_metres_commands():
    s, t = built("s"), built("t", (9, 9, 9, 4, 4, 4))
    near = "--metres 0 0.375 0".split()
    bill = b"view 4 4 4\n5 16\nnothing 0\ntotal 16\n"
    check("rays.py --metres", command("rays.py", *near, "-", data=t), (0, bill))
    check("rays.py, metres last", command("rays.py", "-", *near, data=t), (0, bill))
    status, drawn = command("draw.py", *near, "-", "-", "1", data=t)
    check("draw.py --metres", (status, png_lines(drawn)), (0, wanted_lines([[5] * 4] * 4, 1)))
    for word, said in (("nan", "nan metres, which is not finite"),
                       ("-inf", "-inf metres, which is not finite"),
                       ("1e999", "inf metres, which is not finite"),
                       ("-64", "-64.0 metres, beyond 10000 units")):
        station = ("--metres", "0", word, "0")
        check("gate.py, " + word, command("gate.py", *station, "-", data=s),
              (1, b"refused 15: y of the eye is %s\n" % said.encode()))
        check("rays.py, " + word, command("rays.py", *station, "-", data=s), (0, b"refused 15\n"))
    check("gate.py --metres", command("gate.py", "--metres", "50.0025", "-1e-3", "-0", "-", data=s),
          (0, b"accepted\n"))
    for words in (["rays.py", "--metres", "0", "0", "-"], ["rays.py", *near, *near, "-"],
                  ["rays.py", "--metres", "0", "x", "0", "-"], ["gate.py", *near, "--scene", "-"],
                  ["gate.py", "--metres", "0", "", "0", "-"], ["gate.py", "--scene", *near, "-"],
                  ["gate.py", "--metres", "0", "1_0", "0", "-"]):
        status, written, told = ended(*words, data=s)
        check("misused: " + " ".join(words), (status, written, b"Traceback" in told),
              (1, b"", False))


OUT, NO_VIEW = "no view for what is refused with 15: ", "a view is an eye of three numbers, "

# Words after `--metres` that make no view, and how what is said of them begins.
NO_METRES = (("nan 0 0 4 4 4", OUT + "x of the eye is nan metres, which is not finite"),
             ("0 0 -inf 4 4 4", OUT + "z of the eye is -inf metres, which is not finite"),
             ("0 50.01 0 4 4 4", OUT + "y of the eye is 50.01 metres, beyond 10000 units"),
             ("0 0 0 0 0 0 4 4 4", NO_VIEW), ("0 0 0 4 4", NO_VIEW),
             ("0 0 x 4 4 4", "'x' is not a number"),
             ("0 0", "numbers after --metres: 1 more needed"))


def check_faulty(said, name, *words, data=None):
    """A tool that ends with 1 and says so, and writes nothing."""
    status, written, told = ended(name, *words, data=data)
    check("%s %s" % (name, " ".join(words)), (status, written), (1, b""))
    check("%s %s, said" % (name, " ".join(words)), told.decode()[:len(name) + 2 + len(said)],
          "%s: %s" % (name, said))


def test_views_in_metres():
    """A view holds the whole-number station; what becomes none has no view."""
    s = built("s")[12:]
    for station, window, eye in (("0.0625 -0.1875 -1e-3", "4 4 4", "0c00 daff 0000"),
                                 ("-50.0025 50 0.5", "40 50 60", "f0d8 1027 6400")):
        words = ("view", "-", "-", "--metres", *station.split(), *window.split())
        numbers = struct.pack("<3H", *map(int, window.split()))
        check("scene.py view, metres " + station, command("scene.py", *words, data=s),
              (0, bytes.fromhex(eye) + numbers + s))
    for numbers, said in NO_METRES:
        check_faulty(said, "scene.py", "view", "-", "-", "--metres", *numbers.split(), data=s)
    check_faulty(NO_VIEW, "scene.py", "view", "-", "-", *"0 0 4 4 4".split(), data=s)


def test_rings_in_metres():
    with tempfile.TemporaryDirectory() as folder:
        target = os.path.join(folder, "ring.view")
        given = "--view --metres 0 0.1 0 256 128 160".split()
        check("ring.py, metres", command("ring.py", target, *given)[0], 0)
        check("the stored ring in metres", stored(target) == stored("samples/ring.view"))
        for words, said in (("--metres 0 0.1 0", NO_VIEW), ("--view --metres nan 0 0 4 4 4", OUT)):
            check_faulty(said, "ring.py", target, *words.split())
        for words in ("--view 0 20 0 256 128", "--view --metres 0 0.1 0 256 128"):
            check("ring.py " + words, command("ring.py", target, *words.split()), (2, b""))
        for words in ("--view 0 20 0 256 128 160", "--view --metres 0 0.1 0 256 128 160"):
            check("ring.py, the file last", command("ring.py", *words.split(), target)[0], 0)
            check("ring.py, what it holds", stored(target) == stored("samples/ring.view"))
            os.remove(target)


def test_patch_commands():
    lines = (NODE, piece(3, 100, -80, 0, -20, 80), HALF, FIVE)
    data = input_of(lines, "4 4 4")
    bill = b"view 4 4 4\n3 4\n5 3\nnothing 9\ntotal 16\n"
    by_patch = bill + b"patch 0: 3 4\npatch 1: 5 1\npatch 2: 5 2\n"
    check("rays.py, no patches", command("rays.py", "-", data=data), (0, bill))
    check("rays.py --patches", command("rays.py", "--patches", "-", data=data), (0, by_patch))
    check("rays.py, patches last", command("rays.py", "-", "--patches", data=data), (0, by_patch))
    bill = b"view 4 4 4\n9 4\nnothing 12\ntotal 16\npatch 0: 9 4\n"
    check("rays.py --patches --axes",
          command("rays.py", "--patches", "--axes", *"0 -1 0 1 0 0 0 0 1".split(), "-",
                  data=built("wall")), (0, bill))
    check("rays.py --patches, refused", command("rays.py", "--patches", "-", data=data[:-1]),
          (0, b"refused 1\n"))
    check("rays.py --patches, none",
          command("rays.py", "--patches", "-", data=input_of((), "1 1 1")),
          (0, b"view 1 1 1\nnothing 1\ntotal 1\n"))
    for words in (["rays.py", "--patches"], ["rays.py", "--patches", "--patches", "-"],
                  ["gate.py", "--patches", "-"], ["draw.py", "--patches", "-", "-", "1"]):
        check("misused: " + " ".join(words), command(*words, data=data), (1, b""))


def test_row_lines():
    rows = [[0, 0, 0], [4, 0, 0], [0, 0, 1024], [7, 7, 0], [7, 1, 7], [1, 0, 1]]
    check("rows of a picture", rays.row_lines(rows),
          ["row 0: 0 lit, first unlit 0", "row 1: 1 lit, first unlit 1",
           "row 2: 1 lit, first unlit 0", "row 3: 2 lit, first unlit 2",
           "row 4: 3 lit, none unlit", "row 5: 2 lit, first unlit 1"])


def test_row_commands():
    data = input_of((NODE, FIVE), "4 2 4")
    bill, patches = b"view 4 2 4\n5 4\nnothing 4\ntotal 8\n", b"patch 0: 5 4\n"
    by_row = b"row 0: 2 lit, first unlit 0\nrow 1: 2 lit, first unlit 0\n"
    check("rays.py --rows", command("rays.py", "--rows", "-", data=data), (0, bill + by_row))
    check("rays.py, rows last", command("rays.py", "-", "--rows", data=data), (0, bill + by_row))
    for words in (["--patches", "--rows"], ["--rows", "--patches"]):
        check("rays.py " + " ".join(words), command("rays.py", *words, "-", data=data),
              (0, bill + patches + by_row))
    check("rays.py --rows, all lit",
          command("rays.py", "--rows", "-", data=input_of((NODE, FIVE), "65 1 4096")),
          (0, b"view 65 1 4096\n5 65\nnothing 0\ntotal 65\nrow 0: 65 lit, none unlit\n"))
    check("rays.py --rows --metres",
          command("rays.py", "--rows", "--metres", "0", "0.5", "0", "-", data=data),
          (0, b"view 4 2 4\nnothing 8\ntotal 8\n" + by_row.replace(b"2 lit", b"0 lit")))
    check("rays.py --rows, refused", command("rays.py", "--rows", "-", data=data[:-1]),
          (0, b"refused 1\n"))
    for words in (["rays.py", "--rows"], ["rays.py", "--rows", "--rows", "-"],
                  ["gate.py", "--rows", "-"], ["draw.py", "--rows", "-", "-", "1"]):
        check("misused: " + " ".join(words), command(*words, data=data), (1, b""))


def tile_bill(tile, five, nothing, view="view 4 4 4\n"):
    """The bill of S in a tile."""
    lines = ["tile " + tile] if tile else []
    lines += ["5 %d" % five] if five else []
    return (view + text_of(*lines, "nothing %d" % nothing, "total %d" % (five + nothing))).encode()


def test_tile_commands():
    data = built("s")
    by_row = b"row 0: 2 lit, first unlit 2\nrow 1: 2 lit, first unlit 2\n"
    for tile, five, nothing in (("1 1 3 2", 4, 2), ("0 0 2 2", 1, 3), ("3 0 1 4", 0, 4)):
        words = ("--tile", *tile.split())
        check("rays.py --tile " + tile, command("rays.py", *words, "-", data=data),
              (0, tile_bill(tile, five, nothing)))
        check("rays.py, tile last " + tile, command("rays.py", "-", *words, data=data),
              (0, tile_bill(tile, five, nothing)))
    check("rays.py, the whole as a tile", command("rays.py", "--tile", *"0044", "-", data=data),
          (0, tile_bill("", 4, 12)))
    check("rays.py --tile --rows --patches",
          command("rays.py", "--rows", "--tile", *"1132", "--patches", "-", data=data),
          (0, tile_bill("1 1 3 2", 4, 2) + b"patch 0: 5 4\n" + by_row))
    check("rays.py, 10 by its tile", command("rays.py", "--tile", *"1044", "-", data=data),
          (0, b"refused 10\n"))
    for tile, said in (("1 0 4 4", "the tile ends at column 5 of 4"),
                       ("0 1 4 4", "the tile ends at row 5 of 4"),
                       ("0 0 0 4", "tile width 0, not 1 to 256"),
                       ("0 0 4 129", "tile height 129, not 1 to 128"),
                       ("65535 0 1 1", "the tile ends at column 65536 of 4")):
        check("gate.py --tile " + tile, command("gate.py", "--tile", *tile.split(), "-", data=data),
              (1, b"refused 10: %s\n" % said.encode()))
    check("gate.py --tile", command("gate.py", "--tile", *"1132", "-", data=data),
          (0, b"accepted\n"))
    status, drawn = command("draw.py", "--tile", *"1032", "-", "-", "1", data=data)
    check("draw.py --tile", (status, png_lines(drawn)), (0, wanted_lines(rows_of("000 550"), 1)))
    for words in (["--tile", *"113"], ["--tile", *"1132", "--tiles"], ["--tiles", "--tiles"],
                  ["--tile", *"1132", "--tile", *"1132"], ["--tile", "-1", *"132"],
                  ["--tile", "65536", *"132"], ["--tile", "x", *"132"]):
        for name, rest in (("rays.py", "-"), ("gate.py", "-"), ("draw.py", "- - 1")):
            status, written, told = ended(name, *words, *rest.split(), data=data)
            check("misused: %s %s" % (name, " ".join(words)),
                  (status, written, b"Traceback" in told), (1, b"", False))
    check("misused: a tile of a scene alone",
          command("gate.py", "--scene", "-", "--tiles", data=data[12:]), (1, b""))
    check("misused: tiles of a raw picture",
          command("draw.py", "--raw", "4", "4", "-", "-", "--tiles", data=bytes(32)), (1, b""))


def test_wide_commands():
    """A window of four tiles, of which only the first is of the largest size."""
    wide, view = built("s", (-60, 0, 20, 258, 129, 257)), "view 258 129 257\n"
    shown = seen_along(wide, scene.LEVEL, tiling=tilings.all_tiles)
    five = sum(row.count(5) for row in shown)
    check("a wide picture to keep", [five, shown[-1][0], shown[-1][255:]],
          [116 * 103, 0, [5] * 3])
    bill = tile_bill("", five, 258 * 129 - five, view=view)
    check("rays.py --tiles", command("rays.py", "--tiles", "-", data=wide), (0, bill))
    check("rays.py --tiles --patches",
          command("rays.py", "--tiles", "--patches", "-", data=wide),
          (0, bill + b"patch 0: 5 %d\n" % five))
    listed = ((0, 0, 256, 128), (256, 0, 2, 128), (0, 128, 256, 1), (256, 128, 2, 1))
    lines = []
    for left, top, width, height in listed:
        lines += ["tile %d %d %d %d" % (left, top, width, height)]
        lines += rays.row_lines([row[left:left + width] for row in shown[top:top + height]])
    check("rays.py --tiles --rows", command("rays.py", "--rows", "--tiles", "-", data=wide),
          (0, bill + text_of(*lines).encode()))
    check("rays.py, wide as one tile", command("rays.py", "-", data=wide), (0, b"refused 10\n"))
    check("gate.py, wide as one tile", command("gate.py", "-", data=wide),
          (1, b"refused 10: tile width 258, not 1 to 256\n"))
    check("gate.py --tiles", command("gate.py", "--tiles", "-", data=wide), (0, b"accepted\n"))
    check("gate.py --tiles, too wide",
          command("gate.py", "--tiles", "-", data=built("s", (0, 0, 0, 1025, 1, 1))),
          (1, b"refused 10: width 1025, not 1 to 1024\n"))
    status, drawn = command("draw.py", "--tiles", "-", "-", "1", data=wide)
    check("draw.py --tiles", (status, png_lines(drawn)), (0, wanted_lines(shown, 1)))
    check("draw.py, wide as one tile", command("draw.py", "-", "-", "1", data=wide), (1, b""))
    with tempfile.TemporaryDirectory() as folder:
        name = os.path.join(folder, "wide.u16")
        check("rays.py --tiles, picture", command("rays.py", "--tiles", "-", name, data=wide)[0], 0)
        check("the wide picture", stored(name) == rays.pack_picture(shown))
        check("rays.py --tile, picture",
              command("rays.py", "--tile", "250", "126", "8", "3", "-", name, data=wide)[0], 0)
        check("the tile's picture", stored(name),
              rays.pack_picture([row[250:258] for row in shown[126:129]]))


def covers_said(one, other, *options):
    """What cover.py ends with and says of two files, the second of them standard input."""
    with tempfile.TemporaryDirectory() as folder:
        name = os.path.join(folder, "first")
        scene.write_file(name, one)
        return command("cover.py", *options, name, "-", data=other)


def test_cover_commands():
    s, cut, gap, wide, wrong = (input_of(lines, "4 4 4") for lines in (
        (NODE, FIVE), (NODE, HALF, OTHER_HALF), (NODE, HALF, piece(5, 100, 3, 50, -50, 50)),
        (NODE, piece(4, 100, -50, 0, -50, 50), OTHER_HALF), (FRONT, FIVE)))
    told = b"panel 5: only the %s covers 3/2,100,0\n"
    check("cover.py, the same", covers_said(s, cut), (0, b"the same points: 1 panels\n"))
    check("cover.py, a gap", covers_said(s, gap), (1, told % b"first"))
    check("cover.py, a gap in the first", covers_said(gap, cut), (1, told % b"second"))
    status, lines = covers_said(s, wide)
    check("cover.py, a line for each panel", (status, [line[:9] for line in lines.splitlines()]),
          (1, [b"panel 4: ", b"panel 5: "]))
    check("cover.py --scene", covers_said(s[12:], cut[12:], "--scene"),
          (0, b"the same points: 1 panels\n"))
    check("cover.py, no panels", covers_said(input_of((), "4 4 4"), input_of((), "1 1 1")),
          (0, b"the same points: 0 panels\n"))
    check("cover.py, an odd view", covers_said(s, input_of((NODE, FIVE), "0 0 0"))[0], 0)
    found = b"refused 9: patch of panel 5 in node 0 is not on the plane of node 0\n"
    check("cover.py, 9", covers_said(wrong, s), (2, b"the first: " + found))
    check("cover.py, 9 in the second", covers_said(s, wrong), (2, b"the second: " + found))
    found = b"refused 1: 0 bytes, not 32 to 57376\n"
    check("cover.py, 1", covers_said(s, b""), (2, b"the second: " + found))
    check("cover.py, a view given as a scene", covers_said(s, s, "--scene")[0], 2)
    for words in ([], ["-"], ["-", "-"], ["--scene", "-", "-"], ["--scene", "-"],
                  ["-", "no such file"], ["-", "-", "-"], ["-", "-", "--scene"]):
        check("misused: cover.py " + " ".join(words), command("cover.py", *words, data=s), (2, b""))


def stored_words():
    """(program, the words that ask rows.py for its stored input) of the two programs."""
    laid, worst = stored("crates/rows_laid/stdin"), stored("crates/rows_worst/stdin")
    spans = ["%d-%d" % span for span in struct.iter_unpack("<HH", laid[2:])]
    numbers = ["%d" % number for number in struct.iter_unpack("<Q", worst)]
    return (("rows_laid", [str(laid[0] + 256 * laid[1]), *spans]),
            ("rows_worst", ["--worst", *numbers]))


def test_rows_command():
    for program, words in stored_words():
        given, due = (stored("crates/%s/%s" % (program, name)) for name in ("stdin", "stdout"))
        check("rows.py as " + program, ended("rows.py", *words), (0, due, b""))
        check("rows.py --bytes, " + program, ended("rows.py", "--bytes", "-", *words),
              (0, given, b""))
        check("rows.py, bytes last, " + program, command("rows.py", *words, "--bytes", "-"),
              (0, given))
        with tempfile.TemporaryDirectory() as folder:
            name = os.path.join(folder, "bytes")
            check("rows.py --bytes, a file, " + program,
                  ended("rows.py", "--bytes", name, *words), (0, b"", b""))
            check("the same bytes, " + program, stored(name), given)
    check("rows.py, two-byte numbers", command("rows.py", "--bytes", "-", "256", "513-65535"),
          (0, bytes.fromhex("0001 0102 ffff")))
    check("rows.py, eight-byte numbers",
          command("rows.py", "--worst", str(2 ** 64 - 2), "258", "--bytes", "-"),
          (0, bytes.fromhex("feffffffffffffff 0201000000000000")))


# Words that rows.py cannot take, and what it says.
ROWS_MISUSED = (("", "usage: rows.py [--bytes OUT] WIDTH I-J [I-J ...]"),
                ("16", "usage: "), ("--worst", "usage: "), ("--bytes -", "usage: "),
                ("--bytes - --worst", "usage: "),
                ("--bytes", "rows.py: files after --bytes: 1 more needed"),
                ("16 0-3 --bytes", "rows.py: files after --bytes: 1 more needed"),
                ("257 0-3", "rows.py: 257 is not from 0 to 256"),
                ("-1 0-3", "rows.py: -1 is not from 0 to 256"),
                ("0-3 16", "rows.py: '0-3' is not a whole number"),
                ("16 3", "rows.py: '3' is not a span of two columns"),
                ("16 0-3 1-2-3", "rows.py: '1-2-3' is not a span of two columns"),
                ("16 0-3 --worst", "rows.py: '--worst' is not a span of two columns"),
                ("16 3-", "rows.py: '' is not a whole number"),
                ("16 a-3", "rows.py: 'a' is not a whole number"),
                ("16 0-65536", "rows.py: 65536 is not from 0 to 65535"),
                ("--bytes - 16 65536-0", "rows.py: 65536 is not from 0 to 65535"),
                ("--worst 1 -1", "rows.py: -1 is not from 0 to 18446744073709551615"),
                ("--worst 18446744073709551616", "rows.py: 18446744073709551616 is not from 0 "),
                ("--worst 0-3", "rows.py: '0-3' is not a whole number"),
                ("16" + 4097 * " 0-3", "rows.py: 4097 spans, more than 4096"),
                ("--worst" + 1025 * " 1", "rows.py: 1025 numbers, more than 1024"),
                ("--bytes /dev/null/none 16 0-3", "rows.py: [Errno "))


def test_rows_misused():
    for words, said in ROWS_MISUSED:
        status, shown, told = ended("rows.py", *words.split())
        check("misused: rows.py " + words[:40], (status, shown, told.decode()[:len(said)]),
              (1, b"", said))
    status, shown = command("rows.py", "0", *4096 * ["0-3"])
    check("rows.py, 4,096 spans", (status, shown.splitlines()[-1]),
          (0, b"4096 0 0 1: | %s |" % drawn_map([]).encode()))
    check("rows.py, 1,024 numbers", command("rows.py", "--worst", *1024 * ["1"]),
          (0, 1024 * b"1 1 1\n"))
    with tempfile.TemporaryDirectory() as folder:
        name = os.path.join(folder, "bytes")
        check("misused: rows.py, a file", command("rows.py", "--bytes", name, "16", "3"), (1, b""))
        check("no bytes then", os.path.exists(name), False)


def test_draw_axes():
    """draw.py turns the camera as rays.py does."""
    data = built("quarters", OBLIQUE[:3] + OBLIQUE[12:])
    status, drawn = command("draw.py", "--axes", *SKEWED.split(), "-", "-", "1", data=data)
    check("draw.py --axes", status, 0)
    check("drawn along the axes", png_lines(drawn), wanted_lines(rows_of(OBLIQUE_ROWS), 1))


def test_file_commands():
    with tempfile.TemporaryDirectory() as folder:
        def at(name):
            return os.path.join(folder, name)
        window = ("--view",) + tuple(map(str, SMALL_WINDOW))
        check("ring.py", command("ring.py", at("a.view"), "--seed", "2", *window)[0], 0)
        check("ring.py, text", command("ring.py", at("a.txt"), "--seed", "2", *window)[0], 0)
        check("scene.py of the text", command("scene.py", "build", at("a.txt"), at("b.view"))[0], 0)
        check("text and bytes agree", stored(at("a.view")) == stored(at("b.view")))
        check("rays.py, picture", command("rays.py", at("a.view"), at("a.u16"))[0], 0)
        check("rays.py --patches, picture",
              command("rays.py", "--patches", at("a.view"), at("b.u16"))[0], 0)
        check("the same picture", stored(at("a.u16")) == stored(at("b.u16")))
        check("draw.py", command("draw.py", at("a.view"), at("a.png"), "2")[0], 0)
        check("draw.py --raw",
              command("draw.py", "--raw", "48", "24", at("a.u16"), at("b.png"), "2")[0], 0)
        check("both drawings agree", stored(at("a.png")) == stored(at("b.png")))
        check("drawn at scale 2", png_lines(stored(at("a.png")))[:2], (96, 48))
        check("draw.py, no scale", command("draw.py", at("a.view"), at("a.png"))[0], 0)
        check("drawn at scale 4", png_lines(stored(at("a.png")))[:2], (192, 96))
        check("draw.py, wrong size",
              command("draw.py", "--raw", "48", "25", at("a.u16"), at("c.png"))[0], 1)
        check("nothing drawn then", os.path.exists(at("c.png")), False)


def main():
    for name, test in list(globals().items()):
        if name.startswith("test_"):
            try:
                test()
            except Exception as error:  # a test that cannot run has failed
                check("%s ran (%s: %s)" % (name, type(error).__name__, error), False)
    print("tools: %d passed, %d failed" % (tally[True], tally[False]))
    return 1 if tally[False] or not tally[True] else 0


if __name__ == "__main__":
    sys.exit(main())
