#!/usr/bin/env python3
"""A survey computed ray by ray in exact whole numbers: slow, without a tree, without the library.

    rays.py [--patches] [--rows] [--tile LEFT TOP WIDTH HEIGHT | --tiles] [--metres X Y Z]
            [--axes RX RY RZ FX FY FZ UX UY UZ] IN.view [PICTURE.u16]

Reads a view and a scene as `ringbill` does, prints the bill as `ringbill` does (or `refused N`),
and writes the picture, if asked, as raw little-endian u16, row after row from the top. --patches
prints after the bill each patch of the scene: its number, its panel and its cells. --rows prints
after that each row of the picture: its number, how many of its cells are lit, which is that they
show a panel, and its first unlit column if it has one. --metres puts a station of three doubles in
metres in the place of the view's eye. --axes turns the camera: its vectors right, forward and up;
without it the view is level, (1,0,0), (0,1,0), (0,0,1).

--tile surveys one tile of the window: the column and row of its top left cell, and its size. A line
after the first tells which, and the rest is of the tile's cells, rows and columns counted from its
top left cell. --tiles surveys a window up to 1,024 by 512 from tiles of at most 256 by 128: the
bill has their added counts, the patches their added cells, the picture is the whole, and with
--rows come the rows of each tile, after a line that tells which. Without either the window is one
tile, as it is for `ringbill`, and one above 256 by 128 is refused with 10. Examples:

    $ scene.py build samples/s.txt - | rays.py -
    view 4 4 4
    5 4
    nothing 12
    total 16
    $ scene.py build samples/s.txt - | rays.py --axes 1 0 0 1 1 0 0 0 1 -
    view 4 4 4
    5 2
    nothing 14
    total 16
    $ scene.py build samples/t.txt - | rays.py --patches -
    view 4 4 4
    7 4
    nothing 12
    total 16
    patch 0: 7 4
    patch 1: 5 0
    $ scene.py build samples/s.txt - | rays.py --rows - | tail -n 3
    row 1: 2 lit, first unlit 0
    row 2: 2 lit, first unlit 0
    row 3: 0 lit, first unlit 0
    $ scene.py build samples/t.txt - | rays.py --metres 0 0.375 0 -
    view 4 4 4
    5 16
    nothing 0
    total 16
    $ scene.py build samples/s.txt - | rays.py --tile 1 1 3 2 -
    view 4 4 4
    tile 1 1 3 2
    5 4
    nothing 2
    total 6

A sight line along a joint is read as the lines just beside it: right of it, and below it where
that still runs along the joint. Of four panels that meet on the middle line of three by three:

    $ scene.py build samples/quarters.txt - | tail -c +13 >four.scene
    $ scene.py view four.scene - 0 0 0 3 3 4 | rays.py -
    view 3 3 4
    1 1
    2 2
    3 2
    4 4
    nothing 0
    total 9
"""

import collections
import struct
import sys
from fractions import Fraction

sys.dont_write_bytecode = True
import gate  # noqa: E402
import scene as scenes  # noqa: E402
import tiles  # noqa: E402
from gate import cross, dot, minus, normal  # noqa: E402


class Seen:
    """A patch as seen from one eye: what does not change from ray to ray."""

    def __init__(self, eye, number, panel, corners):
        self.number = number
        self.panel = panel
        self.normal = normal(*corners[:3])
        self.from_eye = [minus(corner, eye) for corner in corners]
        self.eye_product = dot(self.from_eye[0], self.normal)
        turned = self.from_eye[1:] + self.from_eye[:1]
        self.edges = [cross(v, w) for v, w in zip(self.from_eye, turned)]

    def is_met(self, line):
        """Does every edge number have the sign of the eye product, none of them 0?"""
        for edge in self.edges:
            if weight(line, edge) * self.eye_product <= 0:
                return False
        return True

    def farness(self, line):
        """Less where the patch is met closer: minus one over the distance, which is the direction's
        product with the normal over the eye product. A step adds to it, so it is a fraction for the
        ray and for each step; of two patches the first fractions that differ tell which is closer.
        """
        return [Fraction(dot(part, self.normal), -self.eye_product) for part in line]

    def may_meet(self, plane):
        """A plane of rays through the eye with all corners strictly on one side meets nothing, and
        neither do rays just beside it. One that only touches the patch may have such rays inside.
        """
        sides = [dot(corner, plane) for corner in self.from_eye]
        return min(sides) <= 0 <= max(sides)


def weight(line, vector):
    """A number with the sign of the line's product with a vector. The line is a ray and what is
    added to it in steps, the first any small enough, the next any small enough beside that: where
    the ray's own product is not 0 no step outweighs it, and where it is 0 the first step decides.
    """
    for part in line:
        product = dot(part, vector)
        if product:
            return product
    return 0


def closest_patch(line, patches):
    """The number of the patch met at the least distance, of the lowest panel where several are
    level. "Where two patches of one panel overlap in a plane, the earlier in the list has the
    cell." None where no patch is met.
    """
    met = [patch for patch in patches if patch.is_met(line)]
    if len(met) > 1:
        met.sort(key=lambda patch: (patch.farness(line), patch.panel, patch.number))
    return met[0].number if met else None


def ray_of(window, axes, column, row):
    """A cell's direction: "(2i + 1 − width) times right plus lens times forward plus
    (height − 1 − 2j) times up".
    """
    width, height, lens = window
    times = (2 * column + 1 - width, lens, height - 1 - 2 * row)
    return tuple(dot(times, parts) for parts in zip(*axes))


def line_of(window, axes, column, row):
    """A cell's line: its direction with "right times any small enough step above 0 added, and up
    times any step above 0 small enough beside that taken away", the view's own right and up.
    """
    right, _, up = axes
    return ray_of(window, axes, column, row), right, tuple(-part for part in up)


def row_plane(window, axes, row):
    """A normal of the plane that holds all rays of a row: they differ by multiples of right."""
    return cross(axes[0], ray_of(window, axes, 0, row))


def seen_from(eye, scene):
    """The scene's patches, each with its number in the list."""
    return [Seen(eye, number, patch.panel, scene.corners_of(patch))
            for number, patch in enumerate(scene.patches)]


def closest_patches(view, scene, axes=scenes.LEVEL, tile=None):
    """For each cell of an accepted view and scene, row after row, its closest patch's number. Of a
    tile "cells are those of the whole window's sight lines at that place".
    """
    window, patches = view[3:], seen_from(view[:3], scene)
    left, top, width, height = tile or tiles.one_tile(view)[0]
    rows = []
    for row in range(top, top + height):
        plane = row_plane(window, axes, row)
        near = [patch for patch in patches if patch.may_meet(plane)]
        rows.append([closest_patch(line_of(window, axes, column, row), near)
                     for column in range(left, left + width)])
    return rows


def panels_of(scene, numbers):
    """The rows of the picture that shows these patches: panel numbers, 0 for none."""
    return [[0 if number is None else scene.patches[number].panel for number in row]
            for row in numbers]


def survey(view, scene, axes=scenes.LEVEL, tile=None):
    """The rows of the picture of an accepted view and scene, lists of panel numbers."""
    return panels_of(scene, closest_patches(view, scene, axes, tile))


def survey_input(data, axes, station=None, tiling=tiles.one_tile):
    """(view, rows) of an input of `ringbill`, if all questions asked here say yes; else No."""
    view, scene = gate.check_input(data, axes, station, tiling)
    pictures = [survey(view, scene, axes, tile) for tile in tiling(view)]
    return view, tiles.put_together(tiling(view), pictures)


def counted(rows):
    return collections.Counter(cell for row in rows for cell in row)


def added(counts):
    """What each counts, added up."""
    return sum(counts, collections.Counter())


def tile_lines(view, tile):
    """A line that tells a tile, for one that is not all of the window."""
    return [] if [tile] == tiles.one_tile(view) else ["tile %d %d %d %d" % tile]


def bill(view, listed, pictures):
    """The bill's lines, of the tiles that are listed, from the rows of each."""
    counts = added(counted(rows) for rows in pictures)
    lines = ["view %d %d %d" % tuple(view[3:])]
    lines += tile_lines(view, listed[0]) if len(listed) == 1 else []
    lines += ["%d %d" % (panel, counts[panel]) for panel in sorted(set(counts) - {0})]
    return lines + ["nothing %d" % counts[0], "total %d" % sum(counts.values())]


def patch_cells(scene, numbers):
    """Each patch's cells, one entry a patch."""
    cells = counted(numbers)
    return [cells[number] for number in range(len(scene.patches))]


def patch_lines(scene, numbered):
    """A line for each patch: its number, its panel and its cells, added up over the tiles."""
    cells = [sum(parts) for parts in zip(*(patch_cells(scene, numbers) for numbers in numbered))]
    return ["patch %d: %d %d" % (number, patch.panel, cells[number])
            for number, patch in enumerate(scene.patches)]


def rows_by_tile(view, listed, pictures):
    """The lines of each tile's rows; where there are several tiles, each after a line on it."""
    lines = []
    for tile, rows in zip(listed, pictures):
        lines += (tile_lines(view, tile) if len(listed) > 1 else []) + row_lines(rows)
    return lines


def row_lines(rows):
    """A line for each row of a picture: its number, its lit cells and its first unlit column."""
    firsts = ["first unlit %d" % row.index(0) if 0 in row else "none unlit" for row in rows]
    return ["row %d: %d lit, %s" % (number, len(row) - row.count(0), first)
            for number, (row, first) in enumerate(zip(rows, firsts))]


def pack_picture(rows):
    cells = [panel for row in rows for panel in row]
    return struct.pack("<%dH" % len(cells), *cells)


def run(words):
    with_patches, with_rows = (scenes.take_word(words, word) for word in ("--patches", "--rows"))
    axes, station = scenes.take_axes(words), scenes.take_metres(words)
    tiling = tiles.take_tiling(words)
    if len(words) not in (1, 2):
        sys.exit("usage: rays.py [--patches] [--rows] %s %s %s IN.view [PICTURE.u16]"
                 % (tiles.TILES, scenes.STATION, scenes.AXES))
    view, scene = gate.check_input(scenes.read_file(words[0]), axes, station, tiling)
    listed = tiling(view)
    numbered = [closest_patches(view, scene, axes, tile) for tile in listed]
    pictures = [panels_of(scene, numbers) for numbers in numbered]
    if len(words) == 2:
        scenes.write_file(words[1], pack_picture(tiles.put_together(listed, pictures)))
    lines = bill(view, listed, pictures) + (patch_lines(scene, numbered) if with_patches else [])
    print("\n".join(lines + (rows_by_tile(view, listed, pictures) if with_rows else [])))


def main():
    try:
        run(sys.argv[1:])
    except gate.No as no:
        print("refused %d" % no.question)
    except (scenes.Fault, OSError) as fault:
        sys.exit("rays.py: %s" % fault)


if __name__ == "__main__":
    main()
