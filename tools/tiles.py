"""Tiles of a window: the parts of it that are surveyed one by one, and what they give together.

A tile is the place of its top left cell in the window and its size: left, top, width, height. A
tiling tells the tiles of a view that are to be surveyed.
"""

import sys

sys.dont_write_bytecode = True
import scene as scenes  # noqa: E402

MOST_WIDE, MOST_HIGH = 256, 128
TILES = "[--tile LEFT TOP WIDTH HEIGHT | --tiles]"


def one_tile(view):
    """The tiling of `ringbill`: all of the window as one tile."""
    return [(0, 0) + tuple(view[3:5])]


def all_tiles(view):
    """Tiles that hold each cell of the window once, row after row from the top: of the largest size
    but at the window's right and lower edge.
    """
    width, height = view[3:5]
    return [(left, top, min(MOST_WIDE, width - left), min(MOST_HIGH, height - top))
            for top in range(0, height, MOST_HIGH) for left in range(0, width, MOST_WIDE)]


def take_tiling(words):
    """Take the option TILES out of a command's words: that tile, or all; one where not given."""
    taken = scenes.take_option(words, "--tile", 4, "numbers")
    every = scenes.take_word(words, "--tiles")
    if taken is None:
        return all_tiles if every else one_tile
    if every:
        raise scenes.Fault("one --tile, or all --tiles")
    tile = tuple(scenes.u16(word) for word in taken)
    return lambda view: [tile]


def put_together(tiles, pictures):
    """The rows of the picture that tiles give, from the left: the rows of each in their place. A
    ValueError where the tiles do not hold each cell of a window, or of a part of one, once.
    """
    left, top = (min(tile[axis] for tile in tiles) for axis in (0, 1))
    rows = [[] for _ in range(max(tile[1] + tile[3] for tile in tiles) - top)]
    for tile, picture in sorted(zip(tiles, pictures)):
        for row, cells in zip(rows[tile[1] - top:], picture):
            if len(row) != tile[0] - left:
                raise ValueError("the tiles leave a gap or overlap")
            row += cells
    if len({len(row) for row in rows}) > 1:
        raise ValueError("the tiles do not end at one column")
    return rows
