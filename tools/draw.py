#!/usr/bin/env python3
"""Draws a survey's picture as PNG: a colour for each panel, cells with no panel plain dark.

    draw.py [--tile LEFT TOP WIDTH HEIGHT | --tiles] [--metres X Y Z]
            [--axes RX RY RZ FX FY FZ UX UY UZ] IN.view OUT.png [SCALE]
                                                             computed here, ray by ray
    draw.py --raw WIDTH HEIGHT PICTURE.u16 OUT.png [SCALE]   a picture made elsewhere

--metres puts a station of three doubles in metres in the place of the view's eye. --axes turns the
camera: its vectors right, forward and up; without it the view is level, (1,0,0), (0,1,0), (0,0,1).
--tile draws one tile of the window: the column and row of its top left cell, and its size. --tiles
draws a window up to 1,024 by 512 from its tiles; without either one above 256 by 128 is refused, as
`ringbill` refuses it.
A raw picture is little-endian u16, row after row from the top, as
`examples/console.c -o` and `rays.py` write it. SCALE is the side of a cell in pixels, 4 unless
said. Examples:

    $ draw.py samples/ring.view docs/sample-ring.png
    $ draw.py --axes 4 -3 0 3 4 0 0 0 5 samples/ring.view aside.png
    $ draw.py --metres 1.5 5 -1 samples/ring.view ahead.png
    $ ring.py - --view 0 20 0 1024 512 640 | draw.py --tiles - wide.png 1
"""

import colorsys
import struct
import sys
import zlib

sys.dont_write_bytecode = True
import gate  # noqa: E402
import rays  # noqa: E402
import scene as scenes  # noqa: E402
import tiles  # noqa: E402

NOTHING = (24, 24, 24)
GOLDEN = 0.6180339887498949


def colour(panel):
    """Hues far apart for neighbours; the low bits carry the number, so no two are alike."""
    if panel == 0:
        return NOTHING
    if panel > gate.PANELS:
        raise scenes.Fault("a cell holds %d, which is no panel" % panel)
    hue = panel * GOLDEN % 1
    light = 0.65 + 0.3 * (panel * 7 % 11) / 10
    strong = 0.35 + 0.35 * (panel * 5 % 7) / 6
    red, green, blue = (int(part * 255) for part in colorsys.hsv_to_rgb(hue, strong, light))
    return (red & ~15 | panel & 15, green & ~7 | panel >> 4 & 7, blue & ~7 | panel >> 7 & 7)


def png_chunk(name, data):
    check = zlib.crc32(name + data)
    return struct.pack(">I", len(data)) + name + data + struct.pack(">I", check)


def png(width, height, lines):
    """A PNG of 8-bit red, green, blue; each line is width × 3 bytes."""
    head = struct.pack(">IIBBBBB", width, height, 8, 2, 0, 0, 0)
    body = zlib.compress(b"".join(b"\0" + line for line in lines), 9)
    return (b"\x89PNG\r\n\x1a\n" + png_chunk(b"IHDR", head) + png_chunk(b"IDAT", body)
            + png_chunk(b"IEND", b""))


def draw(rows, scale):
    """The PNG of a picture, each cell a square of scale × scale pixels."""
    lines = []
    for row in rows:
        line = b"".join(bytes(colour(panel)) * scale for panel in row)
        lines += [line] * scale
    return png(len(rows[0]) * scale, len(lines), lines)


def unpack_picture(data, width, height):
    if width < 1 or height < 1 or len(data) != 2 * width * height:
        raise scenes.Fault("%d bytes are not %d × %d cells" % (len(data), width, height))
    cells = struct.unpack("<%dH" % (width * height), data)
    return [cells[at:at + width] for at in range(0, len(cells), width)]


def read_raw(words):
    width, height, name = int(words[0]), int(words[1]), words[2]
    return unpack_picture(scenes.read_file(name), width, height), words[3:]


def read_view(words, axes, station, tiling):
    return rays.survey_input(scenes.read_file(words[0]), axes, station, tiling)[1], words[1:]


def run(words):
    raw = words[:1] == ["--raw"]
    axes = None if raw else scenes.take_axes(words)
    station = None if raw else scenes.take_metres(words)
    tiling = None if raw else tiles.take_tiling(words)
    if len(words) not in ((5, 6) if raw else (2, 3)):
        sys.exit("usage: draw.py %s %s %s IN.view OUT.png [SCALE]\n"
                 "       draw.py --raw WIDTH HEIGHT PICTURE.u16 OUT.png [SCALE]"
                 % (tiles.TILES, scenes.STATION, scenes.AXES))
    rows, rest = read_raw(words[1:]) if raw else read_view(words, axes, station, tiling)
    scale = int(rest[1]) if len(rest) == 2 else 4
    scenes.write_file(rest[0], draw(rows, max(scale, 1)))


def main():
    try:
        run(sys.argv[1:])
    except (scenes.Fault, gate.No, OSError, ValueError) as fault:
        sys.exit("draw.py: %s" % fault)


if __name__ == "__main__":
    main()
