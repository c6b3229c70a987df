#!/usr/bin/env python3
"""Writes a file of cells, as source.grid has to be: what the program makes its pictures of in place of its formula.

    python3 examples/cells.py hills WIDTH HEIGHT > source.grid
    python3 examples/cells.py picture < GREY.pgm > source.grid

`hills` draws heights that fit together at all edges, since the program repeats the cells beyond them. `picture` takes a binary grey
picture (PGM, P5, 255 at most), as `gdal_translate -of PNM -ot Byte` and `convert` write it. docs/OPERATING.md has the form of the file.
"""
import math
import re
import struct
import sys

# waves of the hills: how often each goes up and down over the width and the height, how high it is, and where it begins
WAVES = [(1, 1, 30, 0.1), (2, -1, 24, 0.7), (1, 3, 16, 0.3), (4, 2, 10, 0.9), (-3, 5, 7, 0.5), (7, 4, 5, 0.2), (6, -9, 3, 0.6)]


def file_of(width, height, cells):
    return b"WGRD0001" + struct.pack(">II", width, height) + cells


def hills(width, height):
    """The height of each cell, from 0 to 255."""
    def height_at(x, y):
        return 128 + sum(high * math.sin(2 * math.pi * (across * x / width + down * y / height + begin)) for across, down, high, begin in WAVES)
    return bytes(min(255, max(0, round(height_at(x, y)))) for y in range(height) for x in range(width))


def picture(data):
    """The width, the height and the pixels of a grey picture."""
    head = re.match(rb"P5\s(?:#.*\n|\s)*(\d+)\s(?:#.*\n|\s)*(\d+)\s(?:#.*\n|\s)*(\d+)\s", data)
    if not head or int(head.group(3)) > 255:
        sys.exit("no binary PGM of 8 bits")
    width, height = int(head.group(1)), int(head.group(2))
    cells = data[head.end():head.end() + width * height]
    if len(cells) != width * height or not cells:
        sys.exit("the picture is cut short")
    return width, height, cells


def main(words):
    if len(words) == 3 and words[0] == "hills" and all(word.isdigit() and int(word) > 0 for word in words[1:]):
        width, height = int(words[1]), int(words[2])
        sys.stdout.buffer.write(file_of(width, height, hills(width, height)))
    elif words == ["picture"]:
        sys.stdout.buffer.write(file_of(*picture(sys.stdin.buffer.read())))
    else:
        sys.exit(__doc__)


if __name__ == "__main__":
    main(sys.argv[1:])
