#!/usr/bin/env python3
"""Prints the breaks of a style that paints the numbered pictures as islands: a colour for each value from 0 to 255.

    python3 examples/relief.py SEED

The source's picture is a formula: one cell to the right the value is 17 greater, one cell downwards 13, modulo 256, so each
value stands for one place of a pattern of 256 cells that repeats. This script gives each place a height, a sum of waves that
fit the pattern, and gives each height the colour of a physical map, lighter towards the north west.
"""
import json
import math
import random
import sys

RIGHT, DOWN = 17, 13
# of the lowest places so many, out of 256, have this red, green and blue
TINTS = [(70, (40, 92, 140)), (50, (66, 126, 172)), (26, (104, 166, 200)), (10, (226, 212, 160)), (38, (120, 168, 88)),
         (28, (84, 138, 72)), (18, (176, 156, 104)), (10, (142, 116, 88)), (6, (240, 240, 240))]
SEA = 3  # so many of the tints are of the sea, which has no shade


def turn(wave, step):
    """How far a wave turns over a step, as a part of a whole turn between -1/2 and 1/2."""
    return (wave * step / 256 + 0.5) % 1 - 0.5


def heights(seed):
    """The height of each value: a sum of the longest waves that fit the pattern."""
    draws = random.Random(seed)
    waves = sorted(range(1, 256), key=lambda wave: math.hypot(turn(wave, RIGHT), turn(wave, DOWN)))[:24]
    sums = [0.0] * 256
    for wave in waves:
        length = math.hypot(turn(wave, RIGHT), turn(wave, DOWN))
        phase = draws.random()
        for value in range(256):
            sums[value] += length ** -1.3 * math.cos(2 * math.pi * (wave * value / 256 + phase))
    return sums


def colour(value, sums, order):
    """The tint of the value's height, with the shade of its slope."""
    place, tint = order.index(value), 0
    while place >= TINTS[tint][0]:
        place -= TINTS[tint][0]
        tint += 1
    slope = sums[value] - sums[(value - RIGHT - DOWN) % 256]
    steep = max(abs(sums[v] - sums[(v - RIGHT - DOWN) % 256]) for v in range(256))
    shade = 0 if tint < SEA else round(48 * slope / steep)
    return [value] + [min(255, max(0, part + shade)) for part in TINTS[tint][1]]


def main():
    if len(sys.argv) != 2 or not sys.argv[1].isdigit():
        sys.exit(__doc__)
    sums = heights(int(sys.argv[1]))
    order = sorted(range(256), key=sums.__getitem__)
    print(json.dumps([colour(value, sums, order) for value in range(256)], separators=(",", ":")))


if __name__ == "__main__":
    main()
