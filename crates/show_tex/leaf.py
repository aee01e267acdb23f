#!/usr/bin/env python3
"""Makes a block with a picture to look at, a leaf, and the image that the program is to write of it. Use: leaf.py block|image|cut

The texture has 64 by 64 texels of format 3, 16 colours of which colour 0 is clear. The files are data/leaf.tex0, stdout, and
../show_tex_refused/data/cut.tex0, which is the block without its last byte.
"""
import math
import os
import sys

sys.path.insert(0, os.path.join(os.path.dirname(os.path.abspath(__file__)), "..", "..", "tests"))
import blocks
import model

SIDE = 64
OUTLINE, STEM, SHADOW = 1, 2, 3
DARKEST, LIGHTEST = 4, 12
RIB_EDGE, SIDE_RIB, MIDRIB = 13, 14, 15

# Red, green, blue levels of 5 bits. Colours 4 to 12 go from dark to light green.
PALETTE = [
    (0, 0, 0), (2, 6, 2), (13, 9, 4), (3, 8, 3),
    (2, 10, 3), (3, 12, 4), (4, 14, 4), (5, 16, 5), (7, 18, 6), (9, 20, 7), (11, 22, 8), (14, 24, 9), (17, 26, 11),
    (4, 12, 4), (18, 26, 13), (24, 29, 18),
]

# Thresholds of an ordered dither, so that nine greens shade smoothly.
DITHER = [[0, 8, 2, 10], [12, 4, 14, 6], [3, 11, 1, 9], [15, 7, 13, 5]]


# ---- the leaf

def along(x, y):
    """How far a point is from the leaf's foot to its tip, as a part of the length, and how far it is beside the curved midrib."""
    angle = math.radians(52)
    dx, dy = x - 14.0, 53.0 - y
    u = (dx * math.cos(angle) + dy * math.sin(angle)) / 56.0
    v = (dy * math.cos(angle) - dx * math.sin(angle)) / 56.0
    return u, v - 0.055 * math.sin(math.pi * u)


def half_width(u):
    """Widest before the middle, pointed at the tip, with teeth at the edge."""
    if u <= 0 or u >= 1:
        return 0.0
    body = 0.345 * math.sin(math.pi * u**0.72) ** 0.85 * (1 - 0.22 * u)
    tooth = (u * 8.0 + 0.35) % 1.0
    return body * (1 - 0.11 * tooth * min(1.0, 6 * (1 - u)))


def inside(x, y):
    u, v = along(x, y)
    return abs(v) < half_width(u)


def green(u, v, x, y):
    """Lighter towards the upper side and between the side ribs, darker at the edge."""
    ribs = (u - 0.70 * abs(v)) * 7.0 % 1.0
    edge = abs(v) / max(half_width(u), 0.001)
    light = 0.52 + (0.20 if v > 0 else -0.16) + 0.30 * math.sin(math.pi * ribs) - 0.34 * edge**3 - 0.14 * u
    level = DARKEST + light * (LIGHTEST - DARKEST) + (DITHER[y % 4][x % 4] + 0.5) / 16 - 0.5
    return max(DARKEST, min(LIGHTEST, round(level)))


def colour(x, y):
    u, v = along(x + 0.5, y + 0.5)
    near = [(x + dx + 0.5, y + dy + 0.5) for dx, dy in ((1, 0), (-1, 0), (0, 1), (0, -1))]
    if not inside(x + 0.5, y + 0.5):
        if -0.16 < u <= 0.02 and abs(v + 0.02 * math.sin(9 * u)) < 0.021:
            return STEM
        if any(inside(*p) for p in near):
            return OUTLINE
        return 0
    if abs(v) < 0.015 * (1.35 - u):
        return MIDRIB
    ribs = (u - 0.70 * abs(v)) * 7.0 % 1.0
    if 0.06 < u and abs(v) < 0.84 * half_width(u):
        if ribs < 0.15:
            return SIDE_RIB
        if ribs > 0.87 and v < 0:
            return RIB_EDGE
    if v < 0 and abs(v) < 0.034 * (1.3 - u):
        return SHADOW
    return green(u, v, x, y)


def indices():
    return [colour(x, y) for y in range(SIDE) for x in range(SIDE)]


# ---- the block, and what the program writes

def block():
    texels = indices()
    data = bytes(texels[i] | texels[i + 1] << 4 for i in range(0, len(texels), 2))
    colours = blocks.u16(*(r | g << 5 | b << 10 for r, g, b in PALETTE))
    word = blocks.word(3, SIDE, SIDE, clear0=1)
    return blocks.laid_out(
        blocks.header(), ("texture_off", blocks.texture_list([(b"leaf", word)])), ("palette_off", blocks.palette_list([(b"leaf", 0)])),
        ("tex_block_off", data), ("pal_block_off", colours))


if __name__ == "__main__":
    blocks.run(block=block, image=lambda: model.show(block(), 0, 0)[0], cut=lambda: block()[:-1])
