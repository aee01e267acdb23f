#!/usr/bin/env python3
"""Holds the model to the numbers of document 01: its sample, the sample's listing, and "Proved examples". Says nothing if all hold."""
import model
from blocks import SAMPLE, noise, u16, word


def texels(form, first, colours=b"", second=b""):
    """The first four texels of an 8 by 8 picture with a palette at 0, whose data begin with these bytes."""
    w = word(form)
    source = model.Source(w, first.ljust(model.first_length(w), b"\0"), second.ljust(model.second_length(w), b"\0"), 0, colours)
    return [tuple(model.direct(source)[4 * n :][:4]) for n in range(4)]


def reds(mode, c0, c1):
    """The red of texels 0 to 3 in a mode of format 5, for two levels of red."""
    return [texel[0] for texel in texels(5, b"\xe4", u16(c0, c1), u16(mode << 14))]


def reading(block, out):
    return model.call(model.counts, block, out=out)


COLOURS = noise(1, 16)
RGB = [tuple(model.rgba(model.colour(COLOURS, 0, i), 31)[:3]) for i in range(8)]
WORD = 0x1FF0FFFF

assert len(SAMPLE) == 208 and {name: model.header_field(SAMPLE, name) for name in model.HEADER} == {
    "texture_off": 60, "palette_off": 104, "tex_block_off": 144, "pal_block_off": 176, "pal_block_len_shr_3": 4,
    "compressed1_block_off": 0, "compressed2_block_off": 0}
assert model.listing(SAMPLE) == b"textures 1\n0 leaf 3 8 8 repeat clamp transparent\npalettes 1\n0 leaf 0\n"

assert [model.widen(v) for v in (16, 31)] == [132, 255]
assert texels(1, bytes([5 << 5]))[0][3] == model.widen(22)
assert reds(1, 0, 31)[2] == 127
assert reds(3, 0, 31)[2:] == [95, 159]
assert [of(WORD) for of in (model.width, model.height, model.form, model.offset, model.first_length)] == [1024, 1024, 7, 524280, 2097152]
assert texels(1, b"\xe5", COLOURS)[0] == (*RGB[5], 255)
assert texels(6, b"\x25", COLOURS)[0] == (*RGB[5], 33)
assert [texel[:3] for texel in texels(2, b"\xe4", COLOURS)] == RGB[:4] and len(set(RGB)) == len(RGB)
assert model.colour(b"\xff\xff\xff", 0, 1) == 0
assert texels(7, b"\xff\x7f")[0] == (255, 255, 255, 0)
assert [reading(SAMPLE[:n], b"").refusal for n in (59, 60, 207)] == [model.Refused(1, want) for want in (60, 208, 208)]
assert model.fetch(reading, SAMPLE, b"") == (model.Outcome(None, (1, 1)), 2)
assert model.safe(bytes(16)) == b"_"
