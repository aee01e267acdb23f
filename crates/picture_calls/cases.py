#!/usr/bin/env python3
"""Makes the cases that the program is run on, and what it is to write. Use: cases.py stdin|stdout"""
import os
import sys

sys.path.insert(0, os.path.join(os.path.dirname(os.path.abspath(__file__)), "..", "..", "tests"))
import blocks
import model
from blocks import COLOURS, LIMIT, data, noise, patch, u16, word


# ---- what the program writes

def checksum(out):
    """This program's sum of an output, which depends on each byte and on its place."""
    s = 1
    for b in out:
        s = 31 * (s % 4294967291) + b
    return s


def line(title, call, arguments, room):
    refusal, got, out = model.write(call, *arguments, out=blocks.pattern(room))
    if refusal:
        return "%s: refused %d %d %d\n" % (title, *refusal.args, checksum(out))
    shown = "".join(" | %d %d %d %d" % tuple(got[4 * n : 4 * n + 4]) for n in (0, 1, 2, 3, 7, 8, 36, 63))
    return "%s: ok %d %d%s\n" % (title, len(got), checksum(out), shown)


# ---- the cases: title, call, arguments but the output, the output's length

SQUARE = 4 * 8 * 8  # the bytes of an 8 by 8 picture


def direct(title, w, palette=0, pal=COLOURS, first=None, second=None, room=None):
    """A direct decoding, with the data and the room that the word says where they are not given."""
    if first is None or second is None:
        made = data(w)
        first, second = made[0] if first is None else first, made[1] if second is None else second
    return title, model.direct, (model.Source(w, first, second, palette, pal),), 4 * model.width(w) * model.height(w) if room is None else room


def formats():
    for form in range(1, 8):
        for bit29 in (0, 1):
            yield direct("format %d, bit 29 %d" % (form, bit29), word(form, clear0=bit29))
        for width, height in ((16, 8), (8, 16)):
            yield direct("format %d, %d by %d" % (form, width, height), word(form, width, height))
        yield direct("format %d, other bits of the word" % form, word(form, offset=0xFFFF, wrap=15, transform=3))
        longer = noise(form, 200), data(word(5))[1] + b"\1\2\3"
        yield direct("format %d, more data, longer output" % form, word(form), 0, COLOURS, *longer, 300)
    for form in (1, 4, 6):
        yield direct("format %d, each byte" % form, word(form, 16, 16), first=bytes(range(256)))
    yield direct("format 4, each byte, bit 29", word(4, 16, 16, 1), first=bytes(range(256)))
    for bit29 in (0, 1):
        yield direct("format 2, byte E4, bit 29 %d" % bit29, word(2, clear0=bit29), first=b"\xe4" * 16)
        yield direct("format 3, byte 10, bit 29 %d" % bit29, word(3, clear0=bit29), first=b"\x10" * 32)
    yield direct("format 7, no palette", word(7), palette=None, first=u16(0x7FFF, 0x8000, 0xFFFF, 0, 0x801F, 0x83E0, 0xFC00, 0x4210) * 8)
    for width, height in ((8, 64), (64, 16)):
        yield direct("format 5, %d by %d" % (width, height), word(5, width, height))


def compressed():
    colours = u16(0x0000, 0x7FFF, 0x1234, 0xFEDC, 0x001F, 0x7C00, 0x8210, 0x03E0)
    for mode in range(4):
        for index in (0, 1, 3, 0x3FFF):
            title = "format 5, mode %d, colour index %d" % (mode, 2 * index)
            yield direct(title, word(5), pal=colours, first=b"\xe4\x1b\xb1\x4e" * 4, second=u16(mode * 2**14 + index) * 4)
        title = "format 5, mode %d, colours outside" % mode
        yield direct(title + ", C3", word(5), pal=colours[:7], first=b"\xe4" * 16, second=u16(mode * 2**14) * 4)
        yield direct(title + ", C2", word(5), pal=colours[:4], first=b"\xe4" * 16, second=u16(mode * 2**14) * 4)
        yield direct(title + ", C1", word(5), pal=colours[2:5], first=b"\xe4" * 16, second=u16(mode * 2**14) * 4)
        yield direct(title + ", end of 32 bits", word(5), LIMIT - 65531, colours, b"\xe4" * 16, u16(mode * 2**14 + 0x3FFF) * 4)


def palettes():
    for form in range(1, 7):
        places = [(7, 0), (0, 0), (40, 39), (40, LIMIT - 1)]
        for length, offset in places + [(512, 8), (512, 3), (511, 1), (3, 0), (1, 0), (40, 40), (40, 41), (40, LIMIT)] * (form == 2):
            title = "format %d, palette block of %d, offset %d" % (form, length, offset)
            yield direct(title, word(form, clear0=1), offset, COLOURS[:length])


def refusals():
    for form in range(8):
        w = word(form)
        first, _ = data(w)
        if form != 7:
            yield direct("format %d, no palette" % form, w, None)
            yield direct("format %d, no palette, no data, no output" % form, w, None, first=b"", second=b"", room=0)
        if form == 0:
            yield direct("format 0, a palette", w)
            yield direct("format 0, a palette, no output", w, room=0)
            yield direct("format 0, a palette, longer output", w, first=noise(0, 64), room=300)
            continue
        yield direct("format %d, a byte of data missing" % form, w, first=first[:-1])
        yield direct("format %d, no data" % form, w, first=b"")
        yield direct("format %d, a byte of data and of output missing" % form, w, first=first[:-1], room=SQUARE - 1)
        yield direct("format %d, a byte of output missing" % form, w, room=SQUARE - 1)
        yield direct("format %d, no output" % form, w, room=0)
    _, second = data(word(5))
    yield direct("format 5, a byte of second data missing", word(5), second=second[:-1])
    yield direct("format 5, no second data", word(5), second=b"", room=300)
    yield direct("format 5, a byte of second data and of output missing", word(5), second=second[:-1], room=SQUARE - 1)
    yield direct("format 7, 1024 by 1024, 1 byte", word(7, 1024, 1024), first=b"\1", second=b"", room=SQUARE)


def block_cases():
    words = [word(0), word(1), word(2, 16, 8), word(2, clear0=1), word(3), word(3, clear0=1), word(4, clear0=1), word(5, 16, 8), word(5, 8, 16),
             word(6), word(7)]
    block = blocks.noisy(words, [0, 1, 11, 65535], 12)

    def case(title, n, choice, room=SQUARE + 8, of=block):
        return "%s, texture %d, palette %s" % (title, n, blocks.choice_text(choice)), model.picture, (of, n, choice), room

    for n, w in enumerate(words):
        for choice in (None, 0, 1, 2):
            yield case("block", n, choice, 4 * model.width(w) * model.height(w) + 8)
    for n, choice in ((1, 3), (5, 3), (0, 4), (1, 4), (10, 4), (1, LIMIT), (11, None), (11, 0), (11, 4), (LIMIT, LIMIT)):
        yield case("block", n, choice)
    for n, choice in ((1, 0), (1, None), (0, None), (0, 4), (11, 0)):
        yield case("block to 0 bytes", n, choice, 0)
    for room, n, choice in ((SQUARE, 1, 0), (SQUARE - 1, 1, 0), (SQUARE - 1, 10, None)):
        yield case("block to %d bytes" % room, n, choice, room)
    for n in [0, 59] + blocks.places(block) + [len(block) - 2, len(block) - 1]:
        yield case("block cut to %d bytes" % n, 1, 0, of=block[:n])
    yield case("block cut to 60 bytes", 11, 4, 0, block[:60])
    small = blocks.noisy([word(2)], [0], 1)
    t, *_, p = blocks.places(small)
    for what, *edits in (
        ("",), (", palette block of 0", (48, 0)), (", palette block outside", (49, 1)), (", stamp", (3, 49)),
        (", texture dummy", (t, 1)), (", texture datum size", (t + 16, 4)), (", data outside", (t + 20, 255)),
        (", palette dummy", (p, 255)), (", palette datum size", (p + 17, 1)), (", palette list outside", (p + 1, 2)),
        (", stamp and texture dummy", (0, 0), (t, 1)), (", texture dummy and size", (t, 1), (t + 16, 4)),
        (", texture size and palette dummy", (t + 16, 9), (p, 1)), (", palette dummy and size", (p, 1), (p + 16, 8)),
        (", no textures", (t + 1, 0), (t + 12, 8), (t + 13, 0)),
    ):
        yield case("small block" + what, 0, 0, of=patch(small, *edits))
    yield case("small block, stamp", 9, 9, 0, b"TEX1" + small[4:])


def cases():
    for group in (formats, compressed, palettes, refusals, block_cases):
        yield from group()


def row(title, call, arguments, room):
    """What the program reads: the call; the title; the word or the texture's number; the palette and the room; first data or the block, second
    data, palette block."""
    if call is model.direct:
        what, first, second, palette, pal = arguments[0]
    else:
        first, what, palette = arguments
        second = pal = b""
    return int(call is model.picture), title.encode(), what, int(palette is not None), palette or 0, room, first, second, pal


if __name__ == "__main__":
    blocks.run(stdin=lambda: blocks.packed([row(*case) for case in cases()]), stdout=lambda: "".join(line(*case) for case in cases()).encode())
