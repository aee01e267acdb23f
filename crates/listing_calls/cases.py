#!/usr/bin/env python3
"""Makes the inputs that the program is run on, and what it is to write. Use: cases.py stdin|stdout"""
import os
import sys

sys.path.insert(0, os.path.join(os.path.dirname(os.path.abspath(__file__)), "..", "..", "tests"))
import blocks
import model
from blocks import LIMIT, SAMPLE, patch, u16, u32, word


# ---- what the program writes

def shown(title, given, room):
    refusal, text, out = model.write(model.listing, given, out=blocks.pattern(room))
    answer = "no %d %d" % refusal.args if refusal else "ok %d" % len(text)
    return b"%s | %s | %d\n" % (title.encode(), answer.encode(), blocks.checksum(out)) + text


# ---- the blocks

def built(textures, palettes=()):
    """A block with textures of these names and words, and palettes of these names and offsets in units of 8. Positions of data count from
    the block's start, and there are no colours. What is read past is not 0."""
    def past(n):
        return b"\xee" * n

    zeros = dict.fromkeys(("tex_block_off", "compressed1_block_off", "compressed2_block_off", "pal_block_off", "pal_block_len_shr_3"), 0)
    return blocks.laid_out(
        blocks.header(past, **zeros), ("texture_off", blocks.texture_list(textures, past)), ("palette_off", blocks.palette_list(palettes, past)))


SIDES = [8 << i for i in range(8)]


def formats():
    """Each format, with bit 29 and without. The transform mode, which is not listed, takes each value."""
    return built([(b"format%d" % form, word(form, clear0=bit29, transform=form % 4)) for form in range(8) for bit29 in (0, 1)])


def wraps():
    """Each setting of the repeat and the mirror bits."""
    return built([(b"bits%d" % bits, word(bits % 8, wrap=bits)) for bits in range(16)])


def sizes():
    """Each width and height. The textures are of format 0, so they take no data."""
    return built([(b"%dby%d" % (width, height), word(0, width, height)) for width in SIDES for height in SIDES])


def shapes():
    """Widths and heights that differ, of the other formats, with at most 256 bytes of data at different offsets."""
    every = ((1, 16, 8), (1, 8, 32), (2, 128, 8), (2, 16, 64), (3, 64, 8), (3, 8, 32), (4, 32, 8), (4, 8, 16), (5, 8, 128), (5, 64, 16),
             (6, 8, 32), (6, 16, 8), (7, 16, 8), (7, 8, 16))
    return built([(b"%dby%d" % (width, height), word(form, width, height, offset=i)) for i, (form, width, height) in enumerate(every)])


def offsets():
    """Offsets of one to six digits."""
    return built([], [(b"at%d" % (8 * units), units) for units in (0, 1, 12, 13, 124, 125, 1249, 1250, 12499, 12500, 32768, 65535)])


# The 16 bytes of a name, without the zeros at its end.
NAMES = (b"", b"x", b"Leaf", b"zero\0zero", b"\0\0\0third", b"0123456789abcdef", b"\xff" * 16, b" " * 16, b"two words", b" ",
         b"line\nend\r\n", b"\n", b"-", b"/", b"a-b/c.d_e", b"\x7f\x80\xc3\xa9", b"_", b"__")


def names():
    return built([(name, word(0)) for name in NAMES], [(name, i) for i, name in enumerate(NAMES[::-1])])


def every_byte():
    """Each byte in a texture's name and, in the opposite order, in a palette's."""
    rows = [bytes(range(16 * i, 16 * i + 16)) for i in range(16)]
    return built([(name, word(0)) for name in rows], [(name[::-1], 0) for name in rows[::-1]])


def numbered(t, p):
    """So many textures and palettes, of which no two are alike."""
    textures = [(b"t%d" % i, word(0, SIDES[i % 8], SIDES[i // 3 % 8], wrap=i % 16)) for i in range(t)]
    return built(textures, [(b"p%d" % i, 257 * i) for i in range(p)])


def longest():
    """The lists of the block with the longest listing. Its 65,536 bytes are each texture's data: 1024 by 256 texels of 2 bits, the largest
    size that a format with one of the longest alpha words can have."""
    texts = [b"%016d" % (37 * i) for i in range(255)]
    words = [word((2, 5)[i % 2], *((1024, 256), (256, 1024))[i // 2 % 2], clear0=1, wrap=3 + 4 * (i % 4)) for i in range(255)]
    return built(list(zip(texts, words)), [(name, 65535 - i) for i, name in enumerate(texts[::-1])])


# ---- the cases: title, what is listed, output's length

ROOM = 22400
MOST = 22211  # a length that every listing fits


def case(title, given, room=ROOM):
    return title if room == ROOM else "%s, output of %d" % (title, room), given, room


def rooms(title, given):
    """Outputs that have more bytes than the text, as many, and one less."""
    length = len(model.listing(given))
    for room in (ROOM, length, length - 1):
        yield case(title, given, room)


def output_cases():
    yield from rooms("sample", SAMPLE)
    for room in (MOST + 1, MOST, MOST - 1, 1, 0):
        yield case("sample", SAMPLE, room)
    yield from rooms("nothing", b"")
    for room in (MOST, MOST - 1, 14, 1, 0):
        yield case("nothing", b"", room)


def refused_cases():
    for n in (1, 59, 60, 61, 103, 207):
        yield case("sample to %d" % n, SAMPLE[:n])
        yield case("sample to %d" % n, SAMPLE[:n], 64)
    yield case("sample and a byte", SAMPLE + b"\xff")
    yield case("no block", b"no block")
    yield case("zeros", bytes(60), 64)
    for what, *edits in (
        ("other first letter", (0, b"t")), ("other last letter", (3, b"1")), ("texture dummy 1", (60, 1)),
        ("texture datum size 4", (76, 4)), ("texture datum size 264", (77, 1)), ("palette dummy 255", (104, 255)),
        ("palette datum size 8", (120, 8)), ("palette datum size 260", (121, 1)), ("both dummies and sizes", (60, 9), (76, 0), (104, 9), (120, 0)),
        ("both sizes", (76, 0), (120, 0)), ("palette dummy and size", (104, 9), (120, 0)), ("stamp and both dummies", (0, 0), (60, 9), (104, 9)),
    ):
        yield from rooms("sample, " + what, patch(SAMPLE, *edits))


def want_cases():
    for what, *edits in (
        ("texture_off 206", (14, u16(206))), ("texture_off 207", (14, u16(207))), ("texture_off 65535", (14, u16(65535))),
        ("255 textures", (61, 255)), ("255 palettes", (105, 255)), ("palette_off 2^32 - 1", (52, u32(LIMIT))),
        ("pal_block_off 2^32 - 1", (56, u32(LIMIT))), ("pal_block_off 2^32 - 1, 65535 units", (48, u16(65535)), (56, u32(LIMIT))),
        ("tex_block_off 2^32 - 1", (20, u32(LIMIT))), ("large texture", (80, u32(0x1FF0FFFF))),
        ("tex_block_off 2^32 - 1, large texture", (20, u32(LIMIT)), (80, u32(0x1FF0FFFF))),
        ("format 0 at 2^32 - 1", (20, u32(LIMIT)), (80, u32(0xFFFF))),
        ("compressed1_block_off 2^32 - 1", (36, u32(LIMIT)), (80, u32(0x17F0FFFF))),
        ("compressed2_block_off 2^32 - 1", (40, u32(LIMIT)), (80, u32(0x14000001))),
    ):
        yield from rooms("sample, " + what, patch(SAMPLE, *edits))
    for want in sorted({10**digits - less for digits in range(3, 10) for less in (0, 1)} | {LIMIT}):
        yield case("sample, no colours at %d" % want, patch(SAMPLE, (48, u16(0)), (56, u32(want))), 64)
    for want in (99, 100):
        yield case("sample to 60, no colours at %d" % want, patch(SAMPLE[:60], (48, u16(0)), (56, u32(want))), 64)


def list_cases():
    for title, block in (("formats", formats()), ("wraps", wraps()), ("sizes", sizes()), ("shapes", shapes()), ("offsets", offsets()),
                         ("names", names()), ("every byte", every_byte())):
        yield from rooms(title, block)
    for t, p in ((0, 0), (0, 3), (3, 0), (0, 1), (1, 0), (9, 10), (10, 9), (11, 12), (99, 100), (100, 99), (101, 1), (2, 103)):
        yield from rooms("%d textures, %d palettes" % (t, p), numbered(t, p))


# What inputs of about 65,536 bytes begin with. Their other bytes they share: what follows, and zeros behind all.
HEADS = (("longest listing", longest()), ("palette_off 2^32 - 1", patch(SAMPLE, (52, u32(LIMIT)))), ("sample and zeros", SAMPLE),
         ("no stamp", b""))
LONG = b"".join(head for _, head in HEADS) + bytes(65537)


def long_cases():
    start = 0
    for title, head in HEADS:
        for n in (65535, 65536, 65537):
            yield from rooms("%s, %d bytes" % (title, n), LONG[start : start + n])
        start += len(head)


def cases():
    for group in (output_cases, refused_cases, want_cases, list_cases, long_cases):
        yield from group()


def stdin():
    return blocks.packed([(title.encode(), given, room) for title, given, room in cases()], LONG)


if __name__ == "__main__":
    blocks.run(stdin=stdin, stdout=lambda: b"".join(shown(*case) for case in cases()))
