#!/usr/bin/env python3
"""Makes the blocks that the program is run on, and what it is to write. Use: cases.py stdin|stdout"""
import os
import sys

sys.path.insert(0, os.path.join(os.path.dirname(os.path.abspath(__file__)), "..", "..", "tests"))
import blocks
import model
from blocks import SAMPLE, patch, u16, u32
from model import line

LAST = 2**64 - 1  # the largest number of a texture or a palette that can be asked for


# ---- what the program writes

def answer(outcome, *done):
    """The fields that tell how a call ended: `done`, or the refusal, with its want where it has one."""
    refusal = outcome.refusal
    return done if refusal is None else ("refused", *refusal.args) if refusal.cause == 1 else ("refused", refusal.cause)


def shown(part):
    return len(part.content), part.content.hex()


def texture_lines(block, n):
    outcome = model.call(model.texture, block, n, declined=model.NO_TEXTURE)
    record, word = outcome.result, outcome.result.word
    fields = word, model.wrap(word, model.S), model.wrap(word, model.T), model.alpha(word)
    yield line("texture", n, *answer(outcome, "done"), *fields, *shown(record.name))
    yield line("data1", *shown(record.first))
    yield line("data2", *shown(record.second))


def palette_line(block, n):
    outcome = model.call(model.palette, block, n, declined=model.NO_PALETTE)
    return line("palette", n, *answer(outcome, "done"), outcome.result.offset, *shown(outcome.result.name))


def rows_line(rows, block, length):
    outcome = model.write(rows, block, out=[7] * length)
    return line("rows", *answer(outcome, len(outcome.result)), "of", *outcome.out)


def name_line(title, text, name, out):
    outcome = model.write(text, name, out=out)
    return line(title, *answer(outcome, len(outcome.result)), outcome.out)


def lines(block):
    counted = model.call(model.counts, block, declined=())
    yield line("block", len(block))
    yield line("reading", *answer(counted, *counted.result))
    yield line("pal_block", *shown(model.call(model.palette_block, block, declined=model.EMPTY).result))
    for n in (0, 1, 2, LAST):
        yield from texture_lines(block, n)
    for n in (0, 1, LAST):
        yield palette_line(block, n)
    for rows, length in ((model.texture_rows, 19), (model.texture_rows, 5), (model.palette_rows, 5), (model.palette_rows, 1)):
        yield rows_line(rows, block, length)
    name = model.call(model.texture, block, 0, declined=model.NO_TEXTURE).result.name.content
    for title, text, fill in (("safe", model.safe, b"."), ("display", model.display, b"-")):
        yield name_line(title, text, name, 32 * fill)
        yield name_line(title, text, name, 3 * fill)


# ---- the blocks

def built():
    """Three textures, of formats 5, 7 and 0, the last with its data at the block's end, and two palettes."""
    data = bytes((7 * i + 1) % 256 for i in range(192))
    words = [blocks.word(5, wrap=4), blocks.word(7, offset=3, wrap=1), blocks.word(0, offset=len(data) // 8)]
    names = [b"stone_wall", b"sky-\xe9\x01\x7f", b"zero\0zero"]
    palettes = [(b"stone_wall_pl", 1), (b"0123456789abcdef", 65535)]
    return blocks.laid_out(
        blocks.header(length=64), ("texture_off", blocks.texture_list(list(zip(names, words)), unknown(1))),
        ("palette_off", blocks.palette_list(palettes, unknown(2))), ("tex_block_off", data[:152]), ("compressed1_block_off", data[152:168]),
        ("compressed2_block_off", data[168:176]), ("pal_block_off", data[176:]))


def unknown(x):
    """Zeros, but for the unknown numbers of a list, which are x."""
    return lambda n: (bytes(10) + u32(x) * 3)[:n]


def cases():
    yield SAMPLE
    for n in (0, 1, 59, 60, 61, 103, 143, 175, 207):
        yield SAMPLE[:n]
    yield SAMPLE + b"\xff"
    for edits in (
        [(3, b"1")], [(0, b"\0")],  # stamp
        [(60, 1)], [(60, 255), (76, u16(9))], [(76, u16(4))], [(77, 1)],  # texture list's dummy and datum size
        [(104, 1)], [(104, 2), (120, u16(8))], [(120, u16(8))], [(121, 1)],  # palette list's
        [(60, 1), (104, 1)], [(76, u16(7)), (104, 1)],  # the texture list is checked first
        [(80, u32(0x2C010005)), (104, 1)], [(80, u32(0x2C010001)), (120, u16(8))],  # and its data
        [(14, u16(0))], [(14, u16(206))], [(14, u16(207))], [(14, u16(65535))], [(14, u16(104))],  # texture_off
        [(52, u32(0))], [(52, u32(206))], [(52, u32(207))], [(52, u32(2**32 - 1))], [(52, u32(60))],  # palette_off
        [(20, u32(2**32 - 1))], [(20, u32(176))], [(20, u32(177))], [(20, u32(0))],  # tex_block_off
        [(56, u32(2**32 - 1))], [(56, u32(177))], [(48, u16(65535))], [(48, u16(0)), (56, u32(208))], [(48, u16(0)), (56, u32(209))],
        [(61, 0)], [(61, 2)], [(61, 255)], [(105, 0)], [(105, 255)], [(61, 0), (105, 0)],  # counts
        [(80, u32(0))], [(80, u32(0)), (20, u32(208))], [(80, u32(0)), (20, u32(209))], [(80, u32(0xFFFF))],  # format 0
        [(80, u32(0x14000000)), (36, u32(192)), (40, u32(200))], [(80, u32(0x14000000)), (36, u32(193)), (40, u32(200))],  # format 5
        [(80, u32(0x14000000)), (36, u32(192)), (40, u32(201))], [(80, u32(0x14000004)), (36, u32(160)), (40, u32(184))],
        [(80, u32(0x14000004)), (36, u32(160)), (40, u32(185))], [(80, u32(0xFFFFFFFF))], [(80, u32(0x1FF0FFFF))],
        [(80, u32(0x040C0000)), (20, u32(144))], [(80, u32(0x08030000))], [(80, u32(0x280F0000))],
        [(88, b"leaf-1_Z")], [(88, bytes(range(0x1E, 0x2E)))], [(88, b"\x80\xff\xc3\xbf" * 4)], [(88, bytes(16))], [(88, bytes(4) + b"x")],
        [(88, b"/:@[`{09AZaz~\x7f ")], [(128, b"\xe9")], [(124, u16(65535))],
    ):
        yield patch(SAMPLE, *edits)
    block = built()
    names = ("palette_off", "tex_block_off", "compressed1_block_off", "compressed2_block_off", "pal_block_off")
    at, plain, first, second, colours = (model.header_field(block, name) for name in names)
    yield block
    for n in (at, plain, first, second, colours, len(block) - 1, len(block) - 16, plain + 151, plain + 152, first + 15):
        yield block[:n]
    yield patch(block, (at, 1))
    yield patch(block, (92, u32(blocks.word(5, offset=2))))
    numbers = blocks.sequence(1)
    for _ in range(30):
        b = bytearray(block)
        for _ in range(1 + (next(numbers) >> 40) % 3):
            x = next(numbers)
            b[(x >> 33) % (plain + 8)] = x >> 56
        yield bytes(b)


if __name__ == "__main__":
    blocks.run(stdin=lambda: b"".join(u32(len(b)) + b for b in cases()), stdout=lambda: b"".join(text for b in cases() for text in lines(b)))
