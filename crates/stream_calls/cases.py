#!/usr/bin/env python3
"""Makes the cases that the program is run on, and what it is to write. Use: cases.py stdin|stdout

The script also holds what the model gives to demand 3: `keep_law` the calls on a block's first bytes, `fetched` the fetching runs. The fourth length
that a reading tests is the texture list's end, so there the texture count has been read.
"""
import functools
import os
import sys

sys.path.insert(0, os.path.join(os.path.dirname(os.path.abspath(__file__)), "..", "..", "tests"))
import blocks
import model
from blocks import LIMIT, SAMPLE, noise, patch, u16, u32, word
from model import larger, tested


# ---- demand 3

def keep_law(early, full, out, block):
    """What a call on the block's first bytes tells of the same call on the block, both with the output `out`."""
    if early.refusal and early.refusal.cause == 1:
        assert early.out == out
        assert (full.refusal == early.refusal) == (len(block) < early.refusal.value)
    else:
        assert early == full


def fetched(run, block, out):
    """The outcome of the full run, and the count of short answers that 01 defines from the block: those of the fetching run."""
    full, count, t = run(block, out), model.short_answers(block), model.texture_count(block)
    assert model.fetch(run, block, out) == (full, count)
    assert count <= 6 + 2 * (t or 0)
    assert tested(block)[3:4] == ([] if t is None else [model.header_field(block, "texture_off") + 16 + 28 * t])
    return full, count


# ---- what the program writes

def answer(outcome, *done):
    return " ".join(str(x) for x in (("no", *outcome.refusal.args) if outcome.refusal else ("ok", *done)))


def reading(block, out):
    return model.call(model.counts, block, declined=(), out=out)


def picture(n, choice, block, out):
    return model.write(model.picture, block, n, choice, out=out)


def texture_numbers(record):
    """The numbers of a record as they are summed. Wrap words and alpha kinds count from 0."""
    wraps = [("clamp", "repeat", "mirror").index(model.wrap(record.word, axis)) for axis in (model.S, model.T)]
    return [*record.name.content, record.word, *wraps, ("opaque", "transparent", "translucent").index(model.alpha(record.word))]


def part_numbers(part):
    return [len(part.content), *part.content]


def prefix_calls(n, choice, k, room):
    """The calls of a line: the output that each gets; how it ends, given a block and an output; its answer, where that is shown; and the numbers
    beside the answer, which are summed."""
    def record(make, number, declined):
        return lambda b, out: model.call(make, b, number, declined=declined, out=out)

    def pal_block(b, out):
        return model.call(model.palette_block, b, declined=model.EMPTY, out=out)

    texture = record(model.texture, n, model.NO_TEXTURE)
    yield b"", reading, lambda o: answer(o, *o.result), lambda o: []
    yield b"", texture, answer, lambda o: texture_numbers(o.result)
    yield b"", record(model.palette, k, model.NO_PALETTE), answer, lambda o: [*o.result.name.content, o.result.offset]
    yield b"", texture, None, lambda o: part_numbers(o.result.first)
    yield b"", texture, None, lambda o: part_numbers(o.result.second)
    yield b"", pal_block, None, lambda o: part_numbers(o.result)
    for length in (room, 12):
        yield blocks.pattern(length), functools.partial(picture, n, choice), lambda o: answer(o, len(o.result)), lambda o: o.out


def prefix_lines(title, block, n, choice, k, room, least, most):
    calls = [(*call, call[1](block, call[0])) for call in prefix_calls(n, choice, k, room)]
    yield title + "\n"
    for given in range(least, most + 1):
        answers, beside = [], []
        for out, run, shown, numbers, full in calls:
            early = run(block[:given], out)
            keep_law(early, full, out, block)
            answers += [shown(early)] if shown else []
            beside += numbers(early)
        yield "%d | %s | %d\n" % (given, " | ".join(answers), blocks.checksum(beside))


def fetch_line(title, block, n, choice, _k, room, _least, _most):
    counted, count = fetched(reading, block, b"")
    painted, again = fetched(functools.partial(picture, n, choice), block, blocks.pattern(room))
    yield "%s | %s short %d | %s short %d | %d\n" % (
        title, answer(counted, *counted.result), count, answer(painted, len(painted.result)), again, blocks.checksum(painted.out))


# ---- the cases: prefixes or fetching, title, block, texture's number, palette choice, palette's number, output's length, and of prefixes
# the least and the most bytes

def parts(words, units, colours):
    """Of a block with textures of these words, all of format 5, and palettes of these offsets: the header, texture list, palette block,
    first data, second data and palette list."""
    block = blocks.noisy(words, units, colours)
    textures, colours, _, first, second, palettes = blocks.places(block)
    return block[:60], block[textures:colours], block[colours:first], block[first:second], block[second:palettes], block[palettes:-1]


def compressed():
    """Those parts for textures of 8 by 8 and 16 by 8 texels, of other data and with all modes in each, and for two palettes."""
    header, textures, colours, first, second, palettes = parts([word(5), word(5, 16, 8)], [0, 1], 2)
    extras = u16(*(b // 64 << 14 | b % 4 for b in noise(19, len(second) // 2)))
    return header, textures, colours, noise(11, len(first)), extras, palettes


def two():
    """Texture 1's first data end before texture 0's second data, and the palette list before all data. Two bytes follow."""
    header, textures, colours, first, second, palettes = compressed()
    return blocks.laid_out(header, ("texture_off", textures), ("palette_off", palettes), ("pal_block_off", colours), ("compressed1_block_off", first),
                           ("compressed2_block_off", second + b"\1\2"))


def growing():
    """The same with its parts in the order of reading: each length that is tested is larger than all before."""
    header, textures, colours, first, second, palettes = compressed()
    moved = patch(textures, (16 + 4 * 2 + 8, u16(80 // 8)))  # texture 1's data at 80 of first data, so at 40 of second
    return blocks.laid_out(header, ("pal_block_off", colours), ("texture_off", moved), ("compressed1_block_off", first[:16]), (None, bytes(56)),
                           ("compressed2_block_off", second[:8]), (None, first[16:]), (None, second[8:]), ("palette_off", palettes))


def growing_empty():
    """The same with no texture and no palette."""
    header, textures, colours, _, _, palettes = parts([], [], 1)
    return blocks.laid_out(header, ("pal_block_off", colours), ("texture_off", textures), ("palette_off", palettes))


def mixed():
    """Textures of formats 0, 3, 5, 7 and 0, the last of which lies behind all data, and three palettes."""
    block = blocks.noisy([word(0), word(3, clear0=1), word(5), word(7), word(0)], [0, 1, 3], 4)
    textures, _, plain, _, _, palettes = blocks.places(block)
    return patch(block, (textures + 16 + 4 * 5 + 8 * 4, u16((palettes + 15 - plain) // 8)))


ROOM = 4 * 8 * 8 + 4  # an 8 by 8 picture's bytes, and some behind
WIDE = 4 * 16 * 8 + 4


def named(title, n, choice, room):
    """The title with what differs from texture 0, palette 0 and an output of ROOM bytes."""
    title += "" if (n, choice) == (0, 0) else ", texture %d, palette %s" % (n, blocks.choice_text(choice))
    return title + ("" if room == ROOM else ", output of %d" % room)


def prefixes(title, block, n=0, choice=0, room=ROOM, least=0, most=None):
    most = len(block) if most is None else most
    return prefix_lines, named(title + " arriving", n, choice, room), block, n, choice, choice or 0, room, least, most


def fetch(title, block, n=0, choice=0, room=ROOM):
    return fetch_line, named(title, n, choice, room), block, n, choice, choice or 0, room, 0, len(block)


def damaged(name, block):
    """The block with each cause but a short take for which a reading is refused, and with several at once."""
    t, p = model.header_field(block, "texture_off"), model.header_field(block, "palette_off")
    sizes = t + 12 + 4 * block[t + 1], p + 12 + 4 * block[p + 1]
    for what, *edits in (
        ("first letter", (0, b"t")), ("last letter", (3, b"1")), ("texture dummy", (t, 1)), ("texture datum size", (sizes[0], 4)),
        ("palette dummy", (p, 255)), ("palette datum size", (sizes[1] + 1, 1)),
        ("dummies and sizes", (t, 9), (sizes[0], 0), (p, 9), (sizes[1], 0)),
    ):
        yield "%s, other %s" % (name, what), patch(block, *edits)


def prefix_cases():
    yield prefixes("sample", SAMPLE)
    yield prefixes("two", two(), 0, 1)
    row = growing()
    for length in tested(row):
        yield prefixes("growing", row, 1, 0, WIDE if length == len(row) else ROOM, length - 1, length)
    for title, block in damaged("growing", row):
        length = tested(block)[-1]
        yield prefixes(title, block, least=length - 1, most=length)
    yield prefixes("two", two(), 2, 2, least=283, most=284)
    for n in (0, 1):
        yield prefixes("mixed", mixed(), n, None, least=519, most=520)


def cut_cases():
    for n in (0, 1, 59, 60, 61, 207, 208):
        yield fetch("sample to %d" % n, SAMPLE[:n])
    for name, block, n, row in (("two", two(), 0, tested(two())), ("growing", growing(), 0, tested(growing())),
                                ("mixed", mixed(), 2, larger(tested(mixed())))):
        for length in sorted({length - less for length in row for less in (0, 1)} - {59, 60}):
            yield fetch("%s to %d" % (name, length), block[:length], n)


def number_cases():
    block, mix = two(), mixed()
    for n, choice, room in ((0, 1, ROOM), (1, 0, WIDE), (1, 1, WIDE), (2, 0, ROOM), (2, 2, 0), (LIMIT, None, ROOM), (0, 2, 0), (0, LIMIT, ROOM),
                            (0, None, ROOM), (1, None, 0), (0, 0, 256), (0, 0, 255), (0, 0, 0), (1, 0, 511)):
        yield fetch("two", block, n, choice, room)
    for n, choice in ((0, 0), (0, 3), (1, 2), (1, None), (2, 1), (3, None), (3, 3), (4, None), (5, 0)):
        yield fetch("mixed", mix, n, choice)
    yield fetch("mixed to 519", mix[:519], 5, 3, 0)
    for title, textures, palettes in (("no textures", [], [0]), ("no palettes", [word(2)], []), ("empty lists", [], [])):
        yield fetch(title, blocks.noisy(textures, palettes, 0))
    yield fetch("growing, empty lists", growing_empty())


def damaged_cases():
    for title, other in damaged("growing", growing()):
        length = tested(other)[-1]
        for n in sorted({length, len(other)}):
            yield fetch("%s to %d" % (title, n), other[:n])


def far_cases():
    for title, block, *edits in (
        ("sample, palette_off 2^32 - 1", SAMPLE, (52, u32(LIMIT))), ("sample, palette_off 2^32 - 2", SAMPLE, (52, u32(LIMIT - 1))),
        ("sample, palette_off 206", SAMPLE, (52, u32(206))), ("sample, palette_off 207", SAMPLE, (52, u32(207))),
        ("sample, texture_off 65535", SAMPLE, (14, u16(65535))), ("sample, 255 textures", SAMPLE, (61, 255)),
        ("sample, palette block behind 2^32", SAMPLE, (48, u16(65535)), (56, u32(LIMIT))),
        ("sample, no colours at 208", SAMPLE, (48, u16(0)), (56, u32(208))), ("sample, no colours at 209", SAMPLE, (48, u16(0)), (56, u32(209))),
        ("sample, large texture", SAMPLE, (80, u32(0x1FF0FFFF))), ("two, first data at 2^32 - 1", two(), (36, u32(LIMIT))),
        ("two, second data at 2^32 - 1", two(), (40, u32(LIMIT))),
    ):
        yield fetch(title, patch(block, *edits))


def rubbish_cases():
    yield fetch("text", b"no block")
    yield fetch("zeros", bytes(64))
    yield fetch("stamp and zeros", b"TEX0" + bytes(60))
    for seed in (200, 201, 202):
        some = noise(seed, 64)
        yield fetch("rubbish %d" % seed, some)
        yield fetch("stamp and rubbish %d" % seed, b"TEX0" + some[4:])


def cases():
    for group in (prefix_cases, cut_cases, number_cases, damaged_cases, far_cases, rubbish_cases):
        yield from group()


def row(kind, title, block, n, choice, k, room, least, most):
    return int(kind is fetch_line), title.encode(), block[:most], n, int(choice is not None), k, room, least


if __name__ == "__main__":
    blocks.run(stdin=lambda: blocks.packed([row(*case) for case in cases()]),
               stdout=lambda: "".join(line for kind, *case in cases() for line in kind(*case)).encode())
