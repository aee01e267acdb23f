"""Makes the blocks, words and inputs that the test programs are run on, and what their lines share.

Where a maker needs a rule of document 01, as the length of a texture's data, it takes it from `model`.
"""
import itertools
import sys
from typing import Callable, Iterator, Optional

import model

LIMIT = 2**32 - 1  # the largest number of 32 bits


# ==== Numbers and bytes

def u16(*numbers: int) -> bytes:
    return b"".join(n.to_bytes(2, "little") for n in numbers)


def u32(*numbers: int) -> bytes:
    return b"".join(n.to_bytes(4, "little") for n in numbers)


def patch(block: bytes, *edits: tuple) -> bytes:
    """The block with these bytes, or this byte, at these positions."""
    b = bytearray(block)
    for p, value in edits:
        value = bytes([value]) if isinstance(value, int) else value
        b[p : p + len(value)] = value
    return bytes(b)


def sequence(seed: int) -> Iterator[int]:
    """Numbers of 64 bits, the same at each run."""
    while True:
        seed = (6364136223846793005 * seed + 1442695040888963407) % 2**64
        yield seed


def noise(seed: int, n: int) -> bytes:
    return bytes(x >> 56 for x in itertools.islice(sequence(seed), n))


def noises(*seeds: int) -> Callable:
    """A filler whose pieces are the noise of these seeds, in turn."""
    rest = iter(seeds)
    return lambda n: noise(next(rest), n)


# ==== Words and blocks

def word(form: int, width: int = 8, height: int = 8, clear0: int = 0, offset: int = 0, wrap: int = 0, transform: int = 0) -> int:
    """A texture word. The offset is in units of 8; `wrap` has bits 0 and 1 for repeat in S and T, 2 and 3 for mirror."""
    sides = (width.bit_length() - 4) << 20 | (height.bit_length() - 4) << 23
    return offset | wrap << 16 | sides | form << 26 | clear0 << 29 | transform << 30


def name_list(names: list, data: list, size: int, past: Callable = bytes) -> bytes:
    """A list of these names and data, with this datum size. `past` fills, in this order, the bytes behind the count, those behind the datum
    size, and each datum that is shorter."""
    count = len(names)
    head = bytes([0, count]) + past(10 + 4 * count) + u16(size) + past(2)
    whole = (datum + past(size - len(datum)) if len(datum) < size else datum for datum in data)
    return head + b"".join(whole) + b"".join(name.ljust(16, b"\0") for name in names)


def texture_list(textures: list, past: Callable = bytes) -> bytes:
    """Of textures by name and word."""
    return name_list([name for name, _ in textures], [u32(w) for _, w in textures], model.TEXTURE_LIST.datum, past)


def palette_list(palettes: list, past: Callable = bytes) -> bytes:
    """Of palettes by name and offset in units of 8."""
    return name_list([name for name, _ in palettes], [u16(units) for _, units in palettes], model.PALETTE_LIST.datum, past)


def with_fields(block: bytes, **fields: int) -> bytes:
    """The block with these numbers in its header."""
    return patch(block, *((model.HEADER[name][0], x.to_bytes(model.HEADER[name][1], "little")) for name, x in fields.items()))


def header(past: Callable = bytes, length: int = model.HEADER_LENGTH, **fields: int) -> bytes:
    """A header with these fields; `past` fills the rest. Bytes that are no part of it may follow."""
    return with_fields(model.STAMP + past(length - 4), **fields)


def laid_out(block: bytes, *pieces: tuple) -> bytes:
    """A header and these pieces behind it: each with the field of the header that says where it begins, or with None. For the palette block
    the header also says how long it is."""
    for name, piece in pieces:
        if name:
            block = with_fields(block, **{name: len(block)})
        if name == "pal_block_off":
            block = with_fields(block, pal_block_len_shr_3=len(piece) // 8)
        block += piece
    return block


# 01, "Listing program": "Sample, 208 bytes, those not named here zero"
SAMPLE = laid_out(
    header(), ("texture_off", texture_list([(b"leaf", 0x2C010000)])), ("palette_off", palette_list([(b"leaf", 0)])),
    ("tex_block_off", bytes(32)), ("pal_block_off", bytes(32)))


# ==== Textures of noise

COLOURS = noise(50, 512)


def data(w: int) -> tuple:
    """First and second data for a word, with the colours of formats 4 and 5 in the first 128 bytes of a palette."""
    first = noise(model.form(w), model.first_length(w))
    extras = [b // 64 << 14 | b % 31 for b in noise(99, model.second_length(w) // 2)]
    return bytes(b % 64 for b in first) if model.form(w) == 4 else first, u16(*extras)


def noisy(words: list, units: list, colours: int) -> bytes:
    """A block with textures of these words, which get their offsets here, palettes of these offsets and so many colours, both in units of
    8 bytes. What is read past is noise. The parts: texture list, palette block, plain data, first and second compressed data, palette list, and
    one byte more."""
    plain, first, second, listed = b"", b"", b"", []
    for w in words:
        one, two = data(w)
        compressed = model.form(w) == 5
        listed.append(u32(w + len(first if compressed else plain) // 8) + noise(1, 4))
        plain, first, second = (plain, first + one, second + two) if compressed else (plain + one, first, second)
    return laid_out(
        header(noises(8)), ("texture_off", name_list(noise_names(4, len(words)), listed, 8, noises(2, 3))), ("pal_block_off", COLOURS[: 8 * colours]),
        ("tex_block_off", plain), ("compressed1_block_off", first), ("compressed2_block_off", second),
        ("palette_off", name_list(noise_names(7, len(units)), [u16(n, 999) for n in units], 4, noises(5, 6))), (None, b"\1"))


def places(block: bytes) -> list:
    """Where the parts of such a block begin, in their order, but for the last byte."""
    names = ("texture_off", "pal_block_off", "tex_block_off", "compressed1_block_off", "compressed2_block_off", "palette_off")
    return [model.header_field(block, name) for name in names]


def noise_names(seed: int, count: int) -> list:
    return [noise(seed, 16 * count)[16 * i :][:16] for i in range(count)]


# ==== Inputs and lines of the test programs

def packed(rows: list, pool: bytes = b"") -> bytes:
    """A standard input: the count of rows, the rows, and a pool of bytes, which begins as given. In a row a number has 4 bytes; bytes stand
    there as their place in the input and their length."""
    start = 4 + 4 * sum(2 if isinstance(x, bytes) else 1 for row in rows for x in row)
    for part in sorted((x for row in rows for x in row if isinstance(x, bytes)), key=len, reverse=True):
        pool += part if part not in pool else b""
    numbers = (y for row in rows for x in row for y in ((start + pool.find(x), len(x)) if isinstance(x, bytes) else (x,)))
    return u32(len(rows), *numbers) + pool


def pattern(room: int) -> bytes:
    """An output as it is filled before a call: bytes that tell their places, none of them 0."""
    return bytes(1 + i % 251 for i in range(room))


def checksum(numbers) -> int:
    """A number that depends on each number and on its place."""
    s = 1
    for x in numbers:
        s = (31 * s + x) % 65521
    return s


def choice_text(choice: Optional[int]) -> str:
    return "none" if choice is None else str(choice)


def run(**files: Callable) -> None:
    """The command line of a script that makes files: its argument is the name of one, which is written to standard output."""
    if len(sys.argv) != 2 or sys.argv[1] not in files:
        sys.exit("use: %s %s" % (sys.argv[0], "|".join(files)))
    sys.stdout.buffer.write(files[sys.argv[1]]())
