"""The rules of document 01, each once: what the calls and the programs are to give.

The sections have 01's names and order, and a rule stands under the sentence of 01 that it renders. The model is written from these sentences and
shares nothing with the code of the crates. A declined call raises `Refused`; `call` and `write` turn that into an outcome with the output that is
left. What the calls and programs give beyond 01 stands in the last section. `blocks` makes blocks and words to run the model on.
"""
from typing import Any, Callable, NamedTuple, Optional


# ==== Records

# "Whole numbers are unsigned and little-endian"
def number(part: bytes, p: int, n: int) -> int:
    """The number in n bytes at p, which have to be there."""
    return sum(part[p + i] * 256**i for i in range(n))


# "Header, 60 bytes: stamp `TEX0` at 0; [..] The rest is read past."
HEADER_LENGTH = 60
STAMP = b"TEX0"
HEADER = {
    "texture_off": (14, 2), "tex_block_off": (20, 4), "compressed1_block_off": (36, 4), "compressed2_block_off": (40, 4),
    "pal_block_len_shr_3": (48, 2), "palette_off": (52, 4), "pal_block_off": (56, 4),
}


def header_field(header: bytes, name: str) -> int:
    return number(header, *HEADER[name])


# "A texture datum has 8 bytes [..]; a palette datum has 4", and the refusals of the two lists
class ListKind(NamedTuple):
    datum: int  # bytes of a datum
    dummy: int  # the refusal where the dummy is not 0
    size: int  # the refusal where the datum size is another


TEXTURE_LIST, PALETTE_LIST = ListKind(8, 3, 4), ListKind(4, 5, 6)


# "0 to 15 offset in units of 8"
def offset(word: int) -> int:
    """In bytes."""
    return 8 * bits(32, word, 0, 16)


S, T = 0, 1


# "16 and 17 repeat in S and T"
def repeat(word: int, axis: int) -> int:
    return bits(32, word, 16 + axis, 17 + axis)


# "18 and 19 mirror in S and T"
def mirror(word: int, axis: int) -> int:
    return bits(32, word, 18 + axis, 19 + axis)


# "width is 8 shifted left by bits 20 to 22, height likewise by 23 to 25"
def width(word: int) -> int:
    return 8 << bits(32, word, 20, 23)


def height(word: int) -> int:
    return 8 << bits(32, word, 23, 26)


# "26 to 28 format; 29 colour 0 clear; 30 and 31 transform mode"
def form(word: int) -> int:
    """The format."""
    return bits(32, word, 26, 29)


def clear0(word: int) -> int:
    return bits(32, word, 29, 30)


def transform(word: int) -> int:
    return bits(32, word, 30, 32)


# "bits per texel 0, 8, 2, 4, 8, 2, 8, 16"
def bits_per_texel(word: int) -> int:
    return (0, 8, 2, 4, 8, 2, 8, 16)[form(word)]


# "palette needed for 1 to 6"
def needs_palette(word: int) -> bool:
    return 1 <= form(word) <= 6


# "alpha opaque for 0, translucent for 1 and 6, transparent for 5 and 7, and for 2 to 4 transparent with bit 29, else opaque"
def alpha(word: int) -> str:
    if form(word) in (2, 3, 4):
        return "transparent" if clear0(word) else "opaque"
    return {0: "opaque", 1: "translucent", 6: "translucent", 5: "transparent", 7: "transparent"}[form(word)]


# "Data length is width times height times bits, divided by 8."
def first_length(word: int) -> int:
    return width(word) * height(word) * bits_per_texel(word) // 8


# "For format 5 [..] half as many bytes"; "second data is an empty part for other formats"
def second_length(word: int) -> int:
    return first_length(word) // 2 if form(word) == 5 else 0


# "It is `mirror` where the mirror bit is set, else `repeat` where the repeat bit is set, else `clamp`."
def wrap(word: int, axis: int) -> str:
    return "mirror" if mirror(word, axis) else "repeat" if repeat(word, axis) else "clamp"


# ==== Modules

# 1. "`bits(lo, hi)` is the number in bits lo up to hi, hi not included; it is 0 unless lo < hi and hi is at most the width"
def bits(size: int, x: int, lo: int, hi: int) -> int:
    """Of a number of `size` bits."""
    return x // 2**lo % 2 ** (hi - lo) if lo < hi <= size else 0


# 2. "A take of n bytes at p is short exactly if p + n, as an unbounded sum, exceeds the length"; "Want is the length at which the failed take passes"
def take(block: bytes, p: int, n: int) -> bytes:
    if p + n > len(block):
        raise Refused(1, p + n)
    return block[p : p + n]


class Part(NamedTuple):
    """A part of a block, and where it begins."""

    at: int
    content: bytes


EMPTY = Part(0, b"")


class Takes:
    """A block, and the lengths that the takes from it have tested, in order."""

    def __init__(self, block: bytes):
        self.block, self.ends = block, []

    def take(self, p: int, n: int) -> Part:
        self.ends.append(p + n)
        return Part(p, take(self.block, p, n))


# 3. "Whole list read, then dummy = 0, then datum size."
# "dummy (1) at 0, count c (1) at 1, c unknown 4-byte numbers from 12, datum size (2) at 12 + 4c, data from 16 + 4c, then c names of 16 bytes"
# Want: "`texture_off` + 2 while the count is unread, then the list's end"; "the lists end after 16 + 28c and 16 + 24c bytes"
def read_list(takes: Takes, p: int, kind: ListKind) -> list:
    """Each entry's datum and name."""
    count = takes.take(p, 2).content[1]
    data = 16 + 4 * count
    names = data + kind.datum * count
    whole = takes.take(p, names + 16 * count).content
    if whole[0] != 0:
        raise Refused(kind.dummy)
    if number(whole, 12 + 4 * count, 2) != kind.datum:
        raise Refused(kind.size)
    return [(whole[data + kind.datum * i :], Part(p + names + 16 * i, whole[names + 16 * i :][:16])) for i in range(count)]


# "a texture record holds name, word, wrap words and alpha kind, a palette record name and offset"
class Texture(NamedTuple):
    """A texture's record, whose wrap words and alpha kind follow from the word, and its data."""

    name: Part
    word: int
    first: Part
    second: Part


class Palette(NamedTuple):
    name: Part
    offset: int


class Reading(NamedTuple):
    textures: list
    palettes: list
    palette_block: Part


# 5. "Order of reading: header, stamp, palette block (8 times its unit count), texture list, each texture's data in list order, palette list."
def read_takes(takes: Takes) -> Reading:
    header = takes.take(0, HEADER_LENGTH).content
    if header[:4] != STAMP:
        raise Refused(2)
    palette_block = takes.take(header_field(header, "pal_block_off"), 8 * header_field(header, "pal_block_len_shr_3"))
    textures = [read_texture(takes, header, *entry) for entry in read_list(takes, header_field(header, "texture_off"), TEXTURE_LIST)]
    # "a palette datum has 4, the first 2 being its offset in units of 8"
    listed = read_list(takes, header_field(header, "palette_off"), PALETTE_LIST)
    palettes = [Palette(name, 8 * number(datum, 0, 2)) for datum, name in listed]
    return Reading(textures, palettes, palette_block)


# "A texture datum has 8 bytes, the first 4 being the texture word"
# "Data lies at `tex_block_off` + offset. For format 5 it lies at `compressed1_block_off` + offset, then half as many bytes at
# `compressed2_block_off` + half the offset. Format 0 takes 0 bytes."
def read_texture(takes: Takes, header: bytes, datum: bytes, name: Part) -> Texture:
    word = number(datum, 0, 4)
    if form(word) != 5:
        return Texture(name, word, takes.take(header_field(header, "tex_block_off") + offset(word), first_length(word)), EMPTY)
    first = takes.take(header_field(header, "compressed1_block_off") + offset(word), first_length(word))
    second = takes.take(header_field(header, "compressed2_block_off") + offset(word) // 2, second_length(word))
    return Texture(name, word, first, second)


def read(block: bytes) -> Reading:
    return read_takes(Takes(block))


# 7. "Trailing zero bytes are dropped."
def trimmed(name: bytes) -> bytes:
    return name.rstrip(b"\0")


# "`print_safe` keeps letters and digits, turns other bytes into `_`, and gives `_` for an empty name."
def safe(name: bytes) -> bytes:
    return b"".join(c if c.isalnum() else b"_" for c in (bytes([b]) for b in trimmed(name))) or b"_"


# "`Display` writes `.` below 20 hex, and bytes from 80 hex as two UTF-8 bytes."
def display(name: bytes) -> bytes:
    return "".join("." if b < 0x20 else chr(b) for b in trimmed(name)).encode("utf-8")


# ==== Pixels

# "Palette colour i of a palette at byte offset p is the 2-byte number at p + 2i of the palette block, or 0 unless both bytes are inside it"
def colour(palette_block: bytes, p: int, i: int) -> int:
    at = p + 2 * i
    return number(palette_block, at, 2) if at + 2 <= len(palette_block) else 0


# "A 5-bit level v widens to 8v + v/4, division cutting off; so does alpha."
def widen(v: int) -> int:
    return 8 * v + v // 4


# "Red, green, blue are bits 0 to 4, 5 to 9, 10 to 14."; "four output bytes R, G, B, A each"
def rgba(c: int, a: int) -> bytes:
    """The texel of a 16-bit colour and a 5-bit alpha."""
    return bytes(widen(v) for v in (bits(16, c, 0, 5), bits(16, c, 5, 10), bits(16, c, 10, 15), a))


# "Direct decoding (word, first and second data, optional palette block with 32-bit offset)"
class Source(NamedTuple):
    """What a picture is decoded from. Without a palette, `palette` is None and the palette block is not looked at."""

    word: int
    first: bytes
    second: bytes
    palette: Optional[int]
    palette_block: bytes

    def colour(self, i: int) -> int:
        return colour(self.palette_block, self.palette, i)


# "1: index bits 0 to 4; alpha a in bits 5 to 7 becomes 4a + a/2."
def texel1(source: Source, n: int) -> bytes:
    byte = source.first[n]
    a = bits(8, byte, 5, 8)
    return rgba(source.colour(bits(8, byte, 0, 5)), 4 * a + a // 2)


# "2, 3, 4: index of 2, 4, 8 bits; alpha 31, or 0 for index 0 with bit 29. The colour is looked up even so."
# "texels within a byte start at its low bits"
def texel_indexed(source: Source, n: int) -> bytes:
    size = bits_per_texel(source.word)
    low = n * size % 8
    i = bits(8, source.first[n * size // 8], low, low + size)
    return rgba(source.colour(i), 0 if i == 0 and clear0(source.word) else 31)


# "5: 4 by 4 blocks, by rows; 32 bits of first data, low bits first, and a 16-bit extra from second data."
# "Extra bits 0 to 13, doubled, are the first colour index; 14 and 15 the mode."
def texel5(source: Source, n: int) -> bytes:
    x, y = n % width(source.word), n // width(source.word)
    block, place = width(source.word) // 4 * (y // 4) + x // 4, 4 * (y % 4) + x % 4
    chosen = bits(32, number(source.first, 4 * block, 4), 2 * place, 2 * place + 2)
    extra = number(source.second, 2 * block, 2)
    return mode_texel(source, 2 * bits(16, extra, 0, 14), bits(16, extra, 14, 16), chosen)


# "With C0 to C3 the opaque colours from there, texels 0 and 1 are C0, C1. Texel 2: C2, (C0+C1)/2, C2, (5·C0+3·C1)/8 for modes 0 to 3.
# Texel 3: four zero bytes in modes 0 and 1, C3 in 2, (3·C0+5·C1)/8 in 3. A mix takes two palette colours and works on widened channels."
def mode_texel(source: Source, index: int, mode: int, chosen: int) -> bytes:
    def c(k):
        return rgba(source.colour(index + k), 31)

    def mix(a, b):
        return bytes((a * x + b * y) // (a + b) for x, y in zip(c(0), c(1)))

    if chosen == 2:
        return mix(1, 1) if mode == 1 else mix(5, 3) if mode == 3 else c(2)
    if chosen == 3:
        return c(3) if mode == 2 else mix(3, 5) if mode == 3 else bytes(4)
    return c(chosen)


# "6: index bits 0 to 2, alpha bits 3 to 7."
def texel6(source: Source, n: int) -> bytes:
    byte = source.first[n]
    return rgba(source.colour(bits(8, byte, 0, 3)), bits(8, byte, 3, 8))


# "7: 16-bit colour, alpha 31 if bit 15 is set, else 0."
def texel7(source: Source, n: int) -> bytes:
    c = number(source.first, 2 * n, 2)
    return rgba(c, 31 if bits(16, c, 15, 16) else 0)


TEXELS = {1: texel1, 2: texel_indexed, 3: texel_indexed, 4: texel_indexed, 5: texel5, 6: texel6, 7: texel7}


# "Texels run by rows from the top left"; "A picture is 4 · width · height bytes [..] Data beyond the needed length is ignored."
def pixels(source: Source) -> bytes:
    texel = TEXELS[form(source.word)]
    return b"".join(texel(source, n) for n in range(width(source.word) * height(source.word)))


# ==== When a call is declined

# "Cause | Number | Returned"
class Refused(Exception):
    """A declined call: the cause's number, and what is returned, which is the want for 1 and else 0. Two are equal if their numbers are."""

    def __init__(self, cause: int, value: int = 0):
        super().__init__(cause, value)
        self.cause, self.value = cause, value

    def __eq__(self, other):
        return isinstance(other, Refused) and self.args == other.args

    def __hash__(self):
        return hash(self.args)


class Outcome(NamedTuple):
    """How a call ends: its refusal or None; its result, or what stands for one where it is declined; and the output that it leaves."""

    refusal: Optional[Refused]
    result: Any
    out: Any = b""


# "Left as it was | output"
def call(make: Callable, *arguments, declined=None, out=b"") -> Outcome:
    """A call that hands its result back. It changes no output."""
    try:
        return Outcome(None, make(*arguments), out)
    except Refused as refusal:
        return Outcome(refusal, declined, out)


# "output shorter than the result | 11"; "the output beyond them keeps its content". In each order of refusals 11 comes last.
def write(make: Callable, *arguments, out) -> Outcome:
    """A call that writes its result, bytes or a list of numbers, to the start of an output."""
    refusal, result, _ = call(make, *arguments, declined=out[:0])
    if len(result) > len(out):
        refusal, result = Refused(11), out[:0]
    return Outcome(refusal, result, result + out[len(result) :])


# "A reading gives both counts"
def counts(block: bytes) -> tuple:
    got = read(block)
    return len(got.textures), len(got.palettes)


# "texture number not below its count | 7", "palette number not below its count | 8"; "A record or part adds 7 or 8."
def entry(listed: list, n: int, cause: int):
    if n >= len(listed):
        raise Refused(cause)
    return listed[n]


def texture(block: bytes, n: int) -> Texture:
    return entry(read(block).textures, n, 7)


def palette(block: bytes, n: int) -> Palette:
    return entry(read(block).palettes, n, 8)


def palette_block(block: bytes) -> Part:
    return read(block).palette_block


# "Direct decoding [..]: 9, 10, 12, 11."
def direct(source: Source) -> bytes:
    if needs_palette(source.word) and source.palette is None:
        raise Refused(9)
    if form(source.word) == 0:
        raise Refused(10)
    if len(source.first) < first_length(source.word) or len(source.second) < second_length(source.word):
        raise Refused(12)
    return pixels(source)


# "A picture from a block: reading, 7, 8 (also where the palette is unneeded), 9, 10, 12, 11."
def picture(block: bytes, n: int, choice: Optional[int]) -> bytes:
    """With the palette of the number `choice`, or with none."""
    got = read(block)
    chosen = entry(got.textures, n, 7)
    p = None if choice is None else entry(got.palettes, choice, 8).offset
    return direct(Source(chosen.word, chosen.first.content, chosen.second.content, p, got.palette_block.content))


# "it reads the first 0 bytes, then as many as the last want, each attempt an early run lent those bytes alone, until an answer isn't short or
# the want exceeds the block. Each attempt gets the output as the one before left it. Its result carries the last answer and how many answers
# were short, the last included if short."
def fetch(run: Callable, block: bytes, out: bytes) -> tuple:
    """The outcome and the count of short answers of a fetching run, where `run` makes an attempt: of some bytes and an output, the outcome."""
    given, count = 0, 0
    while True:
        outcome = run(block[:given], out)
        if outcome.refusal is None or outcome.refusal.cause != 1:
            return outcome, count
        given, out, count = outcome.refusal.value, outcome.out, count + 1
        if given > len(block):
            return outcome, count


# "of the lengths just listed, take those the full run tests, in the order of reading, up to a refusal or to the first that the block doesn't
# reach, which is included"
def tested(block: bytes) -> list:
    takes = Takes(block)
    call(read_takes, takes)
    return takes.ends


# "the count is how many of them are larger than all before"
def larger(lengths: list) -> list:
    return [length for i, length in enumerate(lengths) if all(before < length for before in lengths[:i])]


def short_answers(block: bytes) -> int:
    return len(larger(tested(block)))


# "The texture count t is the byte at `texture_off` + 1; it is never read where the block ends before 60, the palette block's end or `texture_off` + 2,
# or has another stamp."
def texture_count(block: bytes) -> Optional[int]:
    """None where it is never read."""
    if len(block) < HEADER_LENGTH or block[:4] != STAMP:
        return None
    p = header_field(block, "texture_off")
    if len(block) < max(header_field(block, "pal_block_off") + 8 * header_field(block, "pal_block_len_shr_3"), p + 2):
        return None
    return block[p + 1]


# ==== Listing program

# "It [..] prints lines ended by 0A hex."; "One space parts fields, and counts and numbers are written in decimal."
def line(*fields) -> bytes:
    return b" ".join(f if isinstance(f, bytes) else str(f).encode() for f in fields) + b"\n"


# "Texture lines: number, safe name, format, width, height, wrap S, wrap T, alpha kind."
def texture_line(n: int, listed: Texture) -> bytes:
    word = listed.word
    return line(n, safe(listed.name.content), form(word), width(word), height(word), wrap(word, S), wrap(word, T), alpha(word))


# "Palette lines: number, safe name, offset in bytes."
def palette_line(n: int, listed: Palette) -> bytes:
    return line(n, safe(listed.name.content), listed.offset)


# "Each list opens with its word and its count."; "program's standard input over 65,536 bytes | 13"; "13 comes before any reading"
def lists(given: bytes) -> bytes:
    if len(given) > 65536:
        raise Refused(13)
    got = read(given)
    text = line("textures", len(got.textures)) + b"".join(texture_line(n, listed) for n, listed in enumerate(got.textures))
    return text + line("palettes", len(got.palettes)) + b"".join(palette_line(n, listed) for n, listed in enumerate(got.palettes))


# "Otherwise the single line `refused`, number, want"
def refused_line(refusal: Refused) -> bytes:
    return line("refused", refusal.cause, refusal.value)


def listing(given: bytes) -> bytes:
    refusal, text, _ = call(lists, given)
    return refused_line(refusal) if refusal else text


# ==== Beyond 01

# What stands in the record of a declined call: a name of zeros and the number 0, and what follows from them.
NO_NAME = Part(0, bytes(16))
NO_TEXTURE, NO_PALETTE = Texture(NO_NAME, 0, EMPTY, EMPTY), Palette(NO_NAME, 0)


def place(part: Part) -> list:
    """Where a part begins and how long it is. A part of 0 bytes has position 0."""
    return [part.at if part.content else 0, len(part.content)]


def texture_rows(block: bytes) -> list:
    """All textures from one reading, six numbers each: where the name begins, the word, and the places of first and second data."""
    return [x for t in read(block).textures for x in (t.name.at, t.word, *place(t.first), *place(t.second))]


def palette_rows(block: bytes) -> list:
    """All palettes from one reading, two numbers each: where the name begins, and the offset in bytes."""
    return [x for p in read(block).palettes for x in (p.name.at, p.offset)]


def pam(block: bytes, n: int, choice: Optional[int]) -> bytes:
    """A picture behind the header of pam(5). The refusals are the picture's."""
    raster = picture(block, n, choice)
    word = texture(block, n).word
    header = "P7\nWIDTH %d\nHEIGHT %d\nDEPTH 4\nMAXVAL 255\nTUPLTYPE RGB_ALPHA\nENDHDR\n" % (width(word), height(word))
    return header.encode() + raster


def show(block: bytes, n: int, choice: Optional[int]) -> tuple:
    """What the picture program writes to standard output and to standard error, for a file of at most 3 MiB."""
    refusal, image, _ = call(pam, block, n, choice, declined=b"")
    return image, refused_line(refusal) if refusal else b""
