//! Making inputs: blocks, damaged blocks, bytes that are no block, and direct decodings.

use crate::apicula::data_lens;
use crate::input::{Direct, Input};
use crate::random::Random;

/// The header's length, and the positions of the fields of it that are read.
pub const HEADER_LEN: usize = 60;
pub const TEXTURE_OFF: usize = 14;
pub const TEX_BLOCK_OFF: usize = 20;
pub const COMPRESSED1_BLOCK_OFF: usize = 36;
pub const COMPRESSED2_BLOCK_OFF: usize = 40;
pub const PAL_BLOCK_LEN_SHR_3: usize = 48;
pub const PALETTE_OFF: usize = 52;
pub const PAL_BLOCK_OFF: usize = 56;

/// The header's positions, each with the length of its field.
pub const POSITIONS: [(usize, usize); 6] =
    [(TEXTURE_OFF, 2), (TEX_BLOCK_OFF, 4), (COMPRESSED1_BLOCK_OFF, 4), (COMPRESSED2_BLOCK_OFF, 4), (PALETTE_OFF, 4), (PAL_BLOCK_OFF, 4)];

/// The datum sizes of the two lists.
pub const TEXTURE_DATUM: usize = 8;
pub const PALETTE_DATUM: usize = 4;

/// The longest palette block of a direct decoding.
const MOST_PAL: usize = 70_000;

/// How many shapes of texture words there are: format, width, height and bit 29.
pub const SHAPES: usize = 8 * 8 * 8 * 2;

/// The part of a texture word that decides how data become pixels. Width and height are given as shifts of 8.
#[derive(Clone, Copy)]
pub struct Shape {
    pub format: usize,
    pub width: usize,
    pub height: usize,
    pub color0: usize,
}

impl Shape {
    /// The shape with this number, all formats first, then widths, heights and bit 29.
    pub fn numbered(n: usize) -> Shape {
        Shape { format: n % 8, width: n / 8 % 8, height: n / 64 % 8, color0: n / 512 % 2 }
    }

    /// A word's shape.
    pub fn of(word: u32) -> Shape {
        let field = |lo: u32, mask: u32| (word >> lo & mask) as usize;
        Shape { format: field(26, 7), width: field(20, 7), height: field(23, 7), color0: field(29, 1) }
    }

    pub fn number(self) -> usize {
        self.format + 8 * self.width + 64 * self.height + 512 * self.color0
    }

    /// A shape of at most so many texels, which are 64 or more.
    pub fn any(random: &mut Random, texels: usize) -> Shape {
        loop {
            let shape = Shape::numbered(random.below(SHAPES));
            if shape.texels() <= texels {
                return shape;
            }
        }
    }

    pub fn texels(self) -> usize {
        64 << (self.width + self.height)
    }

    /// A word of this shape with an offset in units of 8, and any bits in what is left.
    pub fn word(self, random: &mut Random, units: usize) -> u32 {
        let fixed = units | self.width << 20 | self.height << 23 | self.format << 26 | self.color0 << 29;
        fixed as u32 | (random.number() as u32 & 0xC00F_0000)
    }
}

/// An entry of a name list.
pub struct Listed {
    pub name: [u8; 16],
    pub datum: Vec<u8>,
}

/// What a block holds.
pub struct Plan {
    pub textures: Vec<Listed>,
    pub palettes: Vec<Listed>,
    pub pal_units: usize,
}

/// How much a block may hold: textures, palettes, texels of a texture, units of an offset, units of the palette block.
#[derive(Clone, Copy)]
pub struct Limits {
    pub textures: usize,
    pub palettes: usize,
    pub texels: usize,
    pub units: usize,
    pub pal_units: usize,
}

impl Plan {
    /// Any plan within the limits.
    pub fn any(random: &mut Random, limits: &Limits) -> Plan {
        let pal_units = random.below(limits.pal_units + 1);
        let textures = random.below(limits.textures + 1);
        let palettes = random.below(limits.palettes + 1);
        Plan {
            textures: (0..textures).map(|_| any_texture(random, limits)).collect(),
            palettes: (0..palettes).map(|_| palette(random, pal_units)).collect(),
            pal_units,
        }
    }

    /// Lengths of the parts behind the header: both lists, texture data, both compressed data, palette block.
    fn part_lens(&self) -> [usize; 6] {
        let mut lens = [16 + 28 * self.textures.len(), 16 + 24 * self.palettes.len(), 0, 0, 0, 8 * self.pal_units];
        for texture in &self.textures {
            let word = u32::from_le_bytes(texture.datum[..4].try_into().unwrap());
            let off = (word as usize & 0xFFFF) * 8;
            let (len1, len2) = data_lens(word);
            if len2 > 0 {
                lens[3] = lens[3].max(off + len1);
                lens[4] = lens[4].max(off / 2 + len2);
            } else {
                lens[2] = lens[2].max(off + len1);
            }
        }
        lens
    }

    /// A block that holds what the plan says and is read to the end. Data may lie anywhere, also where other parts are.
    pub fn lay_out(&self, random: &mut Random) -> Vec<u8> {
        let lens = self.part_lens();
        let (places, end) = places(random, &lens);
        let len = end + random.pick(&[0, 0, 1, 16]);
        let mut block = random.bytes(len);
        if random.one_in(2) {
            tame_extras(random, &mut block[places[4]..][..lens[4]], 8 * self.pal_units);
        }
        write_header(&mut block, &places, self.pal_units);
        write_list(&mut block, places[0], TEXTURE_DATUM, &self.textures);
        write_list(&mut block, places[1], PALETTE_DATUM, &self.palettes);
        block
    }
}

fn any_texture(random: &mut Random, limits: &Limits) -> Listed {
    let shape = Shape::any(random, limits.texels);
    let most = random.pick(&[0, 4, limits.units]);
    texture(random, shape, most.min(limits.units))
}

/// A texture of this shape, at most so many units from the start of its data block.
pub fn texture(random: &mut Random, shape: Shape, most_units: usize) -> Listed {
    let units = random.below(most_units + 1);
    let mut datum = shape.word(random, units).to_le_bytes().to_vec();
    datum.extend(random.bytes(4));
    Listed { name: name(random), datum }
}

/// A palette inside the palette block, at its end, behind it or as far behind it as can be said.
pub fn palette(random: &mut Random, pal_units: usize) -> Listed {
    let units = match random.below(8) {
        0 => pal_units,
        1 => (pal_units + 1).min(0xFFFF),
        2 => 0xFFFF,
        3 => random.below(0x1_0000),
        4 => 0,
        _ => random.below(pal_units + 1),
    };
    let mut datum = (units as u16).to_le_bytes().to_vec();
    datum.extend(random.bytes(2));
    Listed { name: name(random), datum }
}

/// A name: letters, any bytes, bytes that end in zeros or have zeros between them, or none.
pub fn name(random: &mut Random) -> [u8; 16] {
    let mut name: [u8; 16] = random.bytes(16).try_into().unwrap();
    let len = random.below(17);
    match random.below(6) {
        0 => name = [0; 16],
        1 => {}
        2 => name[random.below(16)] = 0,
        3 => name[len..].fill(0),
        _ => {
            name.iter_mut().for_each(|byte| *byte = b"abcXYZ019_-. "[*byte as usize % 13]);
            name[len..].fill(0);
        }
    }
    name
}

/// Places for parts of these lengths, in any order, and where the last one ends. The texture list starts below 65,536.
fn places(random: &mut Random, lens: &[usize; 6]) -> ([usize; 6], usize) {
    let mut order = [0, 1, 2, 3, 4, 5];
    random.shuffle(&mut order);
    let (mut places, mut end) = in_order(random, lens, &order);
    if places[0] > 0xFFFF {
        (places, end) = in_order(random, lens, &[0, 1, 2, 3, 4, 5]);
    }
    for part in 2..6 {
        if random.one_in(4) {
            places[part] = random.below(end - lens[part] + 1);
        }
    }
    (places, end)
}

fn in_order(random: &mut Random, lens: &[usize; 6], order: &[usize; 6]) -> ([usize; 6], usize) {
    let mut places = [0; 6];
    let mut end = HEADER_LEN;
    for &part in order {
        places[part] = end + random.pick(&[0, 0, 0, 1, 4, 7]);
        end = places[part] + lens[part];
    }
    (places, end)
}

fn write_header(block: &mut [u8], places: &[usize; 6], pal_units: usize) {
    block[..4].copy_from_slice(b"TEX0");
    put_u16(block, TEXTURE_OFF, places[0]);
    put_u32(block, PALETTE_OFF, places[1]);
    put_u32(block, TEX_BLOCK_OFF, places[2]);
    put_u32(block, COMPRESSED1_BLOCK_OFF, places[3]);
    put_u32(block, COMPRESSED2_BLOCK_OFF, places[4]);
    put_u32(block, PAL_BLOCK_OFF, places[5]);
    put_u16(block, PAL_BLOCK_LEN_SHR_3, pal_units);
}

fn write_list(block: &mut [u8], at: usize, datum: usize, entries: &[Listed]) {
    let count = entries.len();
    block[at] = 0;
    block[at + 1] = count as u8;
    put_u16(block, at + 12 + 4 * count, datum);
    let data = at + 16 + 4 * count;
    for (i, entry) in entries.iter().enumerate() {
        block[data + i * datum..][..datum].copy_from_slice(&entry.datum);
        block[data + count * datum + 16 * i..][..16].copy_from_slice(&entry.name);
    }
}

fn put_u16(block: &mut [u8], at: usize, value: usize) {
    block[at..at + 2].copy_from_slice(&(value as u16).to_le_bytes());
}

fn put_u32(block: &mut [u8], at: usize, value: usize) {
    block[at..at + 4].copy_from_slice(&(value as u32).to_le_bytes());
}

pub fn get_u16(block: &[u8], at: usize) -> usize {
    u16::from_le_bytes(block[at..at + 2].try_into().unwrap()) as usize
}

pub fn get_u32(block: &[u8], at: usize) -> usize {
    u32::from_le_bytes(block[at..at + 4].try_into().unwrap()) as usize
}

/// Makes the colour indices of format 5 small enough to meet the colours in so many bytes. Modes stay as they are.
pub fn tame_extras(random: &mut Random, data2: &mut [u8], pal_len: usize) {
    for extra in data2.chunks_exact_mut(2) {
        let mode = extra[1] as usize >> 6;
        let index = random.below((pal_len / 4 + 2).min(1 << 14));
        extra.copy_from_slice(&((mode << 14 | index) as u16).to_le_bytes());
    }
}

/// The places at which damage has a meaning of its own, in a block that is read to the end.
struct Spots {
    texture_list: usize,
    texture_count: usize,
    palette_list: usize,
    palette_count: usize,
}

impl Spots {
    fn of(block: &[u8]) -> Spots {
        let (texture_list, palette_list) = (get_u16(block, TEXTURE_OFF), get_u32(block, PALETTE_OFF));
        let count = |list: usize| block[list + 1] as usize;
        Spots { texture_list, texture_count: count(texture_list), palette_list, palette_count: count(palette_list) }
    }
}

/// How many kinds of damage there are.
pub const DAMAGES: usize = 13;

/// A block that is read to the end, damaged in one of the ways.
pub fn damaged(random: &mut Random, whole: &[u8], way: usize) -> Vec<u8> {
    let spots = Spots::of(whole);
    let mut block = whole.to_vec();
    match way {
        0 => change(random, &mut block, 0, 4),
        1 => change(random, &mut block, spots.texture_list, 1),
        2 => change(random, &mut block, spots.palette_list, 1),
        3 => change(random, &mut block, spots.texture_list + 12 + 4 * spots.texture_count, 2),
        4 => change(random, &mut block, spots.palette_list + 12 + 4 * spots.palette_count, 2),
        5 => change(random, &mut block, spots.texture_list + 1, 1),
        6 => change(random, &mut block, spots.palette_list + 1, 1),
        7 => change(random, &mut block, 4, HEADER_LEN - 4),
        8 => change(random, &mut block, spots.texture_list, 16 + 28 * spots.texture_count),
        9 => change(random, &mut block, spots.palette_list, 16 + 24 * spots.palette_count),
        10 => set_field(random, &mut block),
        11 => (0..4).for_each(|_| change(random, &mut block, 0, whole.len())),
        _ => {
            change(random, &mut block, 0, whole.len());
            block.truncate(random.below(whole.len() + 1));
        }
    }
    block
}

/// Gives one of the bytes from `at` on another value.
fn change(random: &mut Random, block: &mut [u8], at: usize, among: usize) {
    block[at + random.below(among)] ^= random.pick(&[1, 2, 4, 8, 0x10, 0x20, 0x40, 0x80, 0x55, 0xFF]);
}

/// Gives a field of the header a value at a limit.
fn set_field(random: &mut Random, block: &mut [u8]) {
    let len = block.len();
    let value = random.pick(&[0, 1, 4, len - 60, len - 16, len - 2, len - 1, len, len + 1, 0xFFFF, 0xFFFF_FFFF]);
    match random.below(7) {
        0 => put_u16(block, TEXTURE_OFF, value),
        1 => put_u16(block, PAL_BLOCK_LEN_SHR_3, value),
        n => put_u32(block, [TEX_BLOCK_OFF, COMPRESSED1_BLOCK_OFF, COMPRESSED2_BLOCK_OFF, PALETTE_OFF, PAL_BLOCK_OFF][n - 2], value),
    }
}

/// Random bytes: as they are, with the stamp, or with the stamp and positions inside them.
pub fn noise(random: &mut Random) -> Vec<u8> {
    let len = random.below(400);
    let mut block = random.bytes(len);
    let way = random.below(4);
    if way > 0 && len >= 4 {
        block[..4].copy_from_slice(b"TEX0");
    }
    if way > 1 && len >= HEADER_LEN {
        let places = std::array::from_fn(|_| random.below(len));
        let pal_units = random.below(8);
        write_header(&mut block, &places, pal_units);
    }
    if way > 2 && len >= HEADER_LEN {
        zero_lists(random, &mut block);
    }
    block
}

/// Sets most bytes behind the header to 0, so that dummies, counts and words are small.
fn zero_lists(random: &mut Random, block: &mut [u8]) {
    for byte in &mut block[HEADER_LEN..] {
        *byte = if random.one_in(24) { random.pick(&[1, 2, 4, 8]) } else { 0 };
    }
}

/// A direct decoding of this shape, with a palette block of at most so many bytes.
pub fn direct(random: &mut Random, shape: Shape, most_pal: usize) -> Direct {
    let units = random.below(0x1_0000);
    let word = shape.word(random, units);
    let (len1, len2) = data_lens(word);
    let pal_len = pal_len(random, most_pal);
    let palette = palette_off(random, pal_len);
    let data1 = with_more(random, len1);
    let mut data2 = with_more(random, len2);
    if !random.one_in(4) {
        let behind_off = pal_len.saturating_sub(palette.unwrap_or(0) as usize);
        tame_extras(random, &mut data2, behind_off);
    }
    Direct { word, data1, data2, palette, pal: random.bytes(pal_len) }
}

/// A length of a palette block: none, too short for all colours of a format, or anything.
fn pal_len(random: &mut Random, most: usize) -> usize {
    let few = random.pick(&[0, 1, 2, 3, 8, 15, 16, 31, 32, 64, 511, 512]);
    let some = random.below(600);
    let any = random.below(most + 1);
    random.pick(&[few, some, any, any]).min(most)
}

/// Random data of this length, or with some bytes more, which are to be ignored.
fn with_more(random: &mut Random, len: usize) -> Vec<u8> {
    let more = random.pick(&[0, 0, 0, 1, 2, 17]);
    random.bytes(len + more)
}

/// A palette's offset, even or odd, inside the block, at its end, behind it or of 32 bits; or no palette.
fn palette_off(random: &mut Random, pal_len: usize) -> Option<u32> {
    let off = match random.below(16) {
        0 => return None,
        1 => pal_len,
        2 => pal_len + 1,
        3 => pal_len.saturating_sub(1),
        4 => random.number() as u32 as usize,
        5 => u32::MAX as usize - random.below(4),
        6..=9 => random.below(pal_len + 1),
        10 | 11 => random.below(pal_len / 4 + 1),
        _ => 0,
    };
    Some(off as u32)
}

/// The inputs of a case. Cases of sixteen kinds take turns; the first turns go through all shapes.
pub fn inputs(seed: u64, case: u64) -> Vec<Input> {
    let mut random = Random::for_case(seed, case);
    let turn = (case / 16) as usize;
    match case % 16 {
        0 => vec![Input::Block(of_each_shape(&mut random, turn))],
        1..=4 => vec![Input::Block(many(&mut random))],
        5 => cuts(&mut random),
        6 | 7 => damages(&mut random),
        8 => (0..64).map(|_| Input::Block(noise(&mut random))).collect(),
        9 => vec![direct_of_each_shape(&mut random, turn)],
        10..=12 => (0..8).map(|_| any_direct(&mut random, 1 << 14)).collect(),
        _ => (0..16).map(|_| any_direct(&mut random, 512)).collect(),
    }
}

/// Each shape once in the first turns. Later the large ones are seldom.
fn shape_of_turn(random: &mut Random, turn: usize) -> Shape {
    let shape = Shape::numbered(turn % SHAPES);
    if turn < SHAPES || shape.texels() <= 1 << 14 || random.one_in(16) {
        shape
    } else {
        Shape::any(random, 1 << 14)
    }
}

/// A block whose first texture has the turn's shape.
fn of_each_shape(random: &mut Random, turn: usize) -> Vec<u8> {
    let first = shape_of_turn(random, turn);
    let limits = Limits { textures: 3, palettes: 3, texels: 1024, units: 64, pal_units: 80 };
    let mut plan = Plan::any(random, &limits);
    plan.textures.insert(0, texture(random, first, 16));
    plan.lay_out(random)
}

/// A block with few textures or many, small or far from the start of their block.
fn many(random: &mut Random) -> Vec<u8> {
    let limits = match random.below(32) {
        0 => Limits { textures: 255, palettes: 255, texels: 64, units: 40, pal_units: 100 },
        1 => Limits { textures: 3, palettes: 2, texels: 1 << 14, units: 0xFFFF, pal_units: 0xFFFF },
        2 => Limits { textures: 40, palettes: 40, texels: 256, units: 100, pal_units: 3 },
        _ => Limits { textures: 8, palettes: 6, texels: 2048, units: 300, pal_units: 200 },
    };
    Plan::any(random, &limits).lay_out(random)
}

/// A small block, cut at each length, and a larger one at some.
fn cuts(random: &mut Random) -> Vec<Input> {
    let limits = Limits { textures: 3, palettes: 3, texels: 128, units: 12, pal_units: 12 };
    let whole = Plan::any(random, &limits).lay_out(random);
    let larger = many(random);
    let some: Vec<usize> = (0..64).map(|_| random.below(larger.len() + 1)).collect();
    let each = (0..whole.len()).map(|len| Input::Block(whole[..len].to_vec()));
    each.chain(some.iter().map(|&len| Input::Block(larger[..len].to_vec()))).collect()
}

/// A block damaged in each of the ways, several times.
fn damages(random: &mut Random) -> Vec<Input> {
    let limits = Limits { textures: 4, palettes: 3, texels: 512, units: 20, pal_units: 40 };
    let whole = Plan::any(random, &limits).lay_out(random);
    (0..4 * DAMAGES).map(|n| Input::Block(damaged(random, &whole, n % DAMAGES))).collect()
}

fn direct_of_each_shape(random: &mut Random, turn: usize) -> Input {
    let shape = shape_of_turn(random, turn);
    Input::Direct(direct(random, shape, MOST_PAL))
}

fn any_direct(random: &mut Random, texels: usize) -> Input {
    let shape = Shape::any(random, texels);
    Input::Direct(direct(random, shape, MOST_PAL))
}
