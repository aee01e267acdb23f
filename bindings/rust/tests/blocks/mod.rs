//! The blocks that the tests read, and the pictures that they expect of them, written from document 01.

/// Document 01's sample block.
pub const SAMPLE: [u8; 208] = *include_bytes!("../../../../crates/list_tex/stdin");

/// The numbers of textures and palettes of `block`.
pub const TEXTURES: usize = 5;
pub const PALETTES: usize = 2;

/// The texture words of `block`: formats 3, 5, 1, 0 and 7. The first three have each another wrap in S, wrap in T and alpha.
pub const WORDS: [u32; TEXTURES] = [0x0c090000, 0x14040002, 0x04020007, 0x00000010, 0x1c800010];

fn put(bytes: &mut [u8], at: usize, number: &[u8]) {
    bytes[at..][..number.len()].copy_from_slice(number);
}

/// The sample with some bytes changed.
pub fn sample_with(at: usize, bytes: &[u8]) -> [u8; 208] {
    let mut block = SAMPLE;
    put(&mut block, at, bytes);
    block
}

/// The sample with its palette block at the largest position and of the largest length.
pub fn far_palette_block() -> [u8; 208] {
    let mut block = sample_with(48, &[0xff; 2]);
    put(&mut block, 56, &[0xff; 4]);
    block
}

/// A name of 16 bytes that no other name has.
pub fn name(first: usize) -> [u8; 16] {
    std::array::from_fn(|i| (first + i) as u8)
}

pub fn texture_name(n: usize) -> [u8; 16] {
    name(65 + 16 * n)
}

pub fn palette_name(n: usize) -> [u8; 16] {
    texture_name(TEXTURES + n)
}

/// A name list: its data of `N` bytes in order, and then its names.
fn list<const N: usize>(data: &[[u8; N]], names: &[[u8; 16]]) -> Vec<u8> {
    let mut list = vec![0, data.len() as u8];
    list.resize(12 + 4 * data.len(), 0);
    list.extend((N as u16).to_le_bytes());
    list.extend([0; 2]);
    list.extend(data.concat());
    list.extend(names.concat());
    list
}

fn texture_list() -> Vec<u8> {
    let data = WORDS.map(|word| (u64::from(word) | 0xffff_ffff << 32).to_le_bytes());
    list(&data, &std::array::from_fn::<_, TEXTURES, _>(texture_name))
}

/// The palettes' offsets are 8 and 40 bytes.
fn palette_list() -> Vec<u8> {
    let data = [[1, 0, 0xff, 0xff], [5, 0, 0xff, 0xff]];
    list(&data, &std::array::from_fn::<_, PALETTES, _>(palette_name))
}

/// A block with so many textures of format 3 and so many palettes, each with a name, a word and an offset that no other has, and without a
/// palette block.
pub fn with_entries(count: usize) -> Vec<u8> {
    let all = 0..count as u64;
    let words: Vec<[u8; 8]> = all
        .clone()
        .map(|n| (0x0c000000 + 4 * n).to_le_bytes())
        .collect();
    let offs: Vec<[u8; 4]> = all.map(|n| (n as u32).to_le_bytes()).collect();
    let textures = list(&words, &(0..count).map(name).collect::<Vec<_>>());
    let palettes = list(&offs, &(0..count).map(|n| name(2 * n)).collect::<Vec<_>>());
    let mut block = vec![0; 60];
    put(&mut block, 0, b"TEX0");
    put(&mut block, 14, &60u16.to_le_bytes());
    put(&mut block, 52, &(60 + textures.len() as u32).to_le_bytes());
    put(
        &mut block,
        20,
        &(60 + (textures.len() + palettes.len()) as u32).to_le_bytes(),
    );
    block.extend(textures);
    block.extend(palettes);
    block.extend((0..32 * count).map(|i| i as u8));
    block
}

/// Colour i of the palette block: other levels for each i below 40.
pub fn color(i: u16) -> u16 {
    i + ((31 - i % 32) << 10)
}

/// The palette block of `block`: 40 colours.
pub fn colors() -> Vec<u8> {
    (0..40).flat_map(|i| color(i).to_le_bytes()).collect()
}

/// First and second data of format 5: each row of a block of 4 by 4 has the texels 0 to 3, and block m has mode m and the first colour index
/// 2 * (m + 1).
pub fn compressed() -> ([u8; 16], Vec<u8>) {
    (
        [0xe4; 16],
        (0..4u16)
            .flat_map(|m| ((m << 14) | (m + 1)).to_le_bytes())
            .collect(),
    )
}

/// Data of format 1: texel k has index k / 8 and alpha k % 8.
fn translucent() -> [u8; 64] {
    std::array::from_fn(|k| ((k % 8) << 5 | (k / 8)) as u8)
}

/// Data of format 7: texel k has colour k, and is solid where k is odd.
pub fn direct(texels: usize) -> Vec<u8> {
    (0..texels)
        .flat_map(|k| (((k % 2) << 15 | (k & 0x7fff)) as u16).to_le_bytes())
        .collect()
}

/// A block whose parts stand in the order of reading, so that each of the 12 lengths tested is larger than those before: 60, 144, 146, 300,
/// 336, 352, 360, 424, 432, 688, 690, 752.
pub fn block() -> [u8; 752] {
    let mut block = [0; 752];
    put(&mut block, 0, b"TEX0");
    put(&mut block, 14, &144u16.to_le_bytes());
    put(&mut block, 20, &304u32.to_le_bytes());
    put(&mut block, 36, &320u32.to_le_bytes());
    put(&mut block, 40, &344u32.to_le_bytes());
    put(&mut block, 48, &10u16.to_le_bytes());
    put(&mut block, 52, &688u32.to_le_bytes());
    put(&mut block, 56, &64u32.to_le_bytes());
    put(&mut block, 64, &colors());
    put(&mut block, 144, &texture_list());
    put(&mut block, 304, &[0x21; 32]);
    put(&mut block, 336, &compressed().0);
    put(&mut block, 352, &compressed().1);
    put(&mut block, 360, &translucent());
    put(&mut block, 432, &direct(128));
    put(&mut block, 688, &palette_list());
    block
}

type Texel = [u8; 4];

fn widen(level: u16) -> u8 {
    (8 * level + level / 4) as u8
}

/// A colour with an alpha of five bits.
pub fn texel(rgb: u16, alpha: u16) -> Texel {
    [rgb % 32, rgb / 32 % 32, rgb / 1024 % 32, alpha].map(widen)
}

fn solid(i: u16) -> Texel {
    texel(color(i), 31)
}

fn mix(a: u16, i: u16, b: u16, j: u16) -> Texel {
    let (c0, c1) = (solid(i), solid(j));
    std::array::from_fn(|k| ((a * u16::from(c0[k]) + b * u16::from(c1[k])) / (a + b)) as u8)
}

/// Texel k of `compressed`, where colour 0 of the palette is the palette block's colour of that number.
fn compressed_texel(k: u16, palette: u16) -> Texel {
    let mode = k / 32 * 2 + k % 8 / 4;
    let c = palette + 2 * (mode + 1);
    match (k % 4, mode) {
        (2, 1) => mix(1, c, 1, c + 1),
        (2, 3) => mix(5, c, 3, c + 1),
        (3, 0 | 1) => [0; 4],
        (3, 3) => mix(3, c, 5, c + 1),
        (i, _) => solid(c + i),
    }
}

fn block_texel(n: usize, k: u16, palette: u16) -> Texel {
    const ALPHA3: [u16; 8] = [0, 4, 9, 13, 18, 22, 27, 31];
    match n {
        0 => solid(palette + 1 + k % 2),
        1 => compressed_texel(k, palette),
        2 => texel(color(palette + k / 8), ALPHA3[usize::from(k % 8)]),
        _ => texel(k, k % 2 * 31),
    }
}

/// The picture of texture n of `block`, where colour 0 of the palette is the palette block's colour of that number.
pub fn block_picture(n: usize, palette: u16) -> Vec<u8> {
    let texels = if n == 4 { 128 } else { 64 };
    (0..texels)
        .flat_map(|k| block_texel(n, k, palette))
        .collect()
}
