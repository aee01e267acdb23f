//! What document 01 says of refusals that apicula does not tell apart: lengths that a reading needs, and which list is refused.

use crate::apicula::{self, Class};
use crate::make::{self, get_u16, get_u32, HEADER_LEN, PALETTE_DATUM, PALETTE_OFF, TEXTURE_DATUM, TEXTURE_OFF};

/// The wants of a fetching run over a block: of the lengths that the reading tests, those that are larger than all before. The last one is
/// larger than the block where that is short.
pub fn wants(block: &[u8]) -> Vec<usize> {
    let mut testing = Testing { block, lengths: Vec::new() };
    testing.reading();
    let mut wants = vec![];
    for length in testing.lengths {
        if wants.last().is_none_or(|largest| length > *largest) {
            wants.push(length);
        }
    }
    wants
}

/// The lengths that a reading tests, in its order, up to a refusal.
struct Testing<'a> {
    block: &'a [u8],
    lengths: Vec<usize>,
}

impl Testing<'_> {
    /// Tests a length. None where the block is shorter.
    fn reach(&mut self, length: usize) -> Option<()> {
        self.lengths.push(length);
        (length <= self.block.len()).then_some(())
    }

    /// The whole reading. None where it is refused.
    fn reading(&mut self) -> Option<()> {
        self.reach(HEADER_LEN)?;
        if !self.block.starts_with(b"TEX0") {
            return None;
        }
        self.reach(get_u32(self.block, make::PAL_BLOCK_OFF) + 8 * get_u16(self.block, make::PAL_BLOCK_LEN_SHR_3))?;
        let textures = get_u16(self.block, TEXTURE_OFF);
        let count = self.list(textures, TEXTURE_DATUM)?;
        for t in 0..count {
            self.data(get_u32(self.block, textures + 16 + 4 * count + TEXTURE_DATUM * t) as u32)?;
        }
        self.list(get_u32(self.block, PALETTE_OFF), PALETTE_DATUM).map(|_| ())
    }

    /// A name list's count.
    fn list(&mut self, at: usize, datum: usize) -> Option<usize> {
        self.reach(at + 2)?;
        let count = self.block[at + 1] as usize;
        self.reach(at + 16 + count * (20 + datum))?;
        let as_said = self.block[at] == 0 && get_u16(self.block, at + 12 + 4 * count) == datum;
        as_said.then_some(count)
    }

    /// The data of a texture with this word.
    fn data(&mut self, word: u32) -> Option<()> {
        let off = (word as usize & 0xFFFF) * 8;
        let (len1, len2) = apicula::data_lens(word);
        if len2 == 0 {
            return self.reach(get_u32(self.block, make::TEX_BLOCK_OFF) + off + len1);
        }
        self.reach(get_u32(self.block, make::COMPRESSED1_BLOCK_OFF) + off + len1)?;
        self.reach(get_u32(self.block, make::COMPRESSED2_BLOCK_OFF) + off / 2 + len2)
    }
}

/// The number of the refusal of a block, with the length that is needed, from apicula's class of it.
pub fn refusal(block: &[u8], class: Class) -> (u32, usize) {
    match class {
        Class::Short => (1, wants(block).last().copied().unwrap_or(0)),
        Class::Stamp => (2, 0),
        Class::Dummy => (if texture_dummy(block) { 3 } else { 5 }, 0),
        Class::DatumSize => (if texture_datum_size(block) { 4 } else { 6 }, 0),
        Class::PaletteNeeded => (9, 0),
        Class::Format0 => (10, 0),
        Class::Ours(number) => (number, 0),
    }
}

/// Whether the texture list's dummy is not 0. The block holds the list.
fn texture_dummy(block: &[u8]) -> bool {
    block[get_u16(block, TEXTURE_OFF)] != 0
}

/// Whether the texture list has another datum size. The block holds the list.
fn texture_datum_size(block: &[u8]) -> bool {
    let at = get_u16(block, TEXTURE_OFF);
    get_u16(block, at + 12 + 4 * block[at + 1] as usize) != TEXTURE_DATUM
}
