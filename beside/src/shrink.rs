//! Making an input that shows a difference as small as can be, in steps that keep the difference.

use crate::apicula::data_lens;
use crate::input::{Direct, Input};
use crate::make::{get_u16, get_u32, HEADER_LEN, PALETTE_DATUM, PALETTE_OFF, POSITIONS, TEXTURE_DATUM, TEXTURE_OFF};

/// How many rounds of steps there are at most.
const MOST_ROUNDS: usize = 20;

/// The smallest input found that still differs.
pub fn shrink(input: Input, differs: &mut dyn FnMut(&Input) -> bool) -> Input {
    let mut shrinking = Shrinking { input, differs, smaller: true };
    for _ in 0..MOST_ROUNDS {
        if !std::mem::take(&mut shrinking.smaller) {
            break;
        }
        shrinking.round();
    }
    shrinking.input
}

struct Shrinking<'a> {
    input: Input,
    differs: &'a mut dyn FnMut(&Input) -> bool,
    /// Whether a step of this round was kept.
    smaller: bool,
}

impl Shrinking<'_> {
    /// Keeps a smaller input if it still differs.
    fn attempt(&mut self, smaller: Input) -> bool {
        let keep = (self.differs)(&smaller);
        if keep {
            self.input = smaller;
            self.smaller = true;
        }
        keep
    }

    fn round(&mut self) {
        match self.input {
            Input::Block(_) => self.block_round(),
            Input::Direct(_) => self.direct_round(),
        }
    }

    fn block_round(&mut self) {
        self.cut_part(0);
        self.drop_entries(List::TEXTURES);
        self.drop_entries(List::PALETTES);
        self.shrink_words();
        self.remove_bytes();
        self.zero_part(0);
    }

    fn direct_round(&mut self) {
        self.shrink_direct_word();
        self.shrink_palette_off();
        for part in 0..3 {
            self.cut_part(part);
            self.zero_part(part);
        }
    }

    /// Cuts a part at its end, by halves of it down to single bytes.
    fn cut_part(&mut self, part: usize) {
        let mut step = part_of(&mut self.input, part).len();
        while step > 0 {
            let mut cut = self.input.clone();
            let bytes = part_of(&mut cut, part);
            let len = bytes.len();
            bytes.truncate(len.saturating_sub(step));
            if len < step || !self.attempt(cut) {
                step /= 2;
            }
        }
    }

    /// Sets runs of a part's bytes to 0, from the whole of it down to single bytes.
    fn zero_part(&mut self, part: usize) {
        let len = part_of(&mut self.input, part).len();
        let mut size = len.next_power_of_two();
        while size > 0 {
            (0..len).step_by(size).for_each(|at| self.zero_run(part, at, size));
            size /= 2;
        }
    }

    fn zero_run(&mut self, part: usize, at: usize, size: usize) {
        let mut zeroed = self.input.clone();
        let bytes = part_of(&mut zeroed, part);
        let end = (at + size).min(bytes.len());
        if bytes[at..end].iter().any(|byte| *byte != 0) {
            bytes[at..end].fill(0);
            self.attempt(zeroed);
        }
    }

    /// Drops entries of a list, the last ones first.
    fn drop_entries(&mut self, list: List) {
        let count = list.span(block_of(&self.input)).map_or(0, |(_, count)| count);
        for entry in (0..count).rev() {
            if let Some(block) = list.without(block_of(&self.input), entry) {
                self.attempt(Input::Block(block));
            }
        }
    }

    /// Lowers widths and heights in the texture list.
    fn shrink_words(&mut self) {
        let Some((list, count)) = List::TEXTURES.span(block_of(&self.input)) else { return };
        let data = list + 16 + 4 * count;
        for entry in 0..count {
            self.shrink_word_at(data + TEXTURE_DATUM * entry);
        }
    }

    fn shrink_word_at(&mut self, at: usize) {
        for smaller in smaller_words(get_u32(block_of(&self.input), at) as u32) {
            let mut block = block_of(&self.input).to_vec();
            block[at..at + 4].copy_from_slice(&smaller.to_le_bytes());
            self.attempt(Input::Block(block));
        }
    }

    /// Takes runs of bytes out of a block. The header's positions behind them follow.
    fn remove_bytes(&mut self) {
        let mut size = block_of(&self.input).len() / 2;
        while size > 0 {
            self.remove_runs(size);
            size /= 2;
        }
    }

    fn remove_runs(&mut self, size: usize) {
        let mut at = HEADER_LEN;
        while at + size <= block_of(&self.input).len() {
            let shorter = without_run(block_of(&self.input), at, size);
            if !self.attempt(Input::Block(shorter)) {
                at += size;
            }
        }
    }

    /// Lowers the word's fields. A smaller picture keeps the first of the data, or the last.
    fn shrink_direct_word(&mut self) {
        for smaller in smaller_words(direct_of(&self.input).word) {
            let direct = direct_of(&self.input);
            let (first, last) = (resized(direct, smaller, |_, _| 0), resized(direct, smaller, usize::saturating_sub));
            if !self.attempt(Input::Direct(first)) {
                self.attempt(Input::Direct(last));
            }
        }
    }

    fn shrink_palette_off(&mut self) {
        let off = direct_of(&self.input).palette.unwrap_or(0);
        let smaller = [0, off / 2, off.saturating_sub(2), off.saturating_sub(1)];
        for off in smaller.into_iter().filter(|smaller| *smaller < off) {
            self.attempt(Input::Direct(Direct { palette: Some(off), ..direct_of(&self.input).clone() }));
        }
    }
}

/// One of the two name lists: where the header has its position, and its datum size.
#[derive(Clone, Copy)]
struct List {
    off: usize,
    datum: usize,
}

impl List {
    const TEXTURES: List = List { off: TEXTURE_OFF, datum: TEXTURE_DATUM };
    const PALETTES: List = List { off: PALETTE_OFF, datum: PALETTE_DATUM };

    /// Position and count of the list, if the block holds it.
    fn span(self, block: &[u8]) -> Option<(usize, usize)> {
        if block.len() < HEADER_LEN {
            return None;
        }
        let at = if self.off == TEXTURE_OFF { get_u16(block, self.off) } else { get_u32(block, self.off) };
        let count = *block.get(at + 1)? as usize;
        (at + 16 + count * (20 + self.datum) <= block.len()).then_some((at, count))
    }

    /// The block without an entry of the list. What the list takes less of is left as it is.
    fn without(self, block: &[u8], entry: usize) -> Option<Vec<u8>> {
        let (at, count) = self.span(block).filter(|(_, count)| entry < *count)?;
        let (sizes, data) = (at + 12 + 4 * count, at + 16 + 4 * count);
        let names = data + count * self.datum;
        let mut list = block[at..sizes - 4].to_vec();
        list[1] = count as u8 - 1;
        list.extend(&block[sizes..data]);
        list.extend(&block[data..data + entry * self.datum]);
        list.extend(&block[data + (entry + 1) * self.datum..names + 16 * entry]);
        list.extend(&block[names + 16 * (entry + 1)..names + 16 * count]);
        let mut without = block.to_vec();
        without[at..at + list.len()].copy_from_slice(&list);
        Some(without)
    }
}

/// A direct decoding with another word and as much of the data as that asks for, from where `start` says for both lengths.
fn resized(direct: &Direct, word: u32, start: fn(usize, usize) -> usize) -> Direct {
    let (len1, len2) = data_lens(word);
    let kept = |data: &[u8], len: usize| data.iter().skip(start(data.len(), len)).take(len).copied().collect();
    Direct { word, data1: kept(&direct.data1, len1), data2: kept(&direct.data2, len2), ..direct.clone() }
}

fn without_run(block: &[u8], at: usize, size: usize) -> Vec<u8> {
    let mut shorter = block.to_vec();
    shorter.drain(at..at + size);
    for (field, len) in POSITIONS {
        let mut position = [0; 4];
        position[..len].copy_from_slice(&block[field..field + len]);
        let position = u32::from_le_bytes(position) as usize;
        if position >= at + size {
            shorter[field..field + len].copy_from_slice(&((position - size) as u32).to_le_bytes()[..len]);
        }
    }
    shorter
}

/// A word with less in one of its fields: width and height, offset, wrap bits, bit 29, transform mode.
fn smaller_words(word: u32) -> impl Iterator<Item = u32> {
    let cleared = [0x0380_0000, 0x0070_0000, 0x0000_FFFF, 0x000F_0000, 0x2000_0000, 0xC000_0000];
    let lowered = [0x0080_0000, 0x0010_0000].into_iter().filter(move |one| word & (one * 7) != 0).map(move |one| word - one);
    cleared.into_iter().map(move |field| word & !field).chain(lowered).filter(move |smaller| *smaller != word)
}

fn block_of(input: &Input) -> &[u8] {
    match input {
        Input::Block(block) => block,
        Input::Direct(_) => unreachable!("a block stays a block"),
    }
}

fn direct_of(input: &Input) -> &Direct {
    match input {
        Input::Direct(direct) => direct,
        Input::Block(_) => unreachable!("a direct decoding stays one"),
    }
}

/// The block; or the first data, the second data and the palette block of a direct decoding.
fn part_of(input: &mut Input, part: usize) -> &mut Vec<u8> {
    match (input, part) {
        (Input::Block(block), _) => block,
        (Input::Direct(direct), 0) => &mut direct.data1,
        (Input::Direct(direct), 1) => &mut direct.data2,
        (Input::Direct(direct), _) => &mut direct.pal,
    }
}
