//! Counters of what was compared.

use crate::apicula::Class;
use crate::make::{Shape, SHAPES};
use std::collections::BTreeMap;
use std::fmt;

/// What was compared, by kind.
#[derive(Default)]
pub struct Tally {
    /// Answers of the port that were held against apicula's.
    compared: BTreeMap<&'static str, u64>,
    /// Answers of the port that apicula has no counterpart of, held against document 01's rules.
    ruled: BTreeMap<&'static str, u64>,
    read: u64,
    refused: BTreeMap<&'static str, u64>,
    textures: u64,
    palettes: u64,
    /// Pictures made from blocks and by direct decoding, by format, and all their texels.
    pictures: [u64; 8],
    decodings: [u64; 8],
    texels: u64,
    /// The shapes of texture words in direct decodings.
    shapes: Shapes,
}

struct Shapes([bool; SHAPES]);

impl Default for Shapes {
    fn default() -> Shapes {
        Shapes([false; SHAPES])
    }
}

impl Tally {
    pub fn compared(&mut self, kind: &'static str) {
        *self.compared.entry(kind).or_default() += 1;
    }

    pub fn ruled(&mut self, kind: &'static str) {
        *self.ruled.entry(kind).or_default() += 1;
    }

    pub fn read(&mut self, textures: usize, palettes: usize) {
        self.read += 1;
        self.textures += textures as u64;
        self.palettes += palettes as u64;
    }

    pub fn refused(&mut self, class: Class) {
        *self.refused.entry(class.name()).or_default() += 1;
    }

    /// A picture from a block, made or refused.
    pub fn picture(&mut self, word: u32, made: bool) {
        let shape = Shape::of(word);
        self.pictures[shape.format] += made as u64;
        self.texels += if made { shape.texels() as u64 } else { 0 };
    }

    /// A direct decoding, made or refused.
    pub fn decoding(&mut self, word: u32, made: bool) {
        let shape = Shape::of(word);
        self.decodings[shape.format] += made as u64;
        self.texels += if made { shape.texels() as u64 } else { 0 };
        self.shapes.0[shape.number()] = true;
    }

    /// How many answers were held against apicula's.
    pub fn comparisons(&self) -> u64 {
        self.compared.values().sum()
    }
}

impl fmt::Display for Tally {
    fn fmt(&self, f: &mut fmt::Formatter) -> fmt::Result {
        writeln!(f, "{} comparisons; one is one answer of the port held against apicula's:", self.comparisons())?;
        write_counts(f, &self.compared)?;
        writeln!(f, "{} answers that apicula has no counterpart of, held against document 01:", self.ruled.values().sum::<u64>())?;
        write_counts(f, &self.ruled)?;
        writeln!(f, "{} blocks read, with {} textures and {} palettes; refused:", self.read, self.textures, self.palettes)?;
        write_counts(f, &self.refused)?;
        writeln!(f, "pictures made from blocks, formats 0 to 7: {:?}", self.pictures)?;
        writeln!(f, "pictures made by direct decoding, formats 0 to 7: {:?}", self.decodings)?;
        let shapes = self.shapes.0.iter().filter(|seen| **seen).count();
        writeln!(f, "{shapes} of the {SHAPES} word shapes (format, width, height, bit 29) in direct decodings")?;
        writeln!(f, "{} texels in all pictures", self.texels)
    }
}

fn write_counts(f: &mut fmt::Formatter, counts: &BTreeMap<&'static str, u64>) -> fmt::Result {
    counts.iter().try_for_each(|(kind, count)| writeln!(f, "  {count:>10} {kind}"))
}
