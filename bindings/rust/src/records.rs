//! A block's counts and records.

use crate::error::{done, Error};
use crate::ffi;
use crate::name::{Name, NAME_LEN};
use crate::word::{Alpha, TextureParams, Wrap};

/// How many textures, and how many palettes, a block has at most.
pub const MAX_COUNT: usize = 255;

/// How many textures and palettes a block has.
#[derive(Clone, Copy, Debug, PartialEq, Eq, Hash)]
pub struct Counts {
    /// The number of textures, 0 to 255.
    pub textures: usize,
    /// The number of palettes, 0 to 255.
    pub palettes: usize,
}

/// A texture's record.
#[derive(Clone, Copy, Debug, PartialEq, Eq, Hash)]
pub struct Texture {
    /// The name.
    pub name: Name,
    /// The texture word.
    pub params: TextureParams,
    /// The wrap in S, by the word.
    pub wrap_s: Wrap,
    /// The wrap in T, by the word.
    pub wrap_t: Wrap,
    /// The alpha kind, by the word.
    pub alpha: Alpha,
}

/// A palette's record.
#[derive(Clone, Copy, Debug, PartialEq, Eq, Hash)]
pub struct Palette {
    /// The name.
    pub name: Name,
    /// The offset in bytes from the palette block's start. It may lie beyond the palette block's end.
    pub off: u32,
}

/// Reads the block: how many textures and palettes it has.
pub fn read_tex(block: &[u8]) -> Result<Counts, Error> {
    let (mut textures, mut palettes, mut needed) = (0, 0, 0);
    // SAFETY: the block is a slice, and each number is a variable of its own.
    let number = unsafe {
        ffi::rasclanya_read_tex(
            block.as_ptr(),
            block.len(),
            &mut textures,
            &mut palettes,
            &mut needed,
        )
    };
    done(number, needed)?;
    Ok(Counts { textures, palettes })
}

/// The record of texture `n`, counted from 0.
pub fn texture(block: &[u8], n: usize) -> Result<Texture, Error> {
    let mut name = [0; NAME_LEN];
    let (mut word, mut wrap_s, mut wrap_t, mut alpha, mut needed) = (0, 0, 0, 0, 0);
    // SAFETY: the block is a slice, and the name and each number are variables of their own.
    let number = unsafe {
        ffi::rasclanya_texture(
            block.as_ptr(),
            block.len(),
            n,
            name.as_mut_ptr(),
            name.len(),
            &mut word,
            &mut wrap_s,
            &mut wrap_t,
            &mut alpha,
            &mut needed,
        )
    };
    done(number, needed)?;
    Ok(Texture {
        name: Name(name),
        params: TextureParams(word),
        wrap_s: Wrap::from_number(wrap_s),
        wrap_t: Wrap::from_number(wrap_t),
        alpha: Alpha::from_number(alpha),
    })
}

/// The record of palette `n`, counted from 0.
pub fn palette(block: &[u8], n: usize) -> Result<Palette, Error> {
    let mut name = [0; NAME_LEN];
    let (mut off, mut needed) = (0, 0);
    // SAFETY: the block is a slice, and the name and each number are variables of their own.
    let number = unsafe {
        ffi::rasclanya_palette(
            block.as_ptr(),
            block.len(),
            n,
            name.as_mut_ptr(),
            name.len(),
            &mut off,
            &mut needed,
        )
    };
    done(number, needed)?;
    Ok(Palette {
        name: Name(name),
        off,
    })
}
