//! Pictures: textures decoded to RGBA.

use crate::error::{done, Error};
use crate::ffi;
use crate::word::TextureParams;

/// Decodes a texture whose data need not stand in a block, and returns the picture's length in bytes.
///
/// `palette` is the palette's offset in bytes from the start of `pal`, the palette block. `data2` is the second data, for format 5 only. Data
/// beyond the length that the word says are ignored, and a colour that does not lie wholly inside the palette block is 0.
///
/// The picture goes by rows from the top left, with a byte of red, green, blue and alpha for each texel.
///
/// Refusals, in this order: [`Error::NoPalette`], [`Error::NoTexels`], [`Error::ShortData`], [`Error::Output`].
pub fn decode_texture(
    params: TextureParams,
    data1: &[u8],
    data2: &[u8],
    palette: Option<u32>,
    pal: &[u8],
    out: &mut [u8],
) -> Result<usize, Error> {
    let mut len = 0;
    // SAFETY: data, palette block and output are slices, of which the one that is written to overlaps nothing else.
    let number = unsafe {
        ffi::rasclanya_decode_texture(
            params.0,
            data1.as_ptr(),
            data1.len(),
            data2.as_ptr(),
            data2.len(),
            palette.is_some().into(),
            palette.unwrap_or(0),
            pal.as_ptr(),
            pal.len(),
            out.as_mut_ptr(),
            out.len(),
            &mut len,
        )
    };
    done(number, 0)?;
    Ok(len)
}

/// Reads the block and decodes its texture `n` with the palette of the number, or with none, and returns the picture's length in bytes.
///
/// The picture goes by rows from the top left, with a byte of red, green, blue and alpha for each texel.
/// [`TextureParams::picture_len`] says how long it is.
///
/// Refusals, in this order: those of the reading, [`Error::TextureNumber`], [`Error::PaletteNumber`] (also where the texture needs no palette),
/// [`Error::NoPalette`], [`Error::NoTexels`], [`Error::ShortData`], [`Error::Output`].
pub fn picture(
    block: &[u8],
    n: usize,
    palette: Option<usize>,
    out: &mut [u8],
) -> Result<usize, Error> {
    let (mut len, mut needed) = (0, 0);
    // SAFETY: block and output are slices that do not overlap, and each number is a variable of its own.
    let number = unsafe {
        ffi::rasclanya_picture(
            block.as_ptr(),
            block.len(),
            n,
            palette.is_some().into(),
            palette.unwrap_or(0),
            out.as_mut_ptr(),
            out.len(),
            &mut len,
            &mut needed,
        )
    };
    done(number, needed)?;
    Ok(len)
}
