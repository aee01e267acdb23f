//! Fetching: what reading a block as it arrives comes to.

use crate::error::{done, Error};
use crate::ffi;
use crate::records::Counts;

/// What fetching a block came to.
#[derive(Clone, Copy, Debug, PartialEq, Eq, Hash)]
pub struct Fetched<T> {
    /// The last answer, which is that of the call on the whole block.
    pub answer: Result<T, Error>,
    /// How many answers were short, the last included.
    pub short_answers: usize,
}

/// Fetches what [`read_tex`](crate::read_tex) answers: reads the block's first 0 bytes, and then as many as the last answer needed, until an
/// answer is not short or needs more than the block has.
pub fn fetch_tex(block: &[u8]) -> Fetched<Counts> {
    let (mut textures, mut palettes, mut short_answers, mut needed) = (0, 0, 0, 0);
    // SAFETY: the block is a slice, and each number is a variable of its own.
    let number = unsafe {
        ffi::rasclanya_fetch_tex(
            block.as_ptr(),
            block.len(),
            &mut textures,
            &mut palettes,
            &mut short_answers,
            &mut needed,
        )
    };
    let answer = done(number, needed).map(|()| Counts { textures, palettes });
    Fetched {
        answer,
        short_answers,
    }
}

/// Fetches what [`picture`](crate::picture) answers, as [`fetch_tex`] does for a reading.
pub fn fetch_picture(
    block: &[u8],
    n: usize,
    palette: Option<usize>,
    out: &mut [u8],
) -> Fetched<usize> {
    let (mut len, mut short_answers, mut needed) = (0, 0, 0);
    // SAFETY: block and output are slices that do not overlap, and each number is a variable of its own.
    let number = unsafe {
        ffi::rasclanya_fetch_picture(
            block.as_ptr(),
            block.len(),
            n,
            palette.is_some().into(),
            palette.unwrap_or(0),
            out.as_mut_ptr(),
            out.len(),
            &mut len,
            &mut short_answers,
            &mut needed,
        )
    };
    let answer = done(number, needed).map(|()| len);
    Fetched {
        answer,
        short_answers,
    }
}
