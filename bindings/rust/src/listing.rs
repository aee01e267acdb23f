//! The listing of a block as text.

#[cfg(feature = "std")]
use std::{string::String, vec};

use crate::error::Error;
use crate::ffi;
#[cfg(feature = "std")]
use crate::text::text_of;
use crate::text::write_text;

/// The longest input that [`list`] reads, in bytes.
pub const MAX_INPUT: usize = 65536;

/// An output of this length has room for every text that [`list`] writes.
pub const MAX_LISTING: usize = 22211;

/// Writes the block's listing, and returns the number of bytes. The only refusal is [`Error::Output`].
///
/// Each line ends with a line feed: `textures` and their count; for each texture its number, safe name, format, width, height, wrap in S, wrap
/// in T and alpha; `palettes` and their count; for each palette its number, safe name and offset in bytes. A block that is refused is listed
/// as one line, `refused`, with the refusal's number and the needed length or 0. An input longer than [`MAX_INPUT`] gives `refused 13 0`.
pub fn list(input: &[u8], out: &mut [u8]) -> Result<usize, Error> {
    // SAFETY: the function is one of the archive's texts, and the input and the output are slices that do not overlap.
    unsafe { write_text(ffi::rasclanya_list, input, out) }
}

/// The text that [`list`] writes. Needs the feature `std`.
#[cfg(feature = "std")]
pub fn listing(input: &[u8]) -> String {
    let mut text = vec![0; MAX_LISTING];
    let len = list(input, &mut text).expect("MAX_LISTING bytes have room for every listing");
    String::from(text_of(&text[..len]))
}
