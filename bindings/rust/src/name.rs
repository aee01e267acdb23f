//! Names of textures and palettes.

use core::fmt;
#[cfg(feature = "std")]
use std::string::String;

use crate::error::Error;
use crate::ffi;
use crate::text::{text_of, write_text};

/// The length of a name in bytes, and of the longest text that [`Name::print_safe`] writes.
pub const NAME_LEN: usize = 16;

/// The longest text that [`Name::display`] writes, in bytes.
pub const MAX_DISPLAY: usize = 32;

/// A name of a texture or a palette, padded with zeros.
///
/// It is displayed in UTF-8, each byte as the character of that number, with `.` for each byte below 20 hex and without trailing zeros.
#[derive(Clone, Copy, Debug, Default, PartialEq, Eq, Hash)]
pub struct Name(pub [u8; NAME_LEN]);

impl Name {
    /// Writes the name as letters, digits and `_`, and returns the number of bytes: 1 to [`NAME_LEN`].
    ///
    /// Every byte that is no letter or digit becomes `_`. Trailing zeros are dropped, and an empty name is `_`.
    pub fn print_safe(&self, out: &mut [u8]) -> Result<usize, Error> {
        // SAFETY: the function is one of the archive's texts, and the name and the output are slices.
        unsafe { write_text(ffi::rasclanya_print_safe, &self.0, out) }
    }

    /// Writes the name as it is displayed, and returns the number of bytes: 0 to [`MAX_DISPLAY`].
    pub fn display(&self, out: &mut [u8]) -> Result<usize, Error> {
        // SAFETY: the function is one of the archive's texts, and the name and the output are slices.
        unsafe { write_text(ffi::rasclanya_display, &self.0, out) }
    }

    /// The text that [`Name::print_safe`] writes. Needs the feature `std`.
    #[cfg(feature = "std")]
    pub fn safe(&self) -> String {
        let mut text = [0; NAME_LEN];
        let len = self
            .print_safe(&mut text)
            .expect("NAME_LEN bytes have room for every safe text");
        String::from(text_of(&text[..len]))
    }
}

impl fmt::Display for Name {
    fn fmt(&self, f: &mut fmt::Formatter<'_>) -> fmt::Result {
        let mut text = [0; MAX_DISPLAY];
        let len = self
            .display(&mut text)
            .expect("MAX_DISPLAY bytes have room for every displayed name");
        f.pad(text_of(&text[..len]))
    }
}
