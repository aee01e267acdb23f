//! Why a call is refused.

use core::fmt;

/// Why a call is refused.
#[non_exhaustive]
#[derive(Clone, Copy, Debug, PartialEq, Eq, Hash)]
pub enum Error {
    /// The block is too short.
    Short {
        /// The length of the block at which the call gets further.
        needed: usize,
    },
    /// The block does not begin with `TEX0`.
    Stamp,
    /// The texture list's dummy is not 0.
    TextureDummy,
    /// The texture list's datum size is not 8.
    TextureDatumSize,
    /// The palette list's dummy is not 0.
    PaletteDummy,
    /// The palette list's datum size is not 4.
    PaletteDatumSize,
    /// The texture's number is not below the count of textures.
    TextureNumber,
    /// The palette's number is not below the count of palettes.
    PaletteNumber,
    /// The texture has a format of 1 to 6, and no palette was chosen.
    NoPalette,
    /// The texture has format 0, which has no texels.
    NoTexels,
    /// The output is shorter than the result.
    Output,
    /// The data, or the second data for format 5, are shorter than the texture word says.
    ShortData,
}

impl Error {
    /// The refusal's number, 1 to 12.
    pub fn number(&self) -> u32 {
        match self {
            Error::Short { .. } => 1,
            Error::Stamp => 2,
            Error::TextureDummy => 3,
            Error::TextureDatumSize => 4,
            Error::PaletteDummy => 5,
            Error::PaletteDatumSize => 6,
            Error::TextureNumber => 7,
            Error::PaletteNumber => 8,
            Error::NoPalette => 9,
            Error::NoTexels => 10,
            Error::Output => 11,
            Error::ShortData => 12,
        }
    }

    /// The needed length of a short block, and else 0.
    pub fn needed(&self) -> usize {
        match self {
            Error::Short { needed } => *needed,
            _ => 0,
        }
    }

    /// What the header's `rasclanya_refusal_text` says of the refusal's number.
    fn text(&self) -> &'static str {
        match self {
            Error::Short { .. } => "the block is too short",
            Error::Stamp => "the block does not begin with TEX0",
            Error::TextureDummy => "the texture list's dummy is not 0",
            Error::TextureDatumSize => "the texture list's datum size is not 8",
            Error::PaletteDummy => "the palette list's dummy is not 0",
            Error::PaletteDatumSize => "the palette list's datum size is not 4",
            Error::TextureNumber => "there is no texture of this number",
            Error::PaletteNumber => "there is no palette of this number",
            Error::NoPalette => "the texture's format needs a palette",
            Error::NoTexels => "the texture has format 0, which has no texels",
            Error::Output => "the output is shorter than the result",
            Error::ShortData => "the data are shorter than the texture word says",
        }
    }

    /// The refusal of a number that the archive answered with.
    fn from_number(number: u32, needed: usize) -> Error {
        match number {
            1 => Error::Short { needed },
            2 => Error::Stamp,
            3 => Error::TextureDummy,
            4 => Error::TextureDatumSize,
            5 => Error::PaletteDummy,
            6 => Error::PaletteDatumSize,
            7 => Error::TextureNumber,
            8 => Error::PaletteNumber,
            9 => Error::NoPalette,
            10 => Error::NoTexels,
            11 => Error::Output,
            12 => Error::ShortData,
            _ => {
                unreachable!("libcapi.a answered with {number}, which is no refusal's number")
            }
        }
    }
}

impl fmt::Display for Error {
    fn fmt(&self, f: &mut fmt::Formatter<'_>) -> fmt::Result {
        f.write_str(self.text())?;
        match self {
            Error::Short { needed } => write!(f, ": {needed} bytes are needed"),
            _ => Ok(()),
        }
    }
}

impl core::error::Error for Error {}

/// The result of a call that answered with a number: 0, or a refusal's.
pub(crate) fn done(number: u32, needed: usize) -> Result<(), Error> {
    if number == 0 {
        Ok(())
    } else {
        Err(Error::from_number(number, needed))
    }
}
