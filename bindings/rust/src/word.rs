//! The texture word, and the kinds that it says.

use crate::ffi;

/// What a texture does beyond its edges, along one axis.
#[derive(Clone, Copy, Debug, PartialEq, Eq, Hash)]
pub enum Wrap {
    /// The texel at the edge goes on.
    Clamp,
    /// The texture begins again.
    Repeat,
    /// The texture goes on mirrored.
    Mirror,
}

impl Wrap {
    pub(crate) fn from_number(number: u32) -> Wrap {
        match number {
            0 => Wrap::Clamp,
            1 => Wrap::Repeat,
            2 => Wrap::Mirror,
            _ => unreachable!("libcapi.a answered with {number}, which is no wrap word's number"),
        }
    }
}

/// Which alphas a texture's texels can have.
#[derive(Clone, Copy, Debug, PartialEq, Eq, Hash)]
pub enum Alpha {
    /// Every texel is solid.
    Opaque,
    /// A texel is solid or clear.
    Transparent,
    /// A texel has any alpha.
    Translucent,
}

impl Alpha {
    pub(crate) fn from_number(number: u32) -> Alpha {
        match number {
            0 => Alpha::Opaque,
            1 => Alpha::Transparent,
            2 => Alpha::Translucent,
            _ => unreachable!("libcapi.a answered with {number}, which is no alpha kind's number"),
        }
    }
}

/// The texture word: a texture's size, format and addressing in 32 bits.
#[derive(Clone, Copy, Debug, Default, PartialEq, Eq, Hash)]
pub struct TextureParams(pub u32);

// SAFETY, for each call in this block: the function takes a number by value, and any number.
impl TextureParams {
    /// Where the texture's data begin, in bytes, from the start of the data of all textures.
    pub fn offset(self) -> u32 {
        unsafe { ffi::rasclanya_offset(self.0) }
    }

    /// The repeat bit in S. [`TextureParams::wrap_s`] says what it comes to with the mirror bit.
    pub fn repeat_s(self) -> bool {
        unsafe { ffi::rasclanya_repeat_s(self.0) }
    }

    /// The repeat bit in T. [`TextureParams::wrap_t`] says what it comes to with the mirror bit.
    pub fn repeat_t(self) -> bool {
        unsafe { ffi::rasclanya_repeat_t(self.0) }
    }

    /// The mirror bit in S.
    pub fn mirror_s(self) -> bool {
        unsafe { ffi::rasclanya_mirror_s(self.0) }
    }

    /// The mirror bit in T.
    pub fn mirror_t(self) -> bool {
        unsafe { ffi::rasclanya_mirror_t(self.0) }
    }

    /// The width in texels: a power of two from 8 to 1024.
    pub fn width(self) -> u32 {
        unsafe { ffi::rasclanya_width(self.0) }
    }

    /// The height in texels: a power of two from 8 to 1024.
    pub fn height(self) -> u32 {
        unsafe { ffi::rasclanya_height(self.0) }
    }

    /// The format, 0 to 7.
    pub fn format(self) -> u8 {
        unsafe { ffi::rasclanya_format(self.0) }
    }

    /// Whether colour 0 is clear, in formats 2 to 4.
    pub fn is_color0_transparent(self) -> bool {
        unsafe { ffi::rasclanya_is_color0_transparent(self.0) }
    }

    /// The transform mode of texture coordinates, 0 to 3.
    pub fn texcoord_transform_mode(self) -> u8 {
        unsafe { ffi::rasclanya_texcoord_transform_mode(self.0) }
    }

    /// The wrap in S: mirrored where the mirror bit is set, else repeated where the repeat bit is set, else clamped.
    pub fn wrap_s(self) -> Wrap {
        Wrap::from_number(unsafe { ffi::rasclanya_wrap_s(self.0) })
    }

    /// The wrap in T.
    pub fn wrap_t(self) -> Wrap {
        Wrap::from_number(unsafe { ffi::rasclanya_wrap_t(self.0) })
    }

    /// Which alphas the texels can have, by the format and, in formats 2 to 4, by whether colour 0 is clear.
    pub fn alpha_type(self) -> Alpha {
        Alpha::from_number(unsafe { ffi::rasclanya_alpha_type(self.0) })
    }

    /// The length of the data, of the first data for format 5, in bytes.
    pub fn byte_len(self) -> usize {
        unsafe { ffi::rasclanya_byte_len(self.0) }
    }

    /// The length of the second data, in bytes: 0 for other formats than 5.
    pub fn byte_len2(self) -> usize {
        unsafe { ffi::rasclanya_byte_len2(self.0) }
    }

    /// The length of the picture, in bytes: 4 for each texel.
    pub fn picture_len(self) -> usize {
        4 * self.width() as usize * self.height() as usize
    }
}
