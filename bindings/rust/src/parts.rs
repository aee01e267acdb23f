//! The parts of a block that hold data.

use crate::error::{done, Error};
use crate::ffi;

/// A function of the archive that says where a texture's data are: of a block and a number, with position, length and needed length.
type DataCall =
    unsafe extern "C" fn(*const u8, usize, usize, *mut usize, *mut usize, *mut usize) -> u32;

/// Data of texture `n`, as the part of the block that they occupy.
///
/// # Safety
///
/// The function keeps to the header's rules for its slice and its numbers.
unsafe fn data_part(call: DataCall, block: &[u8], n: usize) -> Result<&[u8], Error> {
    let (mut pos, mut len, mut needed) = (0, 0, 0);
    // SAFETY: the block is a slice, and each number is a variable of its own.
    let number = unsafe {
        call(
            block.as_ptr(),
            block.len(),
            n,
            &mut pos,
            &mut len,
            &mut needed,
        )
    };
    done(number, needed)?;
    Ok(&block[pos..][..len])
}

/// The data of texture `n`, or the first data for format 5, as the part of the block that they occupy.
pub fn texture_data1(block: &[u8], n: usize) -> Result<&[u8], Error> {
    // SAFETY: the function is one of the archive's parts.
    unsafe { data_part(ffi::rasclanya_texture_data1, block, n) }
}

/// The second data of texture `n`, as the part of the block that they occupy: empty for other formats than 5.
pub fn texture_data2(block: &[u8], n: usize) -> Result<&[u8], Error> {
    // SAFETY: the function is one of the archive's parts.
    unsafe { data_part(ffi::rasclanya_texture_data2, block, n) }
}

/// The palette block, which all palettes share, as the part of the block that it occupies.
pub fn pal_block(block: &[u8]) -> Result<&[u8], Error> {
    let (mut pos, mut len, mut needed) = (0, 0, 0);
    // SAFETY: the block is a slice, and each number is a variable of its own.
    let number = unsafe {
        ffi::rasclanya_pal_block(block.as_ptr(), block.len(), &mut pos, &mut len, &mut needed)
    };
    done(number, needed)?;
    Ok(&block[pos..][..len])
}
