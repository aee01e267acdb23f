//! Texts that the archive writes to an output.

use crate::error::{done, Error};

/// A function of the archive that writes a text: of an input, to an output, and its length to a number.
pub(crate) type TextCall =
    unsafe extern "C" fn(*const u8, usize, *mut u8, usize, *mut usize) -> u32;

/// Writes a text to the output, and returns its length.
///
/// # Safety
///
/// The function keeps to the header's rules for its slices and its number.
pub(crate) unsafe fn write_text(
    call: TextCall,
    input: &[u8],
    out: &mut [u8],
) -> Result<usize, Error> {
    let mut len = 0;
    // SAFETY: the two slices and the number are borrowed for the call, and those that it writes to overlap nothing else.
    let number = unsafe {
        call(
            input.as_ptr(),
            input.len(),
            out.as_mut_ptr(),
            out.len(),
            &mut len,
        )
    };
    done(number, 0)?;
    Ok(len)
}

/// A text that the archive wrote, as a string.
pub(crate) fn text_of(bytes: &[u8]) -> &str {
    core::str::from_utf8(bytes).expect("libcapi.a writes texts in UTF-8")
}
