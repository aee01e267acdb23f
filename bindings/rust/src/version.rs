//! The version.

use crate::ffi;

/// The number that decimal digits are.
const fn number(digits: &str) -> u32 {
    let digits = digits.as_bytes();
    let mut number = 0;
    let mut i = 0;
    while i < digits.len() {
        number = 10 * number + (digits[i] - b'0') as u32;
        i += 1;
    }
    number
}

/// The crate's version: 10,000 times its first number, 100 times its second, and its third.
pub const VERSION: u32 = 10_000 * number(env!("CARGO_PKG_VERSION_MAJOR"))
    + 100 * number(env!("CARGO_PKG_VERSION_MINOR"))
    + number(env!("CARGO_PKG_VERSION_PATCH"));

/// The version of the archive that the crate is linked with, which is [`VERSION`] where both are of one.
pub fn version() -> u32 {
    // SAFETY: the function takes nothing.
    unsafe { ffi::rasclanya_version() }
}
