//! Prints the listing of document 01's sample block, and decodes its textures, in a program that has neither std nor a heap.
//!
//! Where a crate of the program brings std with it, std's panic handler is there too, and the program does not compile.
#![no_std]
#![no_main]

use core::ffi::c_int;
use core::fmt::{self, Write};
use core::panic::PanicInfo;

use rasclanya::{list, palette_iter, picture, texture_iter, Error, MAX_LISTING};

const BLOCK: &[u8] = include_bytes!("../../../../../crates/list_tex/stdin");

#[link(name = "c")]
extern "C" {
    fn write(file: c_int, bytes: *const u8, len: usize) -> isize;
    fn abort() -> !;
}

/// An open file, by its number.
struct File(c_int);

impl Write for File {
    fn write_str(&mut self, text: &str) -> fmt::Result {
        // SAFETY: the text has so many bytes.
        let written = unsafe { write(self.0, text.as_ptr(), text.len()) };
        match usize::try_from(written) {
            Ok(len) if len == text.len() => Ok(()),
            _ => Err(fmt::Error),
        }
    }
}

fn print_listing() -> Result<(), Error> {
    let mut text = [0; MAX_LISTING];
    let len = list(BLOCK, &mut text)?;
    let text = core::str::from_utf8(&text[..len]).expect("a listing is UTF-8");
    File(1).write_str(text).expect("the listing is written");
    Ok(())
}

fn decode_textures() -> Result<(), Error> {
    assert_eq!(palette_iter(BLOCK)?.len(), 1);
    for (n, texture) in texture_iter(BLOCK)?.enumerate() {
        let mut out = [0; 256];
        let len = picture(BLOCK, n, Some(0), &mut out)?;
        assert_eq!(len, texture.params.picture_len(), "{}", texture.name);
    }
    Ok(())
}

#[no_mangle]
extern "C" fn main() -> c_int {
    match print_listing().and_then(|()| decode_textures()) {
        Ok(()) => 0,
        Err(error) => panic!("{error}"),
    }
}

#[panic_handler]
fn panicked(info: &PanicInfo<'_>) -> ! {
    let _ = writeln!(File(2), "{info}");
    // SAFETY: the function takes nothing.
    unsafe { abort() }
}

/// The host's core names this function of std for unwinding, which a program that aborts never does.
#[no_mangle]
extern "C" fn rust_eh_personality() {}
