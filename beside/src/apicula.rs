//! apicula's reading and decoding, with its errors grouped into classes that the port's refusals can be held against.

use crate::errors::ErrorMsg;
use crate::nds::{decode_texture, TextureParams};
use crate::nitro::tex;
use crate::nitro::{Name, Palette, Texture};
use crate::util::cur::{self, Cur};
use std::error::Error;
use std::rc::Rc;

/// Why a call is refused. apicula has one error for the dummies of both lists, and one for both datum sizes.
#[derive(Clone, Copy, PartialEq, Eq, Debug)]
pub enum Class {
    Short,
    Stamp,
    Dummy,
    DatumSize,
    PaletteNeeded,
    Format0,
    /// A refusal of the port that apicula has no error for, with its number.
    Ours(u32),
}

impl Class {
    pub fn name(self) -> &'static str {
        match self {
            Class::Short => "short",
            Class::Stamp => "stamp",
            Class::Dummy => "dummy",
            Class::DatumSize => "datum size",
            Class::PaletteNeeded => "palette needed",
            Class::Format0 => "format 0",
            Class::Ours(_) => "the port's own",
        }
    }
}

/// Reads a block.
pub fn read_tex(block: &[u8]) -> Result<(Vec<Texture>, Vec<Palette>), Class> {
    tex::read_tex(Cur::new(block)).map_err(|error| class(&*error))
}

/// The class of an error: a short take has its own type, the others have a text that names what was expected.
fn class(error: &(dyn Error + 'static)) -> Class {
    if error.is::<cur::Error>() {
        return Class::Short;
    }
    let msg = &error.downcast_ref::<ErrorMsg>().expect("apicula has two types of errors").msg;
    let words = [
        ("stamp", Class::Stamp),
        ("dummy", Class::Dummy),
        ("size_of_datum", Class::DatumSize),
        ("required a palette", Class::PaletteNeeded),
        ("format 0", Class::Format0),
    ];
    let found = words.iter().find(|(word, _)| msg.contains(word));
    found.unwrap_or_else(|| panic!("apicula has an error without a class: {msg}")).1
}

/// Decodes a texture to its pixels.
pub fn decode(texture: &Texture, palette: Option<&Palette>) -> Result<Vec<u8>, Class> {
    match decode_texture(texture, palette) {
        Ok(pixels) => Ok(pixels.0),
        Err(error) => Err(class(&*error)),
    }
}

/// A texture that stands in no block. apicula decodes it only if the data are as long as the word says.
pub fn loose_texture(word: u32, data1: &[u8], data2: &[u8]) -> Texture {
    Texture { name: Name([0; 16]), params: TextureParams(word), data1: data1.to_vec(), data2: data2.to_vec() }
}

/// A palette that stands in no block.
pub fn loose_palette(off: u32, pal_block: &[u8]) -> Palette {
    Palette { name: Name([0; 16]), off, pal_block: Rc::new(pal_block.into()) }
}

/// The length of the first and of the second data that a word asks for.
pub fn data_lens(word: u32) -> (usize, usize) {
    let params = TextureParams(word);
    let len = params.format().byte_len(params.dim());
    (len, if params.format().0 == 5 { len / 2 } else { 0 })
}
