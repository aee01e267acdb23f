//! Reads TEX0 blocks, which hold the textures of Nintendo DS titles, and decodes their textures to RGBA pictures.
//!
//! The crate is a safe wrapper of a static library that is written in Rattle, a language in which a function is accepted only with a proof
//! that it meets its contract, is safe and ends. The wrapper itself is not proved. It needs x86-64 Linux.
//!
//! A block may have any bytes. A call answers with what it was asked for, or with the [`Error`] that says why it is refused. Calls read the
//! block anew, keep nothing, and write pictures and texts to an output that is lent to them: a refused call leaves it as it was, and the
//! output behind the result keeps its content.
//!
//! ```
//! # fn main() -> Result<(), Box<dyn std::error::Error>> {
//! let block = std::fs::read("../../crates/list_tex/stdin")?;
//! let counts = rasclanya::read_tex(&block)?;
//! assert_eq!((counts.textures, counts.palettes), (1, 1));
//!
//! let texture = rasclanya::texture(&block, 0)?;
//! assert_eq!(texture.name.to_string(), "leaf");
//! assert_eq!((texture.params.width(), texture.params.height()), (8, 8));
//!
//! let mut picture = vec![0; texture.params.picture_len()];
//! let len = rasclanya::picture(&block, 0, Some(0), &mut picture)?;
//! assert_eq!(len, picture.len());
//! # Ok(())
//! # }
//! ```
//!
//! All textures, or all palettes, come from one reading:
//!
//! ```
//! # fn main() -> Result<(), Box<dyn std::error::Error>> {
//! # #[cfg(feature = "std")] {
//! let block = std::fs::read("../../crates/list_tex/stdin")?;
//! for texture in rasclanya::textures(&block)? {
//!     println!("{} {} bytes", texture.name, texture.data1.len());
//! #   assert_eq!((texture.name.to_string().as_str(), texture.data1), ("leaf", &block[144..176]));
//! }
//! # assert_eq!(rasclanya::palettes(&block)?.len(), 1);
//! # }
//! # Ok(())
//! # }
//! ```
//!
//! [`texture_iter`] and [`palette_iter`] give the same without a heap:
//!
//! ```
//! # fn main() -> Result<(), Box<dyn std::error::Error>> {
//! let block = std::fs::read("../../crates/list_tex/stdin")?;
//! let textures = rasclanya::texture_iter(&block)?;
//! let bytes: usize = textures.map(|texture| texture.data1.len()).sum();
//! assert_eq!(bytes, 32);
//!
//! let last = rasclanya::palette_iter(&block)?.next_back();
//! assert_eq!(last.map(|palette| palette.off), Some(0));
//! # Ok(())
//! # }
//! ```
//!
//! A block that is still arriving is lent as far as it is there. An answer that is not [`Error::Short`] is the whole block's, of each call that reads
//! a block but [`list`], which has a text for a part of a block too:
//!
//! ```
//! # fn main() -> Result<(), Box<dyn std::error::Error>> {
//! use rasclanya::{read_tex, Error};
//!
//! let block = std::fs::read("../../crates/list_tex/stdin")?;
//! assert_eq!(read_tex(&block[..59]), Err(Error::Short { needed: 60 }));
//! assert_eq!(read_tex(&block[..60]), Err(Error::Short { needed: 208 }));
//! assert!(read_tex(&block[..208]).is_ok());
//! # Ok(())
//! # }
//! ```
//!
//! # Features
//!
//! The crate is `no_std`. The feature `std`, which is on by default, adds what gives a `Vec` or a `String`: `textures`, `palettes`, `Name::safe`
//! and `listing`. Without it every call works on what it is lent, and the crate allocates nothing.
#![no_std]
#![deny(missing_docs, unsafe_op_in_unsafe_fn)]

#[cfg(feature = "std")]
extern crate std;

mod error;
mod fetch;
mod ffi;
mod listing;
mod name;
mod parts;
mod pictures;
mod records;
mod rows;
mod text;
mod version;
mod word;

pub use error::Error;
pub use fetch::{fetch_picture, fetch_tex, Fetched};
pub use listing::{list, MAX_INPUT, MAX_LISTING};
pub use name::{Name, MAX_DISPLAY, NAME_LEN};
pub use parts::{pal_block, texture_data1, texture_data2};
pub use pictures::{decode_texture, picture};
pub use records::{palette, read_tex, texture, Counts, Palette, Texture, MAX_COUNT};
pub use rows::{palette_iter, texture_iter, Entries, Palettes, TextureParts, Textures};
pub use version::{version, VERSION};
pub use word::{Alpha, TextureParams, Wrap};

#[cfg(feature = "std")]
pub use listing::listing;
#[cfg(feature = "std")]
pub use rows::{palettes, textures};
