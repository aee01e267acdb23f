//! All textures, or all palettes, from one reading of a block.

use core::fmt;
use core::iter::FusedIterator;
use core::marker::PhantomData;
use core::mem::MaybeUninit;
use core::ops::Range;
#[cfg(feature = "std")]
use std::vec::Vec;

use crate::error::{done, Error};
use crate::ffi;
use crate::name::{Name, NAME_LEN};
use crate::records::{Palette, MAX_COUNT};
use crate::word::TextureParams;

/// How many numbers the archive writes for a texture, and for a palette.
const TEXTURE_ROW: usize = 6;
const PALETTE_ROW: usize = 2;

/// A texture with its data, as [`texture_iter`] gives it.
#[derive(Clone, Copy, Debug, PartialEq, Eq, Hash)]
pub struct TextureParts<'a> {
    /// The name.
    pub name: Name,
    /// The texture word.
    pub params: TextureParams,
    /// The data, or the first data for format 5, as the part of the block that they occupy.
    pub data1: &'a [u8],
    /// The second data, as the part of the block that they occupy: empty for other formats than 5.
    pub data2: &'a [u8],
}

/// What is made from a row of `N` numbers on a block. It stands in bounds of [`Entries`] alone, and has no name outside the crate.
pub trait Entry<'a, const N: usize> {
    /// The entry of a row that the archive wrote for the block.
    fn from_row(block: &'a [u8], row: [usize; N]) -> Self;
}

/// The name at a position of the block.
fn name_at(block: &[u8], pos: usize) -> Name {
    let mut name = [0; NAME_LEN];
    name.copy_from_slice(&block[pos..][..NAME_LEN]);
    Name(name)
}

impl<'a> Entry<'a, TEXTURE_ROW> for TextureParts<'a> {
    fn from_row(block: &'a [u8], row: [usize; TEXTURE_ROW]) -> Self {
        let [name, word, pos1, len1, pos2, len2] = row;
        TextureParts {
            name: name_at(block, name),
            params: TextureParams(word as u32),
            data1: &block[pos1..][..len1],
            data2: &block[pos2..][..len2],
        }
    }
}

impl<'a> Entry<'a, PALETTE_ROW> for Palette {
    fn from_row(block: &'a [u8], [name, off]: [usize; PALETTE_ROW]) -> Self {
        Palette {
            name: name_at(block, name),
            off: off as u32,
        }
    }
}

/// An iterator over the entries of a block's list, in list order, from one reading and without a heap: [`Textures`] or [`Palettes`].
///
/// It holds a row of `N` numbers for each of [`MAX_COUNT`] entries, and makes an entry from its row when it is asked for.
#[derive(Clone)]
pub struct Entries<'a, T, const N: usize> {
    block: &'a [u8],
    rows: Rows<N>,
    /// How many rows the archive has written, from the first.
    count: usize,
    /// The numbers of the entries that are still to come.
    left: Range<usize>,
    entry: PhantomData<T>,
}

/// An iterator over a block's textures, which [`texture_iter`] gives.
pub type Textures<'a> = Entries<'a, TextureParts<'a>, TEXTURE_ROW>;

/// An iterator over a block's palettes, which [`palette_iter`] gives.
pub type Palettes<'a> = Entries<'a, Palette, PALETTE_ROW>;

/// A function of the archive that writes a row of numbers for each entry of a list: of a block, to an output, with how many numbers are
/// written and the needed length.
type RowsCall =
    unsafe extern "C" fn(*const u8, usize, *mut usize, usize, *mut usize, *mut usize) -> u32;

/// Room for the rows of the longest list.
type Rows<const N: usize> = [MaybeUninit<[usize; N]>; MAX_COUNT];

/// Writes the rows of a list, and returns how many there are, from the first.
///
/// # Safety
///
/// The function keeps to the header's rules for its slices and its numbers, and its rows have `N` numbers.
unsafe fn read<const N: usize>(
    call: RowsCall,
    block: &[u8],
    rows: &mut Rows<N>,
) -> Result<usize, Error> {
    let (mut len, mut needed) = (0, 0);
    // SAFETY: the block is a slice, the rows are memory that the function writes to and does not read, and each number is a variable of its
    // own.
    let number = unsafe {
        call(
            block.as_ptr(),
            block.len(),
            rows.as_mut_ptr().cast(),
            N * MAX_COUNT,
            &mut len,
            &mut needed,
        )
    };
    done(number, needed)?;
    Ok(len / N)
}

/// The entries of a list. The rows stay where they are written, so that a short list costs no copy of the room for the longest.
///
/// # Safety
///
/// As of [`read`].
#[cfg(feature = "std")]
unsafe fn collected<'a, T: Entry<'a, N>, const N: usize>(
    call: RowsCall,
    block: &'a [u8],
) -> Result<Vec<T>, Error> {
    let mut rows = [const { MaybeUninit::uninit() }; MAX_COUNT];
    // SAFETY: the caller vouches for the function.
    let count = unsafe { read(call, block, &mut rows) }?;
    // SAFETY: the first `count` rows are written.
    let entry = |row: &MaybeUninit<[usize; N]>| T::from_row(block, unsafe { row.assume_init() });
    Ok(rows[..count].iter().map(entry).collect())
}

impl<'a, T: Entry<'a, N>, const N: usize> Entries<'a, T, N> {
    /// The entries of a list.
    ///
    /// # Safety
    ///
    /// As of [`read`].
    unsafe fn read(call: RowsCall, block: &'a [u8]) -> Result<Self, Error> {
        let mut entries = Entries {
            block,
            rows: [const { MaybeUninit::uninit() }; MAX_COUNT],
            count: 0,
            left: 0..0,
            entry: PhantomData,
        };
        // SAFETY: the caller vouches for the function.
        entries.count = unsafe { read(call, block, &mut entries.rows) }?;
        entries.left = 0..entries.count;
        Ok(entries)
    }

    /// The entry of the number.
    fn entry(&self, n: usize) -> T {
        let row = self.rows[..self.count][n];
        // SAFETY: the first `count` rows are written.
        T::from_row(self.block, unsafe { row.assume_init() })
    }
}

impl<'a, T: Entry<'a, N>, const N: usize> Iterator for Entries<'a, T, N> {
    type Item = T;

    fn next(&mut self) -> Option<T> {
        self.left.next().map(|n| self.entry(n))
    }

    fn nth(&mut self, skipped: usize) -> Option<T> {
        self.left.nth(skipped).map(|n| self.entry(n))
    }

    fn size_hint(&self) -> (usize, Option<usize>) {
        self.left.size_hint()
    }
}

impl<'a, T: Entry<'a, N>, const N: usize> DoubleEndedIterator for Entries<'a, T, N> {
    fn next_back(&mut self) -> Option<T> {
        self.left.next_back().map(|n| self.entry(n))
    }

    fn nth_back(&mut self, skipped: usize) -> Option<T> {
        self.left.nth_back(skipped).map(|n| self.entry(n))
    }
}

impl<'a, T: Entry<'a, N>, const N: usize> ExactSizeIterator for Entries<'a, T, N> {}

impl<'a, T: Entry<'a, N>, const N: usize> FusedIterator for Entries<'a, T, N> {}

/// The entries that are still to come, as a list.
impl<'a, T: Entry<'a, N> + fmt::Debug, const N: usize> fmt::Debug for Entries<'a, T, N> {
    fn fmt(&self, f: &mut fmt::Formatter<'_>) -> fmt::Result {
        let left = self.left.clone().map(|n| self.entry(n));
        f.debug_list().entries(left).finish()
    }
}

/// All textures, in list order, from one reading of the block. The calls for one texture read the block each time.
pub fn texture_iter(block: &[u8]) -> Result<Textures<'_>, Error> {
    // SAFETY: the function is one of the archive's rows, and a texture's has `TEXTURE_ROW` numbers.
    unsafe { Entries::read(ffi::rasclanya_textures, block) }
}

/// All palettes, in list order, from one reading of the block. [`palette`](crate::palette) reads the block each time.
pub fn palette_iter(block: &[u8]) -> Result<Palettes<'_>, Error> {
    // SAFETY: the function is one of the archive's rows, and a palette's has `PALETTE_ROW` numbers.
    unsafe { Entries::read(ffi::rasclanya_palettes, block) }
}

/// The textures that [`texture_iter`] gives. Needs the feature `std`.
#[cfg(feature = "std")]
pub fn textures(block: &[u8]) -> Result<Vec<TextureParts<'_>>, Error> {
    // SAFETY: the function is one of the archive's rows, and a texture's has `TEXTURE_ROW` numbers.
    unsafe { collected(ffi::rasclanya_textures, block) }
}

/// The palettes that [`palette_iter`] gives. Needs the feature `std`.
#[cfg(feature = "std")]
pub fn palettes(block: &[u8]) -> Result<Vec<Palette>, Error> {
    // SAFETY: the function is one of the archive's rows, and a palette's has `PALETTE_ROW` numbers.
    unsafe { collected(ffi::rasclanya_palettes, block) }
}
