//! What is given to both sides.

use std::fmt;

/// One input of a comparison.
#[derive(Clone)]
pub enum Input {
    /// A block, or what is taken for one.
    Block(Vec<u8>),
    /// A direct decoding.
    Direct(Direct),
}

/// A texture word, its data and palette, which stand in no block.
#[derive(Clone)]
pub struct Direct {
    pub word: u32,
    pub data1: Vec<u8>,
    pub data2: Vec<u8>,
    /// The palette's offset in the palette block, if there is a palette.
    pub palette: Option<u32>,
    pub pal: Vec<u8>,
}

impl fmt::Display for Input {
    fn fmt(&self, f: &mut fmt::Formatter) -> fmt::Result {
        match self {
            Input::Block(block) => write_part(f, "block", block),
            Input::Direct(direct) => {
                writeln!(f, "direct decoding of word {:08x}, palette at {:?}", direct.word, direct.palette)?;
                write_part(f, "data", &direct.data1)?;
                write_part(f, "second data", &direct.data2)?;
                write_part(f, "palette block", &direct.pal)
            }
        }
    }
}

/// A part's length, and its bytes in hexadecimal.
fn write_part(f: &mut fmt::Formatter, part: &str, bytes: &[u8]) -> fmt::Result {
    writeln!(f, "{part}, {} bytes", bytes.len())?;
    bytes.chunks(32).try_for_each(|line| write_line(f, line))
}

fn write_line(f: &mut fmt::Formatter, line: &[u8]) -> fmt::Result {
    line.iter().try_for_each(|byte| write!(f, "{byte:02x}"))?;
    writeln!(f)
}
