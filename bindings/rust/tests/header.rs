//! Holds the crate's numbers and texts to those of `include/rasclanya.h`, whose refusals, kinds and lengths it states anew.

use rasclanya::*;
use std::collections::BTreeMap;

const HEADER: &str = include_str!("../../../include/rasclanya.h");

const ERRORS: [Error; 12] = [
    Error::Short { needed: 60 },
    Error::Stamp,
    Error::TextureDummy,
    Error::TextureDatumSize,
    Error::PaletteDummy,
    Error::PaletteDatumSize,
    Error::TextureNumber,
    Error::PaletteNumber,
    Error::NoPalette,
    Error::NoTexels,
    Error::Output,
    Error::ShortData,
];

/// The refusal that only the listing's text has, of an input that is too long.
const LONG_INPUT: u32 = 13;

/// The header's numbers by their names: `NAME = N` in its enums, and `#define NAME N`.
fn numbers() -> BTreeMap<&'static str, u32> {
    let named = HEADER.lines().filter_map(|line| {
        let line = line.trim();
        let (name, rest) = match line.strip_prefix("#define ") {
            Some(define) => define.split_once(' ')?,
            None => line.split_once(" = ")?,
        };
        let end = rest.find(|c: char| !c.is_ascii_digit());
        let number = rest[..end.unwrap_or(rest.len())].parse().ok()?;
        name.starts_with("RASCLANYA_").then_some((name, number))
    });
    named.collect()
}

/// The header's number of the name.
fn number(name: &str) -> u32 {
    *numbers()
        .get(name)
        .unwrap_or_else(|| panic!("the header has no number for {name}"))
}

/// The header's texts by their refusals' numbers: `case NAME: return "TEXT";`. That of 0 is no refusal's.
fn texts() -> BTreeMap<u32, &'static str> {
    let cases = HEADER.lines().filter_map(|line| {
        let (name, text) = line.trim().strip_prefix("case ")?.split_once(": return ")?;
        let text = text.strip_prefix('"')?.strip_suffix("\";")?;
        (name != "0").then(|| (number(name), text))
    });
    cases.collect()
}

/// Every refusal of the header but the listing's is an error, and no other is.
#[test]
fn refusals() {
    let mut refusals: Vec<u32> = numbers()
        .into_iter()
        .filter_map(|(name, number)| name.starts_with("RASCLANYA_REFUSED_").then_some(number))
        .filter(|number| *number != LONG_INPUT)
        .collect();
    refusals.sort();
    assert_eq!(refusals, ERRORS.map(|error| error.number()));
    assert_eq!(refusals, Vec::from_iter(1..=12));
}

/// Every refusal of the header has a text, and an error displays that of its number.
#[test]
fn refusal_texts() {
    let texts = texts();
    for (name, number) in numbers() {
        let has_text = texts.contains_key(&number);
        assert!(
            has_text || !name.starts_with("RASCLANYA_REFUSED_"),
            "{name} has no text"
        );
    }
    for error in ERRORS {
        let text = texts[&error.number()];
        let want = match error {
            Error::Short { needed } => format!("{text}: {needed} bytes are needed"),
            _ => text.to_string(),
        };
        assert_eq!(error.to_string(), want);
    }
}

#[test]
fn needed_lengths() {
    assert_eq!(
        ERRORS.map(|error| error.needed()),
        [60, 0, 0, 0, 0, 0, 0, 0, 0, 0, 0, 0]
    );
}

/// An error goes where any error is taken.
#[test]
fn boxed() {
    let error: Box<dyn std::error::Error + Send + Sync> = Error::Stamp.into();
    assert_eq!(error.downcast_ref(), Some(&Error::Stamp));
}

#[test]
fn kinds() {
    assert_eq!(Wrap::Clamp as u32, number("RASCLANYA_CLAMP"));
    assert_eq!(Wrap::Repeat as u32, number("RASCLANYA_REPEAT"));
    assert_eq!(Wrap::Mirror as u32, number("RASCLANYA_MIRROR"));
    assert_eq!(Alpha::Opaque as u32, number("RASCLANYA_OPAQUE"));
    assert_eq!(Alpha::Transparent as u32, number("RASCLANYA_TRANSPARENT"));
    assert_eq!(Alpha::Translucent as u32, number("RASCLANYA_TRANSLUCENT"));
}

#[test]
fn lengths() {
    let numbers = [
        ("RASCLANYA_NAME_LEN", NAME_LEN),
        ("RASCLANYA_MAX_DISPLAY", MAX_DISPLAY),
        ("RASCLANYA_MAX_INPUT", MAX_INPUT),
        ("RASCLANYA_MAX_LISTING", MAX_LISTING),
        ("RASCLANYA_MAX_COUNT", MAX_COUNT),
    ];
    for (name, length) in numbers {
        assert_eq!(number(name) as usize, length, "{name}");
    }
}

/// An iterator has rows of as many numbers as the header says.
#[test]
fn rows() {
    fn row<T, const N: usize>(_: &Entries<'_, T, N>) -> u32 {
        N as u32
    }
    let block = include_bytes!("../../../crates/list_tex/stdin");
    let textures = texture_iter(block).expect("the block is read");
    let palettes = palette_iter(block).expect("the block is read");
    assert_eq!(row(&textures), number("RASCLANYA_TEXTURE_ROW"));
    assert_eq!(row(&palettes), number("RASCLANYA_PALETTE_ROW"));
}

#[test]
fn versions() {
    assert_eq!(number("RASCLANYA_VERSION"), VERSION);
}
