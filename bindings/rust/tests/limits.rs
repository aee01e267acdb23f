//! Calls every function of the crate at its limits. What is expected is written from document 01.

mod blocks;

use blocks::{
    block, block_picture, color, colors, compressed, direct, far_palette_block, palette_name,
    sample_with, texel, texture_name, PALETTES, SAMPLE, TEXTURES, WORDS,
};
use rasclanya::*;
use std::fmt::Debug;
use std::iter::FusedIterator;

/// Calls with an output of the length, whose bytes and those behind it are filled before: the answer, and the bytes.
fn lent<T>(len: usize, call: impl FnOnce(&mut [u8]) -> T) -> (T, Vec<u8>) {
    let mut out = vec![0xa5; len + 16];
    let answer = call(&mut out[..len]);
    (answer, out)
}

/// What an output of the length has where a text was written to it.
fn filled(len: usize, text: &[u8]) -> Vec<u8> {
    let mut out = text.to_vec();
    out.resize(len + 16, 0xa5);
    out
}

/// The call writes the text to an output of its length and to a longer one, and is refused where the output is shorter, down to 0.
fn writes(text: &[u8], call: impl Fn(&mut [u8]) -> Result<usize, Error>) {
    for len in [text.len(), text.len() + 9] {
        assert_eq!(lent(len, &call), (Ok(text.len()), filled(len, text)));
    }
    if !text.is_empty() {
        refuses(Error::Output, text.len() - 1, &call);
        refuses(Error::Output, 0, &call);
    }
}

/// The call with an output of the length is refused, and changes no byte of it.
fn refuses(error: Error, len: usize, call: impl Fn(&mut [u8]) -> Result<usize, Error>) {
    assert_eq!(lent(len, &call), (Err(error), filled(len, &[])));
}

const ERRORS: [Error; 12] = [
    Error::Short { needed: 60 },
    Error::Stamp,
    Error::TextureDummy,
    Error::TextureDatumSize,
    Error::PaletteDummy,
    Error::PaletteDatumSize,
    Error::TextureNumber,
    Error::PaletteNumber,
    Error::NoPalette,
    Error::NoTexels,
    Error::Output,
    Error::ShortData,
];

#[test]
fn errors() {
    assert_eq!(
        ERRORS.map(|e| e.number()),
        std::array::from_fn(|i| i as u32 + 1)
    );
    assert_eq!(
        ERRORS.map(|e| e.needed()),
        [60, 0, 0, 0, 0, 0, 0, 0, 0, 0, 0, 0]
    );
    let texts: std::collections::HashSet<String> = ERRORS.iter().map(Error::to_string).collect();
    assert_eq!(texts.len(), 12);
    assert!(texts.contains("the block is too short: 60 bytes are needed"));
}

/// The crate is of the archive's version.
#[test]
fn versions() {
    assert_eq!((VERSION, version()), (200, VERSION));
}

struct Facts {
    word: u32,
    offset: u32,
    repeats: [bool; 2],
    mirrors: [bool; 2],
    size: [u32; 2],
    format: u8,
    color0: bool,
    transform: u8,
    wraps: [Wrap; 2],
    alpha: Alpha,
    lens: [usize; 3],
}

fn check_word(f: Facts) {
    let p = TextureParams(f.word);
    assert_eq!(p.offset(), f.offset);
    assert_eq!([p.repeat_s(), p.repeat_t()], f.repeats);
    assert_eq!([p.mirror_s(), p.mirror_t()], f.mirrors);
    assert_eq!([p.width(), p.height()], f.size);
    assert_eq!(p.format(), f.format);
    assert_eq!(p.is_color0_transparent(), f.color0);
    assert_eq!(p.texcoord_transform_mode(), f.transform);
    assert_eq!([p.wrap_s(), p.wrap_t()], f.wraps);
    assert_eq!(p.alpha_type(), f.alpha);
    assert_eq!([p.byte_len(), p.byte_len2(), p.picture_len()], f.lens);
}

#[test]
fn words() {
    check_word(Facts {
        word: 0,
        offset: 0,
        repeats: [false, false],
        mirrors: [false, false],
        size: [8, 8],
        format: 0,
        color0: false,
        transform: 0,
        wraps: [Wrap::Clamp, Wrap::Clamp],
        alpha: Alpha::Opaque,
        lens: [0, 0, 256],
    });
    check_word(Facts {
        word: 0xffffffff,
        offset: 524280,
        repeats: [true, true],
        mirrors: [true, true],
        size: [1024, 1024],
        format: 7,
        color0: true,
        transform: 3,
        wraps: [Wrap::Mirror, Wrap::Mirror],
        alpha: Alpha::Transparent,
        lens: [2097152, 0, 4194304],
    });
    check_word(Facts {
        word: 0x55150001,
        offset: 8,
        repeats: [true, false],
        mirrors: [true, false],
        size: [16, 32],
        format: 5,
        color0: false,
        transform: 1,
        wraps: [Wrap::Mirror, Wrap::Clamp],
        alpha: Alpha::Transparent,
        lens: [128, 64, 2048],
    });
    check_word(Facts {
        word: 0xa5c21234,
        offset: 37280,
        repeats: [false, true],
        mirrors: [false, false],
        size: [128, 64],
        format: 1,
        color0: true,
        transform: 2,
        wraps: [Wrap::Clamp, Wrap::Repeat],
        alpha: Alpha::Translucent,
        lens: [8192, 0, 32768],
    });
    check_word(Facts {
        word: 0x0c890000,
        offset: 0,
        repeats: [true, false],
        mirrors: [false, true],
        size: [8, 16],
        format: 3,
        color0: false,
        transform: 0,
        wraps: [Wrap::Repeat, Wrap::Mirror],
        alpha: Alpha::Opaque,
        lens: [64, 0, 512],
    });
}

/// Every call that takes the block is refused, whatever its other arguments are, and fetching has as many short answers.
fn refused(block: &[u8], error: Error, short_answers: usize) {
    assert_eq!(read_tex(block), Err(error));
    assert_eq!(pal_block(block), Err(error));
    assert_eq!(texture_iter(block).err(), Some(error));
    assert_eq!(palette_iter(block).err(), Some(error));
    #[cfg(feature = "std")]
    assert_eq!(textures(block), Err(error));
    #[cfg(feature = "std")]
    assert_eq!(palettes(block), Err(error));
    assert_eq!(
        fetch_tex(block),
        Fetched {
            answer: Err(error),
            short_answers
        }
    );
    for n in [0, usize::MAX] {
        assert_eq!(texture(block, n), Err(error));
        assert_eq!(palette(block, n), Err(error));
        assert_eq!(texture_data1(block, n), Err(error));
        assert_eq!(texture_data2(block, n), Err(error));
        refuses(error, 256, |out| picture(block, n, Some(n), out));
        refuses(error, 0, |out| picture(block, n, None, out));
        let fetched = Fetched {
            answer: Err(error),
            short_answers,
        };
        assert_eq!(
            lent(256, |out| fetch_picture(block, n, Some(n), out)),
            (fetched, filled(256, &[]))
        );
    }
}

#[test]
fn refused_blocks() {
    refused(&[], Error::Short { needed: 60 }, 1);
    refused(&SAMPLE[..59], Error::Short { needed: 60 }, 1);
    refused(&SAMPLE[..60], Error::Short { needed: 208 }, 2);
    refused(&SAMPLE[..207], Error::Short { needed: 208 }, 2);
    refused(&far_palette_block(), Error::Short { needed: 4295491575 }, 2);
    refused(&block()[..689], Error::Short { needed: 690 }, 11);
    refused(&sample_with(0, b"X"), Error::Stamp, 1);
    refused(&sample_with(60, &[1]), Error::TextureDummy, 2);
    refused(&sample_with(76, &[9]), Error::TextureDatumSize, 2);
    refused(&sample_with(104, &[1]), Error::PaletteDummy, 2);
    refused(&sample_with(120, &[5]), Error::PaletteDatumSize, 2);
}

#[test]
fn counts() {
    let one = Counts {
        textures: 1,
        palettes: 1,
    };
    assert_eq!(read_tex(&SAMPLE), Ok(one));
    assert_eq!(
        fetch_tex(&SAMPLE),
        Fetched {
            answer: Ok(one),
            short_answers: 2
        }
    );
    let counts = Counts {
        textures: TEXTURES,
        palettes: PALETTES,
    };
    assert_eq!(read_tex(&block()), Ok(counts));
    assert_eq!(
        fetch_tex(&block()),
        Fetched {
            answer: Ok(counts),
            short_answers: 12
        }
    );
}

/// Numbers that are too large. The low 32 bits of the third are those of the first texture's and palette's.
const BEYOND: [usize; 3] = [TEXTURES, usize::MAX, 1 << 32];

#[test]
fn texture_records() {
    let block = block();
    let kinds = [
        (Wrap::Repeat, Wrap::Mirror, Alpha::Opaque),
        (Wrap::Mirror, Wrap::Clamp, Alpha::Transparent),
        (Wrap::Clamp, Wrap::Repeat, Alpha::Translucent),
        (Wrap::Clamp, Wrap::Clamp, Alpha::Opaque),
        (Wrap::Clamp, Wrap::Clamp, Alpha::Transparent),
    ];
    for (n, (wrap_s, wrap_t, alpha)) in kinds.into_iter().enumerate() {
        let name = Name(texture_name(n));
        let params = TextureParams(WORDS[n]);
        assert_eq!(
            texture(&block, n),
            Ok(Texture {
                name,
                params,
                wrap_s,
                wrap_t,
                alpha
            })
        );
    }
    for n in BEYOND {
        assert_eq!(texture(&block, n), Err(Error::TextureNumber));
    }
}

#[test]
fn palette_records() {
    let block = block();
    for (n, off) in [8, 40].into_iter().enumerate() {
        assert_eq!(
            palette(&block, n),
            Ok(Palette {
                name: Name(palette_name(n)),
                off
            })
        );
    }
    for n in [PALETTES, usize::MAX, 1 << 32] {
        assert_eq!(palette(&block, n), Err(Error::PaletteNumber));
    }
    let far = palette(&sample_with(124, &[0xff; 2]), 0);
    assert_eq!(far.map(|palette| palette.off), Ok(524280));
}

/// A part that is the block's, at the position and of the length.
fn part(block: &[u8], got: Result<&[u8], Error>, pos: usize, len: usize) {
    let want = &block[pos..][..len];
    assert_eq!(got.map(<[u8]>::as_ptr_range), Ok(want.as_ptr_range()));
}

#[test]
fn parts() {
    let block = block();
    for (n, (pos, len)) in [(304, 32), (336, 16), (360, 64), (0, 0), (432, 256)]
        .into_iter()
        .enumerate()
    {
        part(&block, texture_data1(&block, n), pos, len);
    }
    for (n, (pos, len)) in [(0, 0), (352, 8), (0, 0), (0, 0), (0, 0)]
        .into_iter()
        .enumerate()
    {
        part(&block, texture_data2(&block, n), pos, len);
    }
    for n in BEYOND {
        assert_eq!(texture_data1(&block, n), Err(Error::TextureNumber));
        assert_eq!(texture_data2(&block, n), Err(Error::TextureNumber));
    }
    part(&block, pal_block(&block), 64, 80);
    let without = sample_with(48, &[0]);
    part(&without, pal_block(&without), 0, 0);
}

/// The texture of the number, by the calls for one texture.
fn single_texture(block: &[u8], n: usize) -> TextureParts<'_> {
    let record = texture(block, n).expect("the block has the texture");
    TextureParts {
        name: record.name,
        params: record.params,
        data1: texture_data1(block, n).expect("the block has the texture"),
        data2: texture_data2(block, n).expect("the block has the texture"),
    }
}

/// The iterator goes over the list, in whatever way it is asked, and then stays at its end.
fn iterates<T: Clone + Debug + PartialEq>(
    entries: impl ExactSizeIterator<Item = T> + DoubleEndedIterator + FusedIterator + Clone + Debug,
    list: &[T],
) {
    assert_eq!(entries.clone().collect::<Vec<_>>(), list);
    assert!(entries.clone().rev().eq(list.iter().rev().cloned()));
    for n in [0, 1, list.len() / 2, list.len(), usize::MAX] {
        let (mut some, mut same) = (entries.clone(), list.iter().cloned());
        assert_eq!(some.nth(n), same.nth(n));
        assert_eq!(some.nth_back(1), same.nth_back(1));
        assert_eq!((some.len(), some.next()), (same.len(), same.next()));
        assert_eq!(some.nth_back(n), same.nth_back(n));
        assert_eq!(some.size_hint(), same.size_hint());
        assert_eq!(some.next_back(), same.next_back());
        let left: Vec<_> = same.collect();
        assert_eq!(format!("{some:?}"), format!("{left:?}"));
        assert_eq!(some.by_ref().collect::<Vec<_>>(), left);
        assert_eq!((some.next(), some.next_back(), some.len()), (None, None, 0));
    }
}

/// All textures, by every call that gives them, are those that the calls for one give, with the same parts of the block.
fn all_textures(block: &[u8], count: usize) -> Vec<TextureParts<'_>> {
    let single: Vec<_> = (0..count).map(|n| single_texture(block, n)).collect();
    let entries: Textures<'_> = texture_iter(block).expect("the block is read");
    for (got, want) in entries.clone().zip(&single) {
        assert_eq!(got.data1.as_ptr_range(), want.data1.as_ptr_range());
        assert_eq!(got.data2.as_ptr_range(), want.data2.as_ptr_range());
    }
    iterates(entries, &single);
    #[cfg(feature = "std")]
    assert_eq!(textures(block).as_ref(), Ok(&single));
    single
}

/// All palettes, by every call that gives them, are those that the call for one gives.
fn all_palettes(block: &[u8], count: usize) -> Vec<Palette> {
    let single = (0..count).map(|n| palette(block, n).expect("the block has the palette"));
    let single: Vec<_> = single.collect();
    let entries: Palettes<'_> = palette_iter(block).expect("the block is read");
    iterates(entries, &single);
    #[cfg(feature = "std")]
    assert_eq!(palettes(block).as_ref(), Ok(&single));
    single
}

#[test]
fn lists() {
    let block = block();
    for (n, got) in all_textures(&block, TEXTURES).into_iter().enumerate() {
        assert_eq!((got.name, got.params.0), (Name(texture_name(n)), WORDS[n]));
    }
    for (n, got) in all_palettes(&block, PALETTES).into_iter().enumerate() {
        assert_eq!(got.name, Name(palette_name(n)));
    }
}

/// Blocks with no textures or palettes, and with the most.
#[test]
fn fewest_and_most() {
    for count in [0, MAX_COUNT] {
        let block = blocks::with_entries(count);
        all_textures(&block, count);
        all_palettes(&block, count);
    }
}

/// The name has the two texts.
fn named(name: [u8; 16], safe: &str, shown: &str) {
    let name = Name(name);
    writes(safe.as_bytes(), |out| name.print_safe(out));
    writes(shown.as_bytes(), |out| name.display(out));
    #[cfg(feature = "std")]
    assert_eq!(name.safe(), safe);
    assert_eq!(name.to_string(), shown);
}

#[test]
fn names() {
    named(*b"leaf\0\0\0\0\0\0\0\0\0\0\0\0", "leaf", "leaf");
    named([0; 16], "_", "");
    named([0xff; 16], "________________", "ÿÿÿÿÿÿÿÿÿÿÿÿÿÿÿÿ");
    named(
        *b"a\0Z\x1f 9~\x7f\x80\xbf\xc0\xff_/:\0",
        "a_Z__9_________",
        "a.Z. 9~\x7f\u{80}¿Àÿ_/:",
    );
    named(*b"abcdefghijklmnop", "abcdefghijklmnop", "abcdefghijklmnop");
    assert_eq!(Name::default(), Name([0; NAME_LEN]));
    #[cfg(feature = "std")]
    assert_eq!(Name::default().safe(), "_");
    assert_eq!(
        format!("{:>6}|", Name(*b"leaf\0\0\0\0\0\0\0\0\0\0\0\0")),
        "  leaf|"
    );
}

/// The block's texture has the picture, by both calls.
fn pictured(n: usize, palette: Option<usize>, want: &[u8]) {
    let block = block();
    writes(want, |out| picture(&block, n, palette, out));
    writes(want, |out| {
        let fetched = fetch_picture(&block, n, palette, out);
        assert_eq!(fetched.short_answers, 12);
        fetched.answer
    });
}

/// Palette 0 begins at the palette block's colour 4, palette 1 at 20.
#[test]
fn pictures() {
    for n in 0..3 {
        pictured(n, Some(0), &block_picture(n, 4));
        pictured(n, Some(1), &block_picture(n, 20));
    }
    pictured(4, Some(0), &block_picture(4, 0));
    pictured(4, None, &block_picture(4, 0));
}

/// The block's texture has no picture, by both calls, whether or not there is room for one.
fn not_pictured(n: usize, palette: Option<usize>, error: Error) {
    let block = block();
    for len in [512, 0] {
        refuses(error, len, |out| picture(&block, n, palette, out));
        refuses(error, len, |out| {
            let fetched = fetch_picture(&block, n, palette, out);
            assert_eq!(fetched.short_answers, 12);
            fetched.answer
        });
    }
}

#[test]
fn no_pictures() {
    for n in BEYOND {
        not_pictured(n, Some(0), Error::TextureNumber);
        not_pictured(n, Some(PALETTES), Error::TextureNumber);
        not_pictured(n, None, Error::TextureNumber);
    }
    for palette in [PALETTES, usize::MAX, 1 << 32] {
        for n in 0..TEXTURES {
            not_pictured(n, Some(palette), Error::PaletteNumber);
        }
    }
    for n in 0..3 {
        not_pictured(n, None, Error::NoPalette);
    }
    not_pictured(3, Some(1), Error::NoTexels);
    not_pictured(3, None, Error::NoTexels);
}

/// A texture of 8 by 8 texels of the format, with bytes E4 hex, decodes to a picture whose texels repeat.
fn decodes(word: u32, palette: Option<u32>, pal: &[u8], texels: &[[u8; 4]]) {
    let params = TextureParams(word);
    let data = vec![0xe4; params.byte_len()];
    let want = texels.concat().repeat(64 / texels.len());
    writes(&want, |out| {
        decode_texture(params, &data, &[], palette, pal, out)
    });
}

/// Bytes E4 hex are the texels 0, 1, 2, 3 of format 2; 4, 14 of format 3; 228 of format 4; and 4 with alpha 28 of format 6.
#[test]
fn formats() {
    let pal = colors();
    let shown = [0, 1, 2, 3].map(|i| texel(color(i), 31));
    decodes(0x08000000, Some(0), &pal, &shown);
    let clear = texel(color(0), 0);
    decodes(
        0x28000000,
        Some(0),
        &pal,
        &[clear, shown[1], shown[2], shown[3]],
    );
    decodes(
        0x0c000000,
        Some(0),
        &pal,
        &[texel(color(4), 31), texel(color(14), 31)],
    );
    decodes(0x10000000, Some(0), &pal, &[texel(0, 31)]);
    decodes(0x18000000, Some(0), &pal, &[texel(color(4), 28)]);
}

/// The offset has 32 bits, and colours that are not wholly inside the palette block are 0.
#[test]
fn palette_ends() {
    let pal = colors();
    decodes(0x18000000, Some(70), &pal, &[texel(color(39), 28)]);
    for off in [71, 0x100, 0x10000, u32::MAX] {
        decodes(0x18000000, Some(off), &pal, &[texel(0, 28)]);
    }
    decodes(0x18000000, Some(0), &pal[..10], &[texel(color(4), 28)]);
    decodes(0x18000000, Some(0), &pal[..9], &[texel(0, 28)]);
    decodes(0x18000000, Some(0), &[], &[texel(0, 28)]);
}

#[test]
fn second_data() {
    let (data1, data2) = compressed();
    let (params, pal) = (TextureParams(WORDS[1]), colors());
    let want = block_picture(1, 20);
    writes(&want, |out| {
        decode_texture(params, &data1, &data2, Some(40), &pal, out)
    });
    let (long1, long2) = (
        [&data1[..], &[9; 5]].concat(),
        [&data2[..], &[9; 3]].concat(),
    );
    writes(&want, |out| {
        decode_texture(params, &long1, &long2, Some(40), &pal, out)
    });
}

/// The word with all bits set: format 7, 1024 by 1024, which needs no palette.
#[test]
fn largest_picture() {
    let params = TextureParams(u32::MAX);
    let data = direct(1024 * 1024);
    let want: Vec<u8> = (0..1024 * 1024u32)
        .flat_map(|k| texel((k & 0x7fff) as u16, (k % 2) as u16 * 31))
        .collect();
    writes(&want, |out| {
        decode_texture(params, &data, &[], None, &[], out)
    });
    refuses(Error::ShortData, want.len(), |out| {
        decode_texture(params, &data[1..], &data, Some(0), &[], out)
    });
}

/// A direct decoding is refused, whether or not there is room for the picture.
fn declined(word: u32, data1: &[u8], data2: &[u8], palette: Option<u32>, error: Error) {
    let pal = colors();
    for len in [512, 0] {
        refuses(error, len, |out| {
            decode_texture(TextureParams(word), data1, data2, palette, &pal, out)
        });
    }
}

#[test]
fn declined_decodings() {
    for format in 1..7 {
        declined(format << 26, &[0; 64], &[0; 64], None, Error::NoPalette);
        declined(format << 26, &[], &[], None, Error::NoPalette);
        declined(format << 26, &[], &[0; 64], Some(0), Error::ShortData);
    }
    declined(0xe3ffffff, &[0; 64], &[0; 64], Some(0), Error::NoTexels);
    declined(0, &[], &[], None, Error::NoTexels);
    declined(0x04000000, &[0; 63], &[0; 64], Some(0), Error::ShortData);
    declined(WORDS[1], &[0; 15], &[0; 8], Some(0), Error::ShortData);
    declined(WORDS[1], &[0; 16], &[0; 7], Some(0), Error::ShortData);
    declined(WORDS[4], &[0; 255], &[0; 256], None, Error::ShortData);
}

/// The input has the listing.
fn listed(input: &[u8], want: &str) {
    writes(want.as_bytes(), |out| list(input, out));
    for len in [MAX_LISTING, MAX_LISTING - 1] {
        let want = (Ok(want.len()), filled(len, want.as_bytes()));
        assert_eq!(lent(len, |out| list(input, out)), want);
    }
    #[cfg(feature = "std")]
    assert_eq!(listing(input), want);
}

const LISTED: &str = "textures 1\n0 leaf 3 8 8 repeat clamp transparent\npalettes 1\n0 leaf 0\n";

#[test]
fn listings() {
    listed(&SAMPLE, LISTED);
    listed(&[], "refused 1 60\n");
    listed(&SAMPLE[..207], "refused 1 208\n");
    listed(&far_palette_block(), "refused 1 4295491575\n");
    listed(&sample_with(120, &[5]), "refused 6 0\n");
    listed(&[0; 65536], "refused 2 0\n");
    listed(&[0; 65537], "refused 13 0\n");
}

/// A length of which only the low 32 bits are 3, which is too short for every call.
const LONG_LEN: usize = (1 << 32) + 3;

/// Zeros behind a copy of some bytes. Only those that are touched take memory.
fn long(start: &[u8]) -> Vec<u8> {
    let mut bytes = vec![0; LONG_LEN];
    bytes[..start.len()].copy_from_slice(start);
    bytes
}

#[test]
fn long_inputs() {
    let block = long(&block());
    let counts = Counts {
        textures: TEXTURES,
        palettes: PALETTES,
    };
    assert_eq!(read_tex(&block), Ok(counts));
    assert_eq!(
        fetch_tex(&block),
        Fetched {
            answer: Ok(counts),
            short_answers: 12
        }
    );
    assert_eq!(
        texture(&block, 0).map(|t| t.params),
        Ok(TextureParams(WORDS[0]))
    );
    assert_eq!(palette(&block, 1).map(|p| p.off), Ok(40));
    part(&block, texture_data1(&block, 4), 432, 256);
    part(&block, texture_data2(&block, 1), 352, 8);
    part(&block, pal_block(&block), 64, 80);
    assert_eq!(all_textures(&block, TEXTURES).len(), TEXTURES);
    assert_eq!(all_palettes(&block, PALETTES).len(), PALETTES);
    let want = block_picture(1, 20);
    writes(&want, |out| picture(&block, 1, Some(1), out));
    writes(&want, |out| fetch_picture(&block, 1, Some(1), out).answer);
    writes(b"refused 13 0\n", |out| list(&block, out));
}

#[test]
fn long_parts() {
    let (data1, data2) = compressed();
    let (params, pal) = (TextureParams(WORDS[1]), colors());
    let want = block_picture(1, 20);
    let (long1, long2, long_pal) = (long(&data1), long(&data2), long(&pal));
    writes(&want, |out| {
        decode_texture(params, &long1, &data2, Some(40), &pal, out)
    });
    writes(&want, |out| {
        decode_texture(params, &data1, &long2, Some(40), &pal, out)
    });
    writes(&want, |out| {
        decode_texture(params, &data1, &data2, Some(40), &long_pal, out)
    });
}

#[test]
fn long_outputs() {
    let block = block();
    let mut out = long(&[]);
    let mut wrote = |want: &[u8], call: &dyn Fn(&mut [u8]) -> Result<usize, Error>| {
        assert_eq!(call(&mut out), Ok(want.len()));
        assert_eq!(
            (&out[..want.len()], &out[want.len()..][..16]),
            (want, &[0; 16][..])
        );
        out[..want.len()].fill(0);
    };
    let (data1, data2) = compressed();
    let (params, pal, want) = (TextureParams(WORDS[1]), colors(), block_picture(1, 20));
    wrote(b"ABCDEFGHIJKLMNOP", &|out| {
        Name(texture_name(0)).print_safe(out)
    });
    wrote(b"ABCDEFGHIJKLMNOP", &|out| {
        Name(texture_name(0)).display(out)
    });
    wrote(&want, &|out| {
        decode_texture(params, &data1, &data2, Some(40), &pal, out)
    });
    wrote(&want, &|out| picture(&block, 1, Some(1), out));
    wrote(&want, &|out| fetch_picture(&block, 1, Some(1), out).answer);
    wrote(LISTED.as_bytes(), &|out| list(&SAMPLE, out));
}
