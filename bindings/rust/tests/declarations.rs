//! Holds the declarations of `src/ffi.rs` to the archive, since nothing else does: each function is called with arguments of its types, whose
//! values differ from parameter to parameter. Each number that it writes has all bits set before, and another of its type behind it: where
//! the archive writes fewer bits, some of the first are left, and where it writes more, the second changes.

mod blocks;
#[path = "../src/ffi.rs"]
mod ffi;

use blocks::{
    block, block_picture, colors, compressed, far_palette_block, palette_name, texture_name,
    with_entries, SAMPLE, WORDS,
};
use ffi::*;
// The archive is linked with the crate.
use rasclanya as _;

type Size = [usize; 2];
type Word = [u32; 2];

const SIZE: Size = [usize::MAX; 2];
const WORD: Word = [u32::MAX; 2];

/// What a number that was written is, with what stands behind it.
fn size(value: usize) -> Size {
    [value, usize::MAX]
}

fn word(value: u32) -> Word {
    [value, u32::MAX]
}

/// The answers of all readers of the texture word.
type Facts = (
    u32,
    [bool; 4],
    u32,
    u32,
    u8,
    bool,
    u8,
    [u32; 3],
    usize,
    usize,
);

fn facts(word: u32) -> Facts {
    unsafe {
        let bits = [
            rasclanya_repeat_s(word),
            rasclanya_repeat_t(word),
            rasclanya_mirror_s(word),
            rasclanya_mirror_t(word),
        ];
        let kinds = [
            rasclanya_wrap_s(word),
            rasclanya_wrap_t(word),
            rasclanya_alpha_type(word),
        ];
        (
            rasclanya_offset(word),
            bits,
            rasclanya_width(word),
            rasclanya_height(word),
            rasclanya_format(word),
            rasclanya_is_color0_transparent(word),
            rasclanya_texcoord_transform_mode(word),
            kinds,
            rasclanya_byte_len(word),
            rasclanya_byte_len2(word),
        )
    }
}

#[test]
fn version() {
    assert_eq!(unsafe { rasclanya_version() }, 200u32);
}

#[test]
fn word_readers() {
    let (t, f) = (true, false);
    assert_eq!(facts(0), (0, [f; 4], 8, 8, 0, f, 0, [0, 0, 0], 0, 0));
    assert_eq!(
        facts(u32::MAX),
        (524280, [t; 4], 1024, 1024, 7, t, 3, [2, 2, 1], 2097152, 0)
    );
    assert_eq!(
        facts(0x2c010000),
        (0, [t, f, f, f], 8, 8, 3, t, 0, [1, 0, 1], 32, 0)
    );
    assert_eq!(
        facts(0x0c021234),
        (37280, [f, t, f, f], 8, 8, 3, f, 0, [0, 1, 0], 32, 0)
    );
    assert_eq!(
        facts(0x55140001),
        (8, [f, f, t, f], 16, 32, 5, f, 1, [2, 0, 1], 128, 64)
    );
    assert_eq!(
        facts(0x96a80002),
        (16, [f, f, f, t], 32, 256, 5, f, 2, [0, 2, 1], 2048, 1024)
    );
    assert_eq!(
        facts(0x04430100),
        (2048, [t, t, f, f], 128, 8, 1, f, 0, [1, 1, 2], 1024, 0)
    );
}

#[test]
fn read_tex() {
    let block = block();
    let (mut textures, mut palettes, mut needed) = (SIZE, SIZE, SIZE);
    let number = unsafe {
        rasclanya_read_tex(
            block.as_ptr(),
            block.len(),
            &mut textures[0],
            &mut palettes[0],
            &mut needed[0],
        )
    };
    assert_eq!(
        (number, textures, palettes, needed),
        (0, size(5), size(2), size(0))
    );
}

#[test]
fn texture() {
    let block = block();
    for (n, kinds) in [[1, 2, 0], [2, 0, 1], [0, 1, 2]].into_iter().enumerate() {
        let mut name = [0xa5; 24];
        let (mut params, mut wrap_s, mut wrap_t, mut alpha) = (WORD, WORD, WORD, WORD);
        let mut needed = SIZE;
        let number = unsafe {
            rasclanya_texture(
                block.as_ptr(),
                block.len(),
                n,
                name.as_mut_ptr(),
                20usize,
                &mut params[0],
                &mut wrap_s[0],
                &mut wrap_t[0],
                &mut alpha[0],
                &mut needed[0],
            )
        };
        assert_eq!((number, params, needed), (0, word(WORDS[n]), size(0)));
        assert_eq!([wrap_s, wrap_t, alpha], kinds.map(word));
        assert_eq!(
            (&name[..16], &name[16..]),
            (&texture_name(n)[..], &[0xa5; 8][..])
        );
    }
}

#[test]
fn palette() {
    let block = block();
    let mut name = [0xa5; 24];
    let (mut off, mut needed) = (WORD, SIZE);
    let number = unsafe {
        rasclanya_palette(
            block.as_ptr(),
            block.len(),
            1usize,
            name.as_mut_ptr(),
            20usize,
            &mut off[0],
            &mut needed[0],
        )
    };
    assert_eq!((number, off, needed), (0, word(40), size(0)));
    assert_eq!(
        (&name[..16], &name[16..]),
        (&palette_name(1)[..], &[0xa5; 8][..])
    );
}

#[test]
fn parts() {
    let block = block();
    let (mut pos, mut len, mut needed) = (SIZE, SIZE, SIZE);
    let number = unsafe {
        rasclanya_texture_data1(
            block.as_ptr(),
            block.len(),
            4usize,
            &mut pos[0],
            &mut len[0],
            &mut needed[0],
        )
    };
    assert_eq!(
        (number, pos, len, needed),
        (0, size(432), size(256), size(0))
    );
    (pos, len, needed) = (SIZE, SIZE, SIZE);
    let number = unsafe {
        rasclanya_texture_data2(
            block.as_ptr(),
            block.len(),
            1usize,
            &mut pos[0],
            &mut len[0],
            &mut needed[0],
        )
    };
    assert_eq!((number, pos, len, needed), (0, size(352), size(8), size(0)));
    (pos, len, needed) = (SIZE, SIZE, SIZE);
    let number = unsafe {
        rasclanya_pal_block(
            block.as_ptr(),
            block.len(),
            &mut pos[0],
            &mut len[0],
            &mut needed[0],
        )
    };
    assert_eq!((number, pos, len, needed), (0, size(64), size(80), size(0)));
}

/// A row's numbers are written whole, and nothing behind the rows is.
#[test]
fn rows() {
    let block = block();
    let mut out = [usize::MAX; 40];
    let (mut len, mut needed) = (SIZE, SIZE);
    let number = unsafe {
        rasclanya_textures(
            block.as_ptr(),
            block.len(),
            out.as_mut_ptr(),
            31usize,
            &mut len[0],
            &mut needed[0],
        )
    };
    assert_eq!((number, len, needed), (0, size(30), size(0)));
    let word = |n: usize| WORDS[n] as usize;
    assert_eq!(
        out[6..24],
        [
            236,
            word(1),
            336,
            16,
            352,
            8,
            252,
            word(2),
            360,
            64,
            0,
            0,
            268,
            word(3),
            0,
            0,
            0,
            0
        ]
    );
    assert_eq!(out[30..], [usize::MAX; 10]);
    let mut out = [usize::MAX; 8];
    (len, needed) = (SIZE, SIZE);
    let number = unsafe {
        rasclanya_palettes(
            block.as_ptr(),
            block.len(),
            out.as_mut_ptr(),
            5usize,
            &mut len[0],
            &mut needed[0],
        )
    };
    assert_eq!((number, len, needed), (0, size(4), size(0)));
    assert_eq!(out[..4], [720, 8, 736, 40]);
    assert_eq!(out[4..], [usize::MAX; 4]);
}

/// The most rows, in an output of their length.
#[test]
fn most_rows() {
    let block = with_entries(255);
    let mut out = [usize::MAX; 6 * 255 + 1];
    let (mut len, mut needed) = (SIZE, SIZE);
    let number = unsafe {
        rasclanya_textures(
            block.as_ptr(),
            block.len(),
            out.as_mut_ptr(),
            6 * 255usize,
            &mut len[0],
            &mut needed[0],
        )
    };
    assert_eq!((number, len, needed), (0, size(1530), size(0)));
    assert_eq!(out[1524..], [7200, 0x0c0003f8, 21480, 32, 0, 0, usize::MAX]);
}

#[test]
fn names() {
    let name = *b"caf\xe9 \x1f9\0\0\0\0\0\0\0\0\0z";
    let mut out = [0xa5; 24];
    let mut len = SIZE;
    let number = unsafe {
        rasclanya_print_safe(
            name.as_ptr(),
            name.len(),
            out.as_mut_ptr(),
            20usize,
            &mut len[0],
        )
    };
    assert_eq!(
        (number, len, &out[..9]),
        (0, size(7), &b"caf___9\xa5\xa5"[..])
    );
    len = SIZE;
    let number = unsafe {
        rasclanya_display(
            name.as_ptr(),
            name.len(),
            out.as_mut_ptr(),
            20usize,
            &mut len[0],
        )
    };
    assert_eq!(
        (number, len, &out[..10]),
        (0, size(8), &b"caf\xc3\xa9 .9\xa5\xa5"[..])
    );
    len = SIZE;
    let number =
        unsafe { rasclanya_display(name.as_ptr(), 3usize, out.as_mut_ptr(), 2usize, &mut len[0]) };
    assert_eq!((number, len, &out[..4]), (11, SIZE, &b"caf\xc3"[..]));
}

/// What `has_palette` is where there is one, at every width.
const CHOSEN: [u32; 5] = [1, 0x100, 0x1_0000, 0x8000_0000, u32::MAX];

#[test]
fn decode_texture() {
    let (data1, data2) = compressed();
    let pal = colors();
    for has_palette in CHOSEN {
        let mut out = [0xa5; 272];
        let mut len = SIZE;
        let number = unsafe {
            rasclanya_decode_texture(
                WORDS[1],
                data1.as_ptr(),
                data1.len(),
                data2.as_ptr(),
                data2.len(),
                has_palette,
                40u32,
                pal.as_ptr(),
                pal.len(),
                out.as_mut_ptr(),
                260usize,
                &mut len[0],
            )
        };
        assert_eq!((number, len), (0, size(256)));
        assert_eq!(
            (&out[..256], &out[256..]),
            (&block_picture(1, 20)[..], &[0xa5; 16][..])
        );
    }
}

#[test]
fn picture() {
    let block = block();
    for has_palette in CHOSEN {
        let mut out = [0xa5; 272];
        let (mut len, mut needed) = (SIZE, SIZE);
        let number = unsafe {
            rasclanya_picture(
                block.as_ptr(),
                block.len(),
                2usize,
                has_palette,
                1usize,
                out.as_mut_ptr(),
                260usize,
                &mut len[0],
                &mut needed[0],
            )
        };
        assert_eq!((number, len, needed), (0, size(256), size(0)));
        assert_eq!(
            (&out[..256], &out[256..]),
            (&block_picture(2, 20)[..], &[0xa5; 16][..])
        );
    }
}

#[test]
fn fetch_tex() {
    let block = block();
    let (mut textures, mut palettes, mut short_answers, mut needed) = (SIZE, SIZE, SIZE, SIZE);
    let number = unsafe {
        rasclanya_fetch_tex(
            block.as_ptr(),
            block.len(),
            &mut textures[0],
            &mut palettes[0],
            &mut short_answers[0],
            &mut needed[0],
        )
    };
    assert_eq!((number, textures, palettes), (0, size(5), size(2)));
    assert_eq!((short_answers, needed), (size(12), size(0)));
}

#[test]
fn fetch_picture() {
    let block = block();
    for has_palette in CHOSEN {
        let mut out = [0xa5; 272];
        let (mut len, mut short_answers, mut needed) = (SIZE, SIZE, SIZE);
        let number = unsafe {
            rasclanya_fetch_picture(
                block.as_ptr(),
                block.len(),
                2usize,
                has_palette,
                1usize,
                out.as_mut_ptr(),
                260usize,
                &mut len[0],
                &mut short_answers[0],
                &mut needed[0],
            )
        };
        assert_eq!((number, len), (0, size(256)));
        assert_eq!((short_answers, needed), (size(12), size(0)));
        assert_eq!(
            (&out[..256], &out[256..]),
            (&block_picture(2, 20)[..], &[0xa5; 16][..])
        );
    }
}

#[test]
fn list() {
    let mut out = [0xa5; 80];
    let mut len = SIZE;
    let number = unsafe {
        rasclanya_list(
            SAMPLE.as_ptr(),
            59usize,
            out.as_mut_ptr(),
            16usize,
            &mut len[0],
        )
    };
    assert_eq!((number, len), (0, size(13)));
    assert_eq!(
        (&out[..13], &out[13..]),
        (&b"refused 1 60\n"[..], &[0xa5; 67][..])
    );
}

/// A refused call keeps what it is lent, but for the needed length, which may have more than 32 bits.
#[test]
fn refused() {
    let block = far_palette_block();
    let (mut textures, mut palettes, mut needed) = (SIZE, SIZE, SIZE);
    let number = unsafe {
        rasclanya_read_tex(
            block.as_ptr(),
            block.len(),
            &mut textures[0],
            &mut palettes[0],
            &mut needed[0],
        )
    };
    assert_eq!(
        (number, textures, palettes, needed),
        (1, SIZE, SIZE, size(4295491575))
    );
}
