//! The stored list for `crates/replay`: small cases with apicula's answers. The port is not asked.
//!
//! All numbers are little-endian. A case is `B` with a block and its answer, or `D` with a direct decoding and its answer. An answer begins
//! with its class: 0, or 1 short, 2 stamp, 3 dummy, 4 datum size, 9 palette needed, 10 format 0.

use crate::apicula::{self, Class};
use crate::input::Direct;
use crate::make::{self, Limits, Plan, Shape, DAMAGES};
use crate::nitro::{Name, Palette, Texture};
use crate::random::Random;

/// The list is made from this seed alone.
const SEED: u64 = 0x7265_706C_6179;

/// How many cases of each kind there are.
const CASES: u64 = 150;

/// Limits of a recorded case.
const MOST_BLOCK: usize = 4096;
const MOST_ANSWER: usize = 16_384;
const MOST_PART: usize = 4096;

/// The whole list, blocks and direct decodings by turns.
pub fn list() -> Vec<u8> {
    let mut list = Vec::new();
    for case in 0..CASES {
        put_block_case(&mut list, &recorded_block(case));
        put_direct_case(&mut list, &recorded_direct(case));
    }
    list
}

/// Blocks by turns whole, cut and damaged, and now and then bytes that are no block.
fn recorded_block(case: u64) -> Vec<u8> {
    let mut random = Random::for_case(SEED, case);
    let limits = Limits { textures: 3, palettes: 3, texels: 64, units: 8, pal_units: 12 };
    let turn = case as usize / 5;
    let whole = match turn % 3 {
        0 => Plan::any(&mut random, &limits),
        _ => of_format(&mut random, turn % 8, &limits),
    }
    .lay_out(&mut random);
    match case % 5 {
        0 | 1 => whole,
        2 => whole[..random.below(whole.len())].to_vec(),
        3 => make::damaged(&mut random, &whole, turn % DAMAGES),
        _ if turn.is_multiple_of(4) => make::noise(&mut random),
        _ => make::damaged(&mut random, &whole, (turn + 6) % DAMAGES),
    }
}

/// A plan with a texture of this format, of 8 by 8 or 16 by 8 texels.
fn of_format(random: &mut Random, format: usize, limits: &Limits) -> Plan {
    let shape = Shape { format, width: random.below(2), height: 0, color0: random.below(2) };
    let mut plan = Plan::any(random, &Limits { textures: 1, ..*limits });
    plan.textures.push(make::texture(random, shape, 4));
    plan
}

/// Each format by turns, with bit 29 off and on, of 8 by 8 texels or a little more.
fn recorded_direct(case: u64) -> Direct {
    let mut random = Random::for_case(SEED, CASES + case);
    let (width, height) = random.pick(&[(0, 0), (0, 0), (0, 0), (1, 0), (0, 1), (1, 1)]);
    let (format, color0) = (case as usize % 8, case as usize / 8 % 2);
    make::direct(&mut random, Shape { format, width, height, color0 }, 600)
}

fn put_block_case(list: &mut Vec<u8>, block: &[u8]) {
    assert!(block.len() <= MOST_BLOCK);
    list.push(b'B');
    put_part(list, block);
    put_answer(list, block_answer(block));
}

fn put_direct_case(list: &mut Vec<u8>, direct: &Direct) {
    let parts = [&direct.data1, &direct.data2, &direct.pal];
    list.push(b'D');
    list.extend(direct.word.to_le_bytes());
    list.push(direct.palette.is_some() as u8);
    list.extend(direct.palette.unwrap_or(0).to_le_bytes());
    parts.iter().for_each(|part| put_len(list, part.len()));
    for part in parts {
        assert!(part.len() <= MOST_PART);
        list.extend(part);
    }
    let texture = apicula::loose_texture(direct.word, &direct.data1, &direct.data2);
    let palette = direct.palette.map(|off| apicula::loose_palette(off, &direct.pal));
    let mut answer = Vec::new();
    put_picture(&mut answer, &texture, palette.as_ref());
    put_answer(list, answer);
}

fn put_answer(list: &mut Vec<u8>, answer: Vec<u8>) {
    assert!(answer.len() <= MOST_ANSWER);
    put_part(list, &answer);
}

fn put_len(list: &mut Vec<u8>, len: usize) {
    list.extend((len as u32).to_le_bytes());
}

fn put_part(list: &mut Vec<u8>, part: &[u8]) {
    put_len(list, part.len());
    list.extend(part);
}

fn put_text(list: &mut Vec<u8>, text: &str) {
    list.push(text.len() as u8);
    list.extend(text.as_bytes());
}

fn class_byte(class: Class) -> u8 {
    match class {
        Class::Short => 1,
        Class::Stamp => 2,
        Class::Dummy => 3,
        Class::DatumSize => 4,
        Class::PaletteNeeded => 9,
        Class::Format0 => 10,
        Class::Ours(_) => unreachable!("apicula has no such error"),
    }
}

fn block_answer(block: &[u8]) -> Vec<u8> {
    match apicula::read_tex(block) {
        Err(class) => vec![class_byte(class)],
        Ok((textures, palettes)) => read_answer(&textures, &palettes),
    }
}

fn read_answer(textures: &[Texture], palettes: &[Palette]) -> Vec<u8> {
    let mut answer = vec![0, textures.len() as u8, palettes.len() as u8];
    textures.iter().for_each(|texture| put_texture(&mut answer, texture));
    palettes.iter().for_each(|palette| put_palette(&mut answer, palette));
    if let Some(palette) = palettes.first() {
        put_part(&mut answer, &palette.pal_block);
    }
    for (t, texture) in textures.iter().enumerate() {
        put_picture(&mut answer, texture, None);
        if !palettes.is_empty() {
            put_picture(&mut answer, texture, Some(&palettes[t % palettes.len()]));
        }
    }
    answer
}

fn put_texture(answer: &mut Vec<u8>, texture: &Texture) {
    answer.extend(texture.name.0);
    answer.extend(texture.params.0.to_le_bytes());
    put_texts(answer, &texture.name);
    put_part(answer, &texture.data1);
    put_part(answer, &texture.data2);
}

fn put_palette(answer: &mut Vec<u8>, palette: &Palette) {
    answer.extend(palette.name.0);
    answer.extend(palette.off.to_le_bytes());
    put_texts(answer, &palette.name);
}

/// A name's safe text and its `Display` text.
fn put_texts(answer: &mut Vec<u8>, name: &Name) {
    put_text(answer, &name.print_safe().to_string());
    put_text(answer, &name.to_string());
}

fn put_picture(answer: &mut Vec<u8>, texture: &Texture, palette: Option<&Palette>) {
    match apicula::decode(texture, palette) {
        Err(class) => answer.push(class_byte(class)),
        Ok(pixels) => {
            answer.push(0);
            answer.extend(pixels);
        }
    }
}
