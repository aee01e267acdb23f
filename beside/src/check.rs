//! Comparing the port's answers with apicula's, for one input.
//!
//! One comparison is one answer of the port held against apicula's: a reading, a name, a text of a name, a reader of a word, a data part, a
//! palette block, the pixels of a picture however many they are, a refusal. What apicula has no counterpart of is held against document 01's
//! rules and counted apart: refusals 7, 8, 11 and 12, outputs that are kept, wrap words, wants and counts of short answers.

use crate::apicula::{self, Class};
use crate::input::{Direct, Input};
use crate::make::Shape;
use crate::nds;
use crate::nitro::{Name, Palette, Texture};
use crate::rules;
use crate::tally::Tally;
use rasclanya::{Alpha, Error, TextureParams, Wrap};
use std::fmt::{Debug, Display};
use std::panic::{catch_unwind, AssertUnwindSafe};

/// An answer of the port that is not what it has to be.
pub struct Difference {
    /// What was compared.
    pub kind: &'static str,
    /// Which of them.
    pub at: String,
    /// Whose answer is the right one: apicula's or document 01's.
    pub by: &'static str,
    pub expected: String,
    pub port: String,
}

/// How much of an answer is told.
const MOST_TOLD: usize = 400;

impl Difference {
    fn new(kind: &'static str, by: &'static str, expected: impl Debug, port: impl Debug) -> Difference {
        let told = |answer: String| answer.chars().take(MOST_TOLD).collect();
        Difference { kind, at: String::new(), by, expected: told(format!("{expected:?}")), port: told(format!("{port:?}")) }
    }

    /// The same, said to be inside of something.
    fn at(mut self, place: impl Display) -> Difference {
        self.at = format!("{place} {}", self.at);
        self
    }
}

const APICULA: &str = "apicula";
const DOCUMENT: &str = "document 01";

type Checked = Result<(), Difference>;

/// apicula's answer to a reading.
type Reading = Result<(Vec<Texture>, Vec<Palette>), Class>;

/// More bytes than the largest picture has and is given behind it.
const MOST_OUTPUT: usize = 4 * 1024 * 1024 + 64;

/// Compares, and counts what it compares.
pub struct Checker {
    pub tally: Tally,
    /// What an output is filled with before it is lent.
    pattern: Vec<u8>,
    out: Vec<u8>,
}

impl Default for Checker {
    fn default() -> Checker {
        let pattern: Vec<u8> = (0..MOST_OUTPUT).map(|i| (i * 31 + i / 251 + 7) as u8).collect();
        Checker { tally: Tally::default(), out: pattern.clone(), pattern }
    }
}

impl Checker {
    /// Compares all answers for an input. A panic of either side is a difference too.
    pub fn check(&mut self, input: &Input) -> Checked {
        let checked = catch_unwind(AssertUnwindSafe(|| match input {
            Input::Block(block) => self.block(block),
            Input::Direct(direct) => self.direct(direct),
        }));
        checked.unwrap_or_else(|_| Err(Difference::new("panics", DOCUMENT, "no panic", "a panic of the port or of apicula")))
    }

    /// One comparison.
    fn same<T: PartialEq + Debug>(&mut self, kind: &'static str, apicula: T, port: T) -> Checked {
        self.tally.compared(kind);
        if apicula == port {
            return Ok(());
        }
        Err(Difference::new(kind, APICULA, apicula, port))
    }

    /// An answer that apicula has no counterpart of.
    fn rule<T: PartialEq + Debug>(&mut self, kind: &'static str, rule: T, port: T) -> Checked {
        self.tally.ruled(kind);
        if rule == port {
            return Ok(());
        }
        Err(Difference::new(kind, DOCUMENT, rule, port))
    }

    fn block(&mut self, block: &[u8]) -> Checked {
        let apicula = apicula::read_tex(block);
        let port = rasclanya::read_tex(block);
        let wants = rules::wants(block);
        let short_answers = wants.len();
        self.same("readings", apicula_counts(&apicula), port_counts(&port))?;
        self.early_runs(block, &wants, &apicula)?;
        match apicula {
            Ok((textures, palettes)) => self.read(block, &textures, &palettes, short_answers)?,
            Err(class) => self.refused(block, class)?,
        }
        self.fetched_reading(block, &port, short_answers)
    }

    /// A block that is refused: every call gives the refusal of the reading.
    fn refused(&mut self, block: &[u8], class: Class) -> Checked {
        self.tally.refused(class);
        let refusal = Some(rules::refusal(block, class));
        self.rule("numbers and wants of refusals", refusal, rasclanya::read_tex(block).err().as_ref().map(numbers))?;
        let answers = [
            ("texture", rasclanya::texture(block, 0).err()),
            ("palette", rasclanya::palette(block, 0).err()),
            ("texture_data1", rasclanya::texture_data1(block, 0).err()),
            ("texture_data2", rasclanya::texture_data2(block, 0).err()),
            ("pal_block", rasclanya::pal_block(block).err()),
            ("textures", rasclanya::textures(block).err()),
            ("palettes", rasclanya::palettes(block).err()),
            ("picture", self.untouched(64, |out| rasclanya::picture(block, 0, Some(0), out))?),
        ];
        for (call, answer) in answers {
            self.same("refusals of blocks", Some(class), answer.as_ref().map(port_class)).map_err(|d| d.at(call))?;
            self.rule("numbers and wants of refusals", refusal, answer.as_ref().map(numbers)).map_err(|d| d.at(call))?;
        }
        Ok(())
    }

    /// The refusal of a call that is lent an output of this length, which has to keep its bytes.
    fn untouched(&mut self, len: usize, call: impl FnOnce(&mut [u8]) -> Result<usize, Error>) -> Result<Option<Error>, Difference> {
        let out = &mut self.out[..len];
        out.copy_from_slice(&self.pattern[..len]);
        let answer = call(out);
        let kept = answer.is_ok() || out == &self.pattern[..len];
        self.rule("outputs kept by refused calls", true, kept)?;
        Ok(answer.err())
    }

    /// A block that is read.
    fn read(&mut self, block: &[u8], textures: &[Texture], palettes: &[Palette], short_answers: usize) -> Checked {
        self.tally.read(textures.len(), palettes.len());
        self.all_textures(block, textures)?;
        self.all_palettes(block, palettes)?;
        for (t, texture) in textures.iter().enumerate() {
            self.texture(block, t, texture).map_err(|d| d.at(format!("texture {t}")))?;
        }
        for (p, palette) in palettes.iter().enumerate() {
            self.palette(block, p, palette).map_err(|d| d.at(format!("palette {p}")))?;
        }
        for (t, texture) in textures.iter().enumerate() {
            self.pictures(block, t, texture, palettes, short_answers).map_err(|d| d.at(format!("texture {t}")))?;
        }
        self.past_the_end(block, textures.len(), palettes.len())
    }

    /// The names, words and data of all textures, as one call gives them.
    fn all_textures(&mut self, block: &[u8], textures: &[Texture]) -> Checked {
        let port = rasclanya::textures(block).map_err(|e| Difference::new("all textures", APICULA, "textures", numbers(&e)))?;
        self.same("all textures", textures.len(), port.len())?;
        for (t, (texture, port)) in textures.iter().zip(&port).enumerate() {
            let apicula = (texture.name.0, texture.params.0, &texture.data1[..], &texture.data2[..]);
            self.same("all textures", apicula, (port.name.0, port.params.0, port.data1, port.data2)).map_err(|d| d.at(format!("texture {t}")))?;
        }
        Ok(())
    }

    /// The names and offsets of all palettes, as one call gives them.
    fn all_palettes(&mut self, block: &[u8], palettes: &[Palette]) -> Checked {
        let port = rasclanya::palettes(block).map_err(|e| Difference::new("all palettes", APICULA, "palettes", numbers(&e)))?;
        let apicula: Vec<_> = palettes.iter().map(|palette| (palette.name.0, palette.off)).collect();
        self.same("all palettes", apicula, port.iter().map(|palette| (palette.name.0, palette.off)).collect())
    }

    /// The record and the data of a texture.
    fn texture(&mut self, block: &[u8], t: usize, texture: &Texture) -> Checked {
        let record = rasclanya::texture(block, t).map_err(|e| Difference::new("texture records", APICULA, "a record", numbers(&e)))?;
        self.same("names", texture.name.0, record.name.0)?;
        self.texts(&texture.name)?;
        self.same("words", texture.params.0, record.params.0)?;
        self.word(texture.params.0)?;
        let (wrap_s, wrap_t) = wraps(texture.params);
        self.rule("wrap words", (wrap_s, wrap_t), (wrap_number(&record.wrap_s), wrap_number(&record.wrap_t)))?;
        let alpha = texture.params.format().alpha_type(texture.params);
        self.same("alpha kinds of records", apicula_alpha(&alpha), port_alpha(&record.alpha))?;
        self.same("data", Some(&texture.data1[..]), rasclanya::texture_data1(block, t).ok())?;
        self.same("second data", Some(&texture.data2[..]), rasclanya::texture_data2(block, t).ok())
    }

    /// The record of a palette, and its palette block.
    fn palette(&mut self, block: &[u8], p: usize, palette: &Palette) -> Checked {
        let record = rasclanya::palette(block, p).map_err(|e| Difference::new("palette records", APICULA, "a record", numbers(&e)))?;
        self.same("names", palette.name.0, record.name.0)?;
        self.texts(&palette.name)?;
        self.same("palette offsets", palette.off, record.off)?;
        self.same("palette blocks", Some(&palette.pal_block[..]), rasclanya::pal_block(block).ok())
    }

    /// The two texts of a name.
    fn texts(&mut self, name: &Name) -> Checked {
        let port = rasclanya::Name(name.0);
        let (safe, display) = (name.print_safe().to_string(), name.to_string());
        self.same("safe texts", &safe, &port.safe())?;
        self.same("Display texts", &display, &port.to_string())?;
        self.text_output(&safe, |out| port.print_safe(out)).map_err(|d| d.at("print_safe"))?;
        self.text_output(&display, |out| port.display(out)).map_err(|d| d.at("display"))
    }

    /// A text in a lent output: the bytes behind it are kept, and an output that is a byte too short is refused.
    fn text_output(&mut self, text: &str, call: impl Fn(&mut [u8]) -> Result<usize, Error>) -> Checked {
        let mut expected = self.pattern[..text.len() + 3].to_vec();
        let mut out = expected.clone();
        expected[..text.len()].copy_from_slice(text.as_bytes());
        let answer = call(&mut out).map_err(|e| numbers(&e));
        self.rule("texts in outputs", (Ok(text.len()), expected), (answer, out))?;
        match text.len() {
            0 => Ok(()),
            len => {
                let refusal = self.untouched(len - 1, call)?;
                self.rule("refusals 11 of texts", Some(11), refusal.map(|e| e.number()))
            }
        }
    }

    /// All readers of a word.
    fn word(&mut self, word: u32) -> Checked {
        let (a, p) = (nds::TextureParams(word), TextureParams(word));
        let (len1, len2) = apicula::data_lens(word);
        let readers: [(&str, u64, u64); 13] = [
            ("offset", a.offset().into(), p.offset().into()),
            ("repeat_s", a.repeat_s().into(), p.repeat_s().into()),
            ("repeat_t", a.repeat_t().into(), p.repeat_t().into()),
            ("mirror_s", a.mirror_s().into(), p.mirror_s().into()),
            ("mirror_t", a.mirror_t().into(), p.mirror_t().into()),
            ("width", a.width().into(), p.width().into()),
            ("height", a.height().into(), p.height().into()),
            ("format", a.format().0.into(), p.format().into()),
            ("is_color0_transparent", a.is_color0_transparent().into(), p.is_color0_transparent().into()),
            ("texcoord_transform_mode", a.texcoord_transform_mode().into(), p.texcoord_transform_mode().into()),
            ("byte_len", len1 as u64, p.byte_len() as u64),
            ("byte_len2", len2 as u64, p.byte_len2() as u64),
            ("alpha_type", apicula_alpha(&a.format().alpha_type(a)).into(), port_alpha(&p.alpha_type()).into()),
        ];
        for (reader, apicula, port) in readers {
            self.same("readers of words", apicula, port).map_err(|d| d.at(format!("{reader} of {word:08x}")))?;
        }
        self.rule("wrap words", wraps(a), (wrap_number(&p.wrap_s()), wrap_number(&p.wrap_t())))
    }

    /// Pictures of a texture with no palette, with each of a few palettes, or with two of many.
    fn pictures(&mut self, block: &[u8], t: usize, texture: &Texture, palettes: &[Palette], short_answers: usize) -> Checked {
        let count = palettes.len();
        let chosen = if count <= 3 { (0..count).collect() } else { vec![t % count, (t * 7 + 3) % count] };
        for choice in std::iter::once(None).chain(chosen.into_iter().map(Some)) {
            let place = |d: Difference| d.at(format!("with palette {choice:?}"));
            let apicula = apicula::decode(texture, choice.map(|p| &palettes[p]));
            self.picture("pictures from blocks", texture.params.0, &apicula, |out| rasclanya::picture(block, t, choice, out)).map_err(place)?;
            self.tally.picture(texture.params.0, apicula.is_ok());
            if t < 8 {
                self.fetched_picture(block, t, choice, texture.params.0, &apicula, short_answers).map_err(place)?;
            }
        }
        Ok(())
    }

    /// A picture, or its refusal. The output has some bytes more than the picture, and then one too few.
    fn picture(
        &mut self,
        kind: &'static str,
        word: u32,
        apicula: &Result<Vec<u8>, Class>,
        mut call: impl FnMut(&mut [u8]) -> Result<usize, Error>,
    ) -> Checked {
        match apicula {
            Err(class) => {
                let refusal = self.untouched(4 * Shape::of(word).texels(), call)?;
                self.same("refusals of pictures", Some(*class), refusal.as_ref().map(port_class))
            }
            Ok(pixels) => {
                self.pixels(kind, word, pixels, &mut call)?;
                let refusal = self.untouched(pixels.len() - 1, call)?;
                self.rule("refusals 11 of pictures", Some(11), refusal.map(|e| e.number()))
            }
        }
    }

    fn pixels(&mut self, kind: &'static str, word: u32, pixels: &[u8], call: impl FnOnce(&mut [u8]) -> Result<usize, Error>) -> Checked {
        let len = pixels.len();
        let end = len + 1 + word as usize % 9;
        let out = &mut self.out[..end];
        out.copy_from_slice(&self.pattern[..end]);
        let answer = call(out).map_err(|e| numbers(&e));
        let wrong = (0..len).find(|&i| pixels[i] != out[i]);
        let kept = out[len..] == self.pattern[len..end];
        let seen = wrong.map(|i| out[i]);
        let expected = (Ok(len), wrong.map(|i| pixels[i]));
        self.same(kind, expected, (answer, seen)).map_err(|d| d.at(pixel_place(word, wrong)))?;
        self.rule("outputs kept behind pictures", true, kept)
    }

    /// Numbers that are not below the counts.
    fn past_the_end(&mut self, block: &[u8], textures: usize, palettes: usize) -> Checked {
        let number = |e: Option<Error>| e.map(|e| e.number());
        self.rule("refusals 7", Some(7), number(rasclanya::texture(block, textures).err()))?;
        self.rule("refusals 7", Some(7), number(rasclanya::texture_data1(block, textures).err()))?;
        self.rule("refusals 7", Some(7), number(rasclanya::texture_data2(block, textures).err()))?;
        self.rule("refusals 8", Some(8), number(rasclanya::palette(block, palettes).err()))?;
        let refusal = self.untouched(16, |out| rasclanya::picture(block, textures, Some(palettes), out))?;
        self.rule("refusals 7", Some(7), number(refusal))?;
        if textures > 0 {
            let refusal = self.untouched(16, |out| rasclanya::picture(block, 0, Some(palettes), out))?;
            self.rule("refusals 8", Some(8), number(refusal))?;
        }
        Ok(())
    }

    /// The attempts of a fetching run, and runs that are lent a byte less than a want. The last attempt gives the whole block's answer.
    fn early_runs(&mut self, block: &[u8], wants: &[usize], whole: &Reading) -> Checked {
        let mut lent = 0;
        for &want in wants {
            self.short_run(&block[..lent], want)?;
            if want > block.len() {
                return Ok(());
            }
            self.short_run(&block[..want - 1], want)?;
            lent = want;
        }
        let port = rasclanya::read_tex(&block[..lent]);
        self.same("early runs", apicula_counts(whole), port_counts(&port)).map_err(|d| d.at(format!("first {lent} bytes")))
    }

    /// A run on the first bytes of a block, which both sides find short. The port names the want, and writes no pixel.
    fn short_run(&mut self, lent: &[u8], want: usize) -> Checked {
        let place = |d: Difference| d.at(format!("first {} bytes", lent.len()));
        let port = rasclanya::read_tex(lent);
        self.same("early runs", apicula_counts(&apicula::read_tex(lent)), port_counts(&port)).map_err(place)?;
        self.rule("wants of early runs", Some((1, want)), port.err().as_ref().map(numbers)).map_err(place)?;
        let refusal = self.untouched(256, |out| rasclanya::picture(lent, 0, Some(0), out))?;
        self.rule("wants of early pictures", Some((1, want)), refusal.as_ref().map(numbers)).map_err(place)
    }

    fn fetched_reading(&mut self, block: &[u8], direct: &Result<rasclanya::Counts, Error>, short_answers: usize) -> Checked {
        let fetched = rasclanya::fetch_tex(block);
        let needed = |answer: &Result<rasclanya::Counts, Error>| answer.as_ref().err().map(numbers);
        self.rule("fetched readings", port_counts(direct), port_counts(&fetched.answer))?;
        self.rule("refusals of fetched readings", needed(direct), needed(&fetched.answer))?;
        self.rule("short answers of readings", short_answers, fetched.short_answers)
    }

    fn fetched_picture(
        &mut self,
        block: &[u8],
        t: usize,
        choice: Option<usize>,
        word: u32,
        apicula: &Result<Vec<u8>, Class>,
        short_answers: usize,
    ) -> Checked {
        let mut counted = short_answers;
        self.picture("fetched pictures", word, apicula, |out| {
            let fetched = rasclanya::fetch_picture(block, t, choice, out);
            counted = fetched.short_answers;
            fetched.answer
        })?;
        self.rule("short answers of pictures", short_answers, counted)
    }

    fn direct(&mut self, direct: &Direct) -> Checked {
        self.word(direct.word)?;
        let (len1, len2) = apicula::data_lens(direct.word);
        if direct.data1.len() < len1 || direct.data2.len() < len2 {
            return self.short_data(direct, &direct.data1, &direct.data2);
        }
        let texture = apicula::loose_texture(direct.word, &direct.data1, &direct.data2);
        let palette = direct.palette.map(|off| apicula::loose_palette(off, &direct.pal));
        let apicula = apicula::decode(&texture, palette.as_ref());
        self.picture("direct decodings", direct.word, &apicula, |out| decode(direct, &direct.data1, &direct.data2, out))?;
        self.tally.decoding(direct.word, apicula.is_ok());
        if len1 > 0 {
            self.short_data(direct, &direct.data1[..len1 - 1], &direct.data2)?;
        }
        if len2 > 0 {
            self.short_data(direct, &direct.data1, &direct.data2[..len2 - 1])?;
        }
        Ok(())
    }

    /// Data that are too short, which apicula panics on.
    fn short_data(&mut self, direct: &Direct, data1: &[u8], data2: &[u8]) -> Checked {
        let refusal = self.untouched(16, |out| decode(direct, data1, data2, out))?;
        let rule = match (Shape::of(direct.word).format, direct.palette) {
            (1..=6, None) => 9,
            (0, _) => 10,
            _ => 12,
        };
        self.rule("data too short", Some(rule), refusal.map(|e| e.number()))
    }
}

fn decode(direct: &Direct, data1: &[u8], data2: &[u8], out: &mut [u8]) -> Result<usize, Error> {
    rasclanya::decode_texture(TextureParams(direct.word), data1, data2, direct.palette, &direct.pal, out)
}

fn apicula_counts(reading: &Reading) -> Result<(usize, usize), Class> {
    reading.as_ref().map(|(textures, palettes)| (textures.len(), palettes.len())).map_err(|class| *class)
}

fn port_counts(reading: &Result<rasclanya::Counts, Error>) -> Result<(usize, usize), Class> {
    reading.as_ref().map(|counts| (counts.textures, counts.palettes)).map_err(port_class)
}

fn port_class(refusal: &Error) -> Class {
    match refusal.number() {
        1 => Class::Short,
        2 => Class::Stamp,
        3 | 5 => Class::Dummy,
        4 | 6 => Class::DatumSize,
        9 => Class::PaletteNeeded,
        10 => Class::Format0,
        n => Class::Ours(n),
    }
}

/// A refusal's number and the length that is needed.
fn numbers(refusal: &Error) -> (u32, usize) {
    (refusal.number(), refusal.needed())
}

fn apicula_alpha(alpha: &nds::Alpha) -> u8 {
    match alpha {
        nds::Alpha::Opaque => 0,
        nds::Alpha::Transparent => 1,
        nds::Alpha::Translucent => 2,
    }
}

fn port_alpha(alpha: &Alpha) -> u8 {
    match alpha {
        Alpha::Opaque => 0,
        Alpha::Transparent => 1,
        Alpha::Translucent => 2,
    }
}

/// Both wrap words as document 01 has them, from the bits as apicula reads them.
fn wraps(params: nds::TextureParams) -> (u8, u8) {
    let wrap = |mirror: bool, repeat: bool| if mirror { 2 } else { repeat as u8 };
    (wrap(params.mirror_s(), params.repeat_s()), wrap(params.mirror_t(), params.repeat_t()))
}

fn wrap_number(wrap: &Wrap) -> u8 {
    match wrap {
        Wrap::Clamp => 0,
        Wrap::Repeat => 1,
        Wrap::Mirror => 2,
    }
}

/// Where the byte of a picture is.
fn pixel_place(word: u32, byte: Option<usize>) -> String {
    let width = 8 << Shape::of(word).width;
    byte.map_or(String::new(), |i| format!("word {word:08x}, x {}, y {}, channel {}", i / 4 % width, i / 4 / width, i % 4))
}
