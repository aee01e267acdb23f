//! The functions of the archive, as `include/rasclanya.h` declares them. Their rules stand there: no pointer is null, what is lent for writing
//! overlaps nothing else, and each pointer beside a length is to that many bytes.

extern "C" {
    pub fn rasclanya_version() -> u32;

    pub fn rasclanya_offset(word: u32) -> u32;
    pub fn rasclanya_repeat_s(word: u32) -> bool;
    pub fn rasclanya_repeat_t(word: u32) -> bool;
    pub fn rasclanya_mirror_s(word: u32) -> bool;
    pub fn rasclanya_mirror_t(word: u32) -> bool;
    pub fn rasclanya_width(word: u32) -> u32;
    pub fn rasclanya_height(word: u32) -> u32;
    pub fn rasclanya_format(word: u32) -> u8;
    pub fn rasclanya_is_color0_transparent(word: u32) -> bool;
    pub fn rasclanya_texcoord_transform_mode(word: u32) -> u8;
    pub fn rasclanya_wrap_s(word: u32) -> u32;
    pub fn rasclanya_wrap_t(word: u32) -> u32;
    pub fn rasclanya_alpha_type(word: u32) -> u32;
    pub fn rasclanya_byte_len(word: u32) -> usize;
    pub fn rasclanya_byte_len2(word: u32) -> usize;

    pub fn rasclanya_read_tex(
        block: *const u8,
        block_len: usize,
        textures: *mut usize,
        palettes: *mut usize,
        needed: *mut usize,
    ) -> u32;
    pub fn rasclanya_texture(
        block: *const u8,
        block_len: usize,
        n: usize,
        name: *mut u8,
        name_len: usize,
        word: *mut u32,
        wrap_s: *mut u32,
        wrap_t: *mut u32,
        alpha: *mut u32,
        needed: *mut usize,
    ) -> u32;
    pub fn rasclanya_palette(
        block: *const u8,
        block_len: usize,
        n: usize,
        name: *mut u8,
        name_len: usize,
        off: *mut u32,
        needed: *mut usize,
    ) -> u32;
    pub fn rasclanya_texture_data1(
        block: *const u8,
        block_len: usize,
        n: usize,
        pos: *mut usize,
        len: *mut usize,
        needed: *mut usize,
    ) -> u32;
    pub fn rasclanya_texture_data2(
        block: *const u8,
        block_len: usize,
        n: usize,
        pos: *mut usize,
        len: *mut usize,
        needed: *mut usize,
    ) -> u32;
    pub fn rasclanya_pal_block(
        block: *const u8,
        block_len: usize,
        pos: *mut usize,
        len: *mut usize,
        needed: *mut usize,
    ) -> u32;

    pub fn rasclanya_textures(
        block: *const u8,
        block_len: usize,
        rows: *mut usize,
        rows_len: usize,
        len: *mut usize,
        needed: *mut usize,
    ) -> u32;
    pub fn rasclanya_palettes(
        block: *const u8,
        block_len: usize,
        rows: *mut usize,
        rows_len: usize,
        len: *mut usize,
        needed: *mut usize,
    ) -> u32;

    pub fn rasclanya_print_safe(
        name: *const u8,
        name_len: usize,
        out: *mut u8,
        out_len: usize,
        len: *mut usize,
    ) -> u32;
    pub fn rasclanya_display(
        name: *const u8,
        name_len: usize,
        out: *mut u8,
        out_len: usize,
        len: *mut usize,
    ) -> u32;

    pub fn rasclanya_decode_texture(
        word: u32,
        data1: *const u8,
        data1_len: usize,
        data2: *const u8,
        data2_len: usize,
        has_palette: u32,
        palette_off: u32,
        pal: *const u8,
        pal_len: usize,
        out: *mut u8,
        out_len: usize,
        len: *mut usize,
    ) -> u32;
    pub fn rasclanya_picture(
        block: *const u8,
        block_len: usize,
        n: usize,
        has_palette: u32,
        palette: usize,
        out: *mut u8,
        out_len: usize,
        len: *mut usize,
        needed: *mut usize,
    ) -> u32;

    pub fn rasclanya_fetch_tex(
        block: *const u8,
        block_len: usize,
        textures: *mut usize,
        palettes: *mut usize,
        short_answers: *mut usize,
        needed: *mut usize,
    ) -> u32;
    pub fn rasclanya_fetch_picture(
        block: *const u8,
        block_len: usize,
        n: usize,
        has_palette: u32,
        palette: usize,
        out: *mut u8,
        out_len: usize,
        len: *mut usize,
        short_answers: *mut usize,
        needed: *mut usize,
    ) -> u32;

    pub fn rasclanya_list(
        input: *const u8,
        input_len: usize,
        out: *mut u8,
        out_len: usize,
        len: *mut usize,
    ) -> u32;
}
