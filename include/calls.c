/* Calls every function of rasclanya.h at its limits and checks the answers, with what is written and what is kept: calls SAMPLE, where the
   file SAMPLE holds document 01's sample block of 208 bytes. What is expected is written from document 01. */
#define _DEFAULT_SOURCE
#include "rasclanya.h"

#include <stdio.h>
#include <stdlib.h>
#include <string.h>
#include <sys/mman.h>

/* Each refusal has the same number under its two names. */
#define SAME(name) _Static_assert((int)RASCLANYA_REFUSED_##name == (int)RASCLANYA_##name, #name)

SAME(SHORT);
SAME(STAMP);
SAME(TEXTURE_DUMMY);
SAME(TEXTURE_DATUM_SIZE);
SAME(PALETTE_DUMMY);
SAME(PALETTE_DATUM_SIZE);
SAME(TEXTURE_NUMBER);
SAME(PALETTE_NUMBER);
SAME(NO_PALETTE);
SAME(NO_TEXELS);
SAME(OUTPUT);
SAME(SHORT_DATA);

static size_t checked, failed;

/* Each use checks the answer of one call. */
#define CHECK(right) count((right), __LINE__)

static void count(bool right, int line)
{
    checked++;
    if (!right) {
        failed++;
        printf("calls.c:%d: wrong answer\n", line);
    }
}

/* ---- What is lent. Every output is filled before the call, and so are the bytes behind it, which no call may change. */

#define FILL 0xa5
#define SIZE_FILL 0xa5a5a5a5a5a5a5a5u
#define WORD_FILL 0xa5a5a5a5u
#define BEHIND 16
#define MAX_PICTURE 4194304

struct slice {
    const uint8_t *at;
    size_t len;
};

struct size_out {
    size_t value, behind;
};

struct word_out {
    uint32_t value, behind;
};

static const struct size_out SIZE_OUT = {SIZE_FILL, SIZE_FILL};
static const struct word_out WORD_OUT = {WORD_FILL, WORD_FILL};
static uint8_t out[MAX_PICTURE + BEHIND];

static struct slice slice(const void *at, size_t len)
{
    return (struct slice){at, len};
}

/* Whether empty slices are lent as NULL, or else as pointers to objects. All calls are made in both ways. */
static bool empty_is_null;

/* The pointer that a slice is lent by. */
static const uint8_t *lent(struct slice s)
{
    return s.len == 0 && empty_is_null ? NULL : s.at;
}

static struct slice first(size_t len, struct slice s)
{
    return slice(s.at, len);
}

/* Whether a size was written, or kept where it was not to be. */
static bool size_is(struct size_out got, bool written, size_t value)
{
    return got.behind == SIZE_FILL && got.value == (written ? value : SIZE_FILL);
}

static bool word_is(struct word_out got, bool written, uint32_t value)
{
    return got.behind == WORD_FILL && got.value == (written ? value : WORD_FILL);
}

/* An output of len bytes. */
static uint8_t *lend(size_t len)
{
    memset(out, FILL, len + BEHIND);
    return len == 0 && empty_is_null ? NULL : out;
}

/* Whether the output of len bytes has the text, and nothing else has changed. */
static bool out_is(size_t len, struct slice text)
{
    for (size_t i = text.len; i < len + BEHIND; i++) {
        if (out[i] != FILL) {
            return false;
        }
    }
    return memcmp(out, text.at, text.len) == 0;
}

/* Rows, in an output of numbers that is filled like the output of bytes. */
#define MAX_ROWS (RASCLANYA_MAX_COUNT * RASCLANYA_TEXTURE_ROW)

struct rows {
    const size_t *at;
    size_t len;
};

static const struct rows NO_ROWS = {NULL, 0};
static size_t rows_out[MAX_ROWS + BEHIND];

static size_t *lend_rows(size_t len)
{
    for (size_t i = 0; i < len + BEHIND; i++) {
        rows_out[i] = SIZE_FILL;
    }
    return len == 0 && empty_is_null ? NULL : rows_out;
}

static bool rows_are(size_t len, struct rows rows)
{
    for (size_t i = 0; i < len + BEHIND; i++) {
        if (rows_out[i] != (i < rows.len ? rows.at[i] : SIZE_FILL)) {
            return false;
        }
    }
    return true;
}

static const struct slice NOTHING = {(const uint8_t *)"", 0};

static struct slice written(uint32_t refusal, struct slice text)
{
    return refusal == 0 ? text : NOTHING;
}

/* ---- The blocks. */

#define SAMPLE_LEN 208
#define BLOCK_LEN 752
#define TEXTURES 5
#define PALETTES 2

static uint8_t sample[SAMPLE_LEN], changed[SAMPLE_LEN], block[BLOCK_LEN];

static void put16(uint8_t *at, uint32_t number)
{
    at[0] = number & 0xff;
    at[1] = number >> 8 & 0xff;
}

static void put32(uint8_t *at, uint32_t number)
{
    put16(at, number);
    put16(at + 2, number >> 16);
}

/* The sample with a byte changed. */
static struct slice sample_with(size_t at, uint8_t byte)
{
    memcpy(changed, sample, SAMPLE_LEN);
    changed[at] = byte;
    return slice(changed, SAMPLE_LEN);
}

/* The sample with its palette block at the largest position and of the largest length. */
static struct slice far_palette_block(void)
{
    memcpy(changed, sample, SAMPLE_LEN);
    put16(changed + 48, 0xffff);
    put32(changed + 56, 0xffffffff);
    return slice(changed, SAMPLE_LEN);
}

static void open_list(uint8_t *list, size_t count_of_entries, uint32_t datum)
{
    list[1] = (uint8_t)count_of_entries;
    put16(list + 12 + 4 * count_of_entries, datum);
}

/* Entry n of a list, whose name has 16 bytes that no other name has. */
static void put_entry(uint8_t *list, size_t n, uint32_t number, uint8_t first_of_name)
{
    size_t entries = list[1];
    size_t datum = list[12 + 4 * entries];
    put32(list + 16 + 4 * entries + datum * n, number);
    for (size_t i = 0; i < RASCLANYA_NAME_LEN; i++) {
        list[16 + (4 + datum) * entries + RASCLANYA_NAME_LEN * n + i] = (uint8_t)(first_of_name + i);
    }
}

#define TEXTURE_NAME(n) (uint8_t)(65 + 16 * (n))
#define PALETTE_NAME(n) TEXTURE_NAME(TEXTURES + (n))

/* Formats 3, 5, 1, 0 and 7. The first three have each another wrap in S, wrap in T and alpha. */
static const uint32_t WORDS[TEXTURES] = {0x0c090000, 0x14040002, 0x04020007, 0x00000010, 0x1c800010};

static void put_lists(void)
{
    open_list(block + 144, TEXTURES, 8);
    for (size_t n = 0; n < TEXTURES; n++) {
        put_entry(block + 144, n, WORDS[n], TEXTURE_NAME(n));
    }
    open_list(block + 688, PALETTES, 4);
    put_entry(block + 688, 0, 0xffff0001, PALETTE_NAME(0));
    put_entry(block + 688, 1, 0xffff0005, PALETTE_NAME(1));
}

/* Colour i of the palette block: other levels for each i below 40. */
static uint32_t color(uint32_t i)
{
    return i + ((31 - i % 32) << 10);
}

static void put_colors(uint8_t *at, uint32_t number)
{
    for (uint32_t i = 0; i < number; i++) {
        put16(at + 2 * i, color(i));
    }
}

/* Format 1: texel k has index k / 8 and alpha k % 8. */
static void put_translucent(uint8_t *at)
{
    for (uint32_t k = 0; k < 64; k++) {
        at[k] = (uint8_t)(k % 8 << 5 | k / 8);
    }
}

/* Format 5: each row of a block has the texels 0 to 3, and block m has mode m and the first colour index 2 * (m + 1). */
static void put_compressed(uint8_t *data1, uint8_t *data2)
{
    memset(data1, 0xe4, 16);
    for (uint32_t m = 0; m < 4; m++) {
        put16(data2 + 2 * m, m << 14 | (m + 1));
    }
}

/* Format 7: texel k has colour k, and is solid where k is odd. */
static void put_direct(uint8_t *at, uint32_t number)
{
    for (uint32_t k = 0; k < number; k++) {
        put16(at + 2 * k, k % 2 << 15 | (k & 0x7fff));
    }
}

/* A block whose parts stand in the order of reading, so that each of the 12 lengths tested is larger than those before: 60, 144, 146, 300,
   336, 352, 360, 424, 432, 688, 690, 752. */
static void make_block(void)
{
    memcpy(block, "TEX0", 4);
    put16(block + 14, 144);
    put32(block + 20, 304);
    put32(block + 36, 320);
    put32(block + 40, 344);
    put16(block + 48, 10);
    put32(block + 52, 688);
    put32(block + 56, 64);
    put_colors(block + 64, 40);
    put_lists();
    memset(block + 304, 0x21, 32);
    put_compressed(block + 336, block + 352);
    put_translucent(block + 360);
    put_direct(block + 432, 128);
}

/* ---- The pictures that are expected. */

static uint8_t expected[MAX_PICTURE];

static uint8_t widen(uint32_t level)
{
    return (uint8_t)(8 * level + level / 4);
}

static void put_texel(uint8_t *at, uint32_t rgb, uint32_t alpha)
{
    at[0] = widen(rgb % 32);
    at[1] = widen(rgb / 32 % 32);
    at[2] = widen(rgb / 1024 % 32);
    at[3] = widen(alpha);
}

static void put_mix(uint8_t *at, uint32_t a, uint32_t rgb0, uint32_t b, uint32_t rgb1)
{
    uint8_t c0[4], c1[4];
    put_texel(c0, rgb0, 31);
    put_texel(c1, rgb1, 31);
    for (int i = 0; i < 4; i++) {
        at[i] = (uint8_t)((a * c0[i] + b * c1[i]) / (a + b));
    }
}

/* Texel 2 of format 5 by the mode, where C0 is the palette block's colour c. */
static void put_texel2(uint8_t *at, uint32_t mode, uint32_t c)
{
    if (mode == 1) {
        put_mix(at, 1, color(c), 1, color(c + 1));
    } else if (mode == 3) {
        put_mix(at, 5, color(c), 3, color(c + 1));
    } else {
        put_texel(at, color(c + 2), 31);
    }
}

/* Texel 3 likewise. */
static void put_texel3(uint8_t *at, uint32_t mode, uint32_t c)
{
    if (mode < 2) {
        memset(at, 0, 4);
    } else if (mode == 2) {
        put_texel(at, color(c + 3), 31);
    } else {
        put_mix(at, 3, color(c), 5, color(c + 1));
    }
}

/* Texel k of format 5, as put_compressed has it. */
static void put_compressed_texel(uint8_t *at, uint32_t k, uint32_t palette)
{
    uint32_t x = k % 8;
    uint32_t mode = k / 32 * 2 + x / 4;
    uint32_t c = palette + 2 * (mode + 1);
    if (x % 4 < 2) {
        put_texel(at, color(c + x % 4), 31);
    } else if (x % 4 == 2) {
        put_texel2(at, mode, c);
    } else {
        put_texel3(at, mode, c);
    }
}

static void put_block_texel(uint8_t *at, size_t n, uint32_t k, uint32_t palette)
{
    static const uint32_t ALPHA3[8] = {0, 4, 9, 13, 18, 22, 27, 31};
    if (n == 0) {
        put_texel(at, color(palette + 1 + k % 2), 31);
    } else if (n == 1) {
        put_compressed_texel(at, k, palette);
    } else if (n == 2) {
        put_texel(at, color(palette + k / 8), ALPHA3[k % 8]);
    } else {
        put_texel(at, k, k % 2 * 31);
    }
}

/* The picture of the block's texture n, where colour 0 of the palette is the palette block's colour of that number. */
static struct slice block_picture(size_t n, uint32_t palette)
{
    uint32_t texels = n == 4 ? 128 : 64;
    for (uint32_t k = 0; k < texels; k++) {
        put_block_texel(expected + 4 * k, n, k, palette);
    }
    return slice(expected, 4 * texels);
}

/* An 8 by 8 picture whose texels repeat the first number of them. */
static struct slice repeated(uint32_t number)
{
    for (size_t i = 4 * number; i < 256; i++) {
        expected[i] = expected[i - 4 * number];
    }
    return slice(expected, 256);
}

static struct slice plain(uint32_t rgb, uint32_t alpha)
{
    put_texel(expected, rgb, alpha);
    return repeated(1);
}

/* ---- The readers of a texture word. */

struct word_facts {
    uint32_t word, offset;
    bool repeat_s, repeat_t, mirror_s, mirror_t;
    uint32_t width, height;
    uint8_t format;
    bool color0;
    uint8_t transform;
    uint32_t wrap_s, wrap_t, alpha;
    size_t byte_len, byte_len2;
};

static const struct word_facts FACTS[] = {
    {0x00000000, 0, 0, 0, 0, 0, 8, 8, 0, 0, 0, 0, 0, 0, 0, 0},
    {0xffffffff, 524280, 1, 1, 1, 1, 1024, 1024, 7, 1, 3, 2, 2, 1, 2097152, 0},
    {0x1ff0ffff, 524280, 0, 0, 0, 0, 1024, 1024, 7, 0, 0, 0, 0, 1, 2097152, 0},
    {0x2c010000, 0, 1, 0, 0, 0, 8, 8, 3, 1, 0, 1, 0, 1, 32, 0},
    {0x0c021234, 37280, 0, 1, 0, 0, 8, 8, 3, 0, 0, 0, 1, 0, 32, 0},
    {0x55140001, 8, 0, 0, 1, 0, 16, 32, 5, 0, 1, 2, 0, 1, 128, 64},
    {0x96a80002, 16, 0, 0, 0, 1, 32, 256, 5, 0, 2, 0, 2, 1, 2048, 1024},
    {0x04430100, 2048, 1, 1, 0, 0, 128, 8, 1, 0, 0, 1, 1, 2, 1024, 0},
    {0x2b800000, 0, 0, 0, 0, 0, 8, 1024, 2, 1, 0, 0, 0, 1, 2048, 0},
    {0x10700000, 0, 0, 0, 0, 0, 1024, 8, 4, 0, 0, 0, 0, 0, 8192, 0},
    {0x1bd60000, 0, 0, 1, 1, 0, 256, 1024, 6, 0, 0, 2, 1, 2, 262144, 0},
    {0x17f00000, 0, 0, 0, 0, 0, 1024, 1024, 5, 0, 0, 0, 0, 1, 262144, 131072},
};

static void check_word(const struct word_facts *f)
{
    CHECK(rasclanya_offset(f->word) == f->offset);
    CHECK(rasclanya_repeat_s(f->word) == f->repeat_s);
    CHECK(rasclanya_repeat_t(f->word) == f->repeat_t);
    CHECK(rasclanya_mirror_s(f->word) == f->mirror_s);
    CHECK(rasclanya_mirror_t(f->word) == f->mirror_t);
    CHECK(rasclanya_width(f->word) == f->width);
    CHECK(rasclanya_height(f->word) == f->height);
    CHECK(rasclanya_format(f->word) == f->format);
    CHECK(rasclanya_is_color0_transparent(f->word) == f->color0);
    CHECK(rasclanya_texcoord_transform_mode(f->word) == f->transform);
    CHECK(rasclanya_wrap_s(f->word) == f->wrap_s);
    CHECK(rasclanya_wrap_t(f->word) == f->wrap_t);
    CHECK(rasclanya_alpha_type(f->word) == f->alpha);
    CHECK(rasclanya_byte_len(f->word) == f->byte_len);
    CHECK(rasclanya_byte_len2(f->word) == f->byte_len2);
}

static void check_words(void)
{
    for (size_t i = 0; i < sizeof FACTS / sizeof FACTS[0]; i++) {
        check_word(&FACTS[i]);
    }
}

/* ---- The version, and refusals in words. */

static bool text_is(uint32_t number, const char *text)
{
    return strcmp(rasclanya_refusal_text(number), text) == 0;
}

static void check_texts(void)
{
    static const char NONE_OF_THESE[] = "no refusal has this number";
    CHECK(rasclanya_version() == RASCLANYA_VERSION);
    CHECK(text_is(0, "not refused"));
    CHECK(text_is(1, "the block is too short"));
    CHECK(text_is(9, "the texture's format needs a palette"));
    CHECK(text_is(13, "the input has more than 65536 bytes"));
    CHECK(text_is(14, NONE_OF_THESE));
    CHECK(text_is(UINT32_MAX, NONE_OF_THESE));
    for (uint32_t n = 1; n <= 13; n++) {
        CHECK(!text_is(n, NONE_OF_THESE));
    }
}

/* ---- One call each, with all that it answers. The values that are written are compared where the call is not refused. */

static bool read_tex_is(struct slice b, uint32_t refusal, size_t textures, size_t palettes, size_t needed)
{
    struct size_out t = SIZE_OUT, p = SIZE_OUT, more = SIZE_OUT;
    uint32_t got = rasclanya_read_tex(lent(b), b.len, &t.value, &p.value, &more.value);
    return got == refusal && size_is(t, refusal == 0, textures) && size_is(p, refusal == 0, palettes) && size_is(more, true, needed);
}

static bool fetch_tex_is(struct slice b, uint32_t refusal, size_t textures, size_t palettes, size_t short_answers, size_t needed)
{
    struct size_out t = SIZE_OUT, p = SIZE_OUT, answers = SIZE_OUT, more = SIZE_OUT;
    uint32_t got = rasclanya_fetch_tex(lent(b), b.len, &t.value, &p.value, &answers.value, &more.value);
    return got == refusal && size_is(t, refusal == 0, textures) && size_is(p, refusal == 0, palettes)
           && size_is(answers, true, short_answers) && size_is(more, true, needed);
}

/* A name of the block, as it is written to an output. */
static struct slice name_from(uint8_t first_of_name)
{
    static uint8_t name[RASCLANYA_NAME_LEN];
    for (size_t i = 0; i < RASCLANYA_NAME_LEN; i++) {
        name[i] = (uint8_t)(first_of_name + i);
    }
    return slice(name, RASCLANYA_NAME_LEN);
}

struct record {
    struct slice name;
    uint32_t word, wrap_s, wrap_t, alpha;
};

static const struct record NO_RECORD = {{(const uint8_t *)"", 0}, 0, 0, 0, 0};

static bool texture_is(struct slice b, size_t n, size_t name_len, uint32_t refusal, struct record r, size_t needed)
{
    struct word_out word = WORD_OUT, wrap_s = WORD_OUT, wrap_t = WORD_OUT, alpha = WORD_OUT;
    struct size_out more = SIZE_OUT;
    uint32_t got = rasclanya_texture(lent(b), b.len, n, lend(name_len), name_len, &word.value, &wrap_s.value, &wrap_t.value,
                                     &alpha.value, &more.value);
    return got == refusal && out_is(name_len, written(refusal, r.name)) && word_is(word, refusal == 0, r.word)
           && word_is(wrap_s, refusal == 0, r.wrap_s) && word_is(wrap_t, refusal == 0, r.wrap_t)
           && word_is(alpha, refusal == 0, r.alpha) && size_is(more, true, needed);
}

static bool palette_is(struct slice b, size_t n, size_t name_len, uint32_t refusal, struct slice name, uint32_t off, size_t needed)
{
    struct word_out at = WORD_OUT;
    struct size_out more = SIZE_OUT;
    uint32_t got = rasclanya_palette(lent(b), b.len, n, lend(name_len), name_len, &at.value, &more.value);
    return got == refusal && out_is(name_len, written(refusal, name)) && word_is(at, refusal == 0, off) && size_is(more, true, needed);
}

static bool part_is(uint32_t got, struct size_out pos, struct size_out len, struct size_out more,
                    uint32_t refusal, size_t at, size_t length, size_t needed)
{
    return got == refusal && size_is(pos, refusal == 0, at) && size_is(len, refusal == 0, length) && size_is(more, true, needed);
}

static bool data1_is(struct slice b, size_t n, uint32_t refusal, size_t at, size_t length, size_t needed)
{
    struct size_out pos = SIZE_OUT, len = SIZE_OUT, more = SIZE_OUT;
    uint32_t got = rasclanya_texture_data1(lent(b), b.len, n, &pos.value, &len.value, &more.value);
    return part_is(got, pos, len, more, refusal, at, length, needed);
}

static bool data2_is(struct slice b, size_t n, uint32_t refusal, size_t at, size_t length, size_t needed)
{
    struct size_out pos = SIZE_OUT, len = SIZE_OUT, more = SIZE_OUT;
    uint32_t got = rasclanya_texture_data2(lent(b), b.len, n, &pos.value, &len.value, &more.value);
    return part_is(got, pos, len, more, refusal, at, length, needed);
}

static bool pal_block_is(struct slice b, uint32_t refusal, size_t at, size_t length, size_t needed)
{
    struct size_out pos = SIZE_OUT, len = SIZE_OUT, more = SIZE_OUT;
    uint32_t got = rasclanya_pal_block(lent(b), b.len, &pos.value, &len.value, &more.value);
    return part_is(got, pos, len, more, refusal, at, length, needed);
}

/* The function of the archive for the rows of one of the two lists. */
typedef uint32_t rows_call(const uint8_t *, size_t, size_t *, size_t, size_t *, size_t *);

static bool call_gives(rows_call *call, struct slice b, size_t rows_len, uint32_t refusal, struct rows rows, size_t needed)
{
    struct size_out len = SIZE_OUT, more = SIZE_OUT;
    uint32_t got = call(lent(b), b.len, lend_rows(rows_len), rows_len, &len.value, &more.value);
    return got == refusal && rows_are(rows_len, refusal == 0 ? rows : NO_ROWS) && size_is(len, refusal == 0, rows.len)
           && size_is(more, true, needed);
}

static bool textures_are(struct slice b, size_t rows_len, uint32_t refusal, struct rows rows, size_t needed)
{
    return call_gives(rasclanya_textures, b, rows_len, refusal, rows, needed);
}

static bool palettes_are(struct slice b, size_t rows_len, uint32_t refusal, struct rows rows, size_t needed)
{
    return call_gives(rasclanya_palettes, b, rows_len, refusal, rows, needed);
}

static bool print_safe_is(struct slice name, size_t out_len, uint32_t refusal, struct slice text)
{
    struct size_out len = SIZE_OUT;
    uint32_t got = rasclanya_print_safe(lent(name), name.len, lend(out_len), out_len, &len.value);
    return got == refusal && out_is(out_len, written(refusal, text)) && size_is(len, refusal == 0, text.len);
}

static bool display_is(struct slice name, size_t out_len, uint32_t refusal, struct slice text)
{
    struct size_out len = SIZE_OUT;
    uint32_t got = rasclanya_display(lent(name), name.len, lend(out_len), out_len, &len.value);
    return got == refusal && out_is(out_len, written(refusal, text)) && size_is(len, refusal == 0, text.len);
}

struct chosen {
    uint32_t has_palette;
    size_t palette;
};

static struct chosen with_palette(size_t palette)
{
    return (struct chosen){1, palette};
}

static const struct chosen NONE = {0, 0};

static bool picture_is(struct slice b, size_t n, struct chosen c, size_t out_len, uint32_t refusal, struct slice picture, size_t needed)
{
    struct size_out len = SIZE_OUT, more = SIZE_OUT;
    uint32_t got = rasclanya_picture(lent(b), b.len, n, c.has_palette, c.palette, lend(out_len), out_len, &len.value, &more.value);
    return got == refusal && out_is(out_len, written(refusal, picture)) && size_is(len, refusal == 0, picture.len)
           && size_is(more, true, needed);
}

static bool fetch_picture_is(struct slice b, size_t n, struct chosen c, size_t out_len, uint32_t refusal, struct slice picture,
                             size_t short_answers, size_t needed)
{
    struct size_out len = SIZE_OUT, answers = SIZE_OUT, more = SIZE_OUT;
    uint32_t got = rasclanya_fetch_picture(lent(b), b.len, n, c.has_palette, c.palette, lend(out_len), out_len, &len.value,
                                           &answers.value, &more.value);
    return got == refusal && out_is(out_len, written(refusal, picture)) && size_is(len, refusal == 0, picture.len)
           && size_is(answers, true, short_answers) && size_is(more, true, needed);
}

struct source {
    uint32_t word;
    struct slice data1, data2;
    uint32_t has_palette, palette_off;
    struct slice pal;
};

static bool decode_is(struct source s, size_t out_len, uint32_t refusal, struct slice picture)
{
    struct size_out len = SIZE_OUT;
    uint32_t got = rasclanya_decode_texture(s.word, lent(s.data1), s.data1.len, lent(s.data2), s.data2.len, s.has_palette, s.palette_off,
                                            lent(s.pal), s.pal.len, lend(out_len), out_len, &len.value);
    return got == refusal && out_is(out_len, written(refusal, picture)) && size_is(len, refusal == 0, picture.len);
}

static bool list_is(struct slice input, size_t out_len, uint32_t refusal, const char *text)
{
    struct size_out len = SIZE_OUT;
    uint32_t got = rasclanya_list(lent(input), input.len, lend(out_len), out_len, &len.value);
    struct slice lines = slice(text, strlen(text));
    return got == refusal && out_is(out_len, written(refusal, lines)) && size_is(len, refusal == 0, lines.len);
}

/* ---- Blocks that are refused, by each call that is refused for them. */

static void check_refused(struct slice b, uint32_t refusal, size_t needed, size_t short_answers)
{
    CHECK(read_tex_is(b, refusal, 0, 0, needed));
    CHECK(texture_is(b, 0, 16, refusal, NO_RECORD, needed));
    CHECK(texture_is(b, SIZE_MAX, 0, refusal, NO_RECORD, needed));
    CHECK(palette_is(b, 0, 16, refusal, NOTHING, 0, needed));
    CHECK(palette_is(b, SIZE_MAX, 0, refusal, NOTHING, 0, needed));
    CHECK(data1_is(b, 0, refusal, 0, 0, needed));
    CHECK(data2_is(b, 0, refusal, 0, 0, needed));
    CHECK(pal_block_is(b, refusal, 0, 0, needed));
    CHECK(textures_are(b, MAX_ROWS, refusal, NO_ROWS, needed));
    CHECK(textures_are(b, 0, refusal, NO_ROWS, needed));
    CHECK(palettes_are(b, MAX_ROWS, refusal, NO_ROWS, needed));
    CHECK(palettes_are(b, 0, refusal, NO_ROWS, needed));
    CHECK(picture_is(b, 0, with_palette(0), 256, refusal, NOTHING, needed));
    CHECK(picture_is(b, SIZE_MAX, with_palette(SIZE_MAX), 0, refusal, NOTHING, needed));
    CHECK(fetch_tex_is(b, refusal, 0, 0, short_answers, needed));
    CHECK(fetch_picture_is(b, 0, with_palette(0), 256, refusal, NOTHING, short_answers, needed));
}

static void check_refusals(void)
{
    struct slice whole = slice(sample, SAMPLE_LEN);
    check_refused(NOTHING, RASCLANYA_SHORT, 60, 1);
    check_refused(first(59, whole), RASCLANYA_SHORT, 60, 1);
    check_refused(first(60, whole), RASCLANYA_SHORT, 208, 2);
    check_refused(first(207, whole), RASCLANYA_SHORT, 208, 2);
    check_refused(far_palette_block(), RASCLANYA_SHORT, 4295491575, 2);
    check_refused(first(689, slice(block, BLOCK_LEN)), RASCLANYA_SHORT, 690, 11);
    check_refused(sample_with(0, 'X'), RASCLANYA_STAMP, 0, 1);
    check_refused(sample_with(60, 1), RASCLANYA_TEXTURE_DUMMY, 0, 2);
    check_refused(sample_with(76, 9), RASCLANYA_TEXTURE_DATUM_SIZE, 0, 2);
    check_refused(sample_with(104, 1), RASCLANYA_PALETTE_DUMMY, 0, 2);
    check_refused(sample_with(120, 5), RASCLANYA_PALETTE_DATUM_SIZE, 0, 2);
}

/* ---- Records and parts. */

static void check_counts(struct slice b)
{
    CHECK(read_tex_is(slice(sample, SAMPLE_LEN), 0, 1, 1, 0));
    CHECK(fetch_tex_is(slice(sample, SAMPLE_LEN), 0, 1, 1, 2, 0));
    CHECK(read_tex_is(b, 0, TEXTURES, PALETTES, 0));
    CHECK(fetch_tex_is(b, 0, TEXTURES, PALETTES, 12, 0));
}

static void check_textures(struct slice b)
{
    static const uint32_t KINDS[TEXTURES][3] = {
        {RASCLANYA_REPEAT, RASCLANYA_MIRROR, RASCLANYA_OPAQUE},
        {RASCLANYA_MIRROR, RASCLANYA_CLAMP, RASCLANYA_TRANSPARENT},
        {RASCLANYA_CLAMP, RASCLANYA_REPEAT, RASCLANYA_TRANSLUCENT},
        {RASCLANYA_CLAMP, RASCLANYA_CLAMP, RASCLANYA_OPAQUE},
        {RASCLANYA_CLAMP, RASCLANYA_CLAMP, RASCLANYA_TRANSPARENT},
    };
    for (size_t n = 0; n < TEXTURES; n++) {
        struct record r = {name_from(TEXTURE_NAME(n)), WORDS[n], KINDS[n][0], KINDS[n][1], KINDS[n][2]};
        CHECK(texture_is(b, n, 16, 0, r, 0));
        CHECK(texture_is(b, n, 20, 0, r, 0));
        CHECK(texture_is(b, n, 15, RASCLANYA_OUTPUT, NO_RECORD, 0));
    }
    CHECK(texture_is(b, 0, 0, RASCLANYA_OUTPUT, NO_RECORD, 0));
    CHECK(texture_is(b, TEXTURES, 16, RASCLANYA_TEXTURE_NUMBER, NO_RECORD, 0));
    CHECK(texture_is(b, TEXTURES, 0, RASCLANYA_TEXTURE_NUMBER, NO_RECORD, 0));
    CHECK(texture_is(b, SIZE_MAX, 16, RASCLANYA_TEXTURE_NUMBER, NO_RECORD, 0));
    CHECK(texture_is(b, (size_t)1 << 32, 16, RASCLANYA_TEXTURE_NUMBER, NO_RECORD, 0));
}

static void check_palettes(struct slice b)
{
    for (size_t n = 0; n < PALETTES; n++) {
        struct slice name = name_from(PALETTE_NAME(n));
        uint32_t off = n == 0 ? 8 : 40;
        CHECK(palette_is(b, n, 16, 0, name, off, 0));
        CHECK(palette_is(b, n, 20, 0, name, off, 0));
        CHECK(palette_is(b, n, 15, RASCLANYA_OUTPUT, NOTHING, 0, 0));
    }
    CHECK(palette_is(b, 0, 0, RASCLANYA_OUTPUT, NOTHING, 0, 0));
    CHECK(palette_is(b, PALETTES, 16, RASCLANYA_PALETTE_NUMBER, NOTHING, 0, 0));
    CHECK(palette_is(b, PALETTES, 0, RASCLANYA_PALETTE_NUMBER, NOTHING, 0, 0));
    CHECK(palette_is(b, SIZE_MAX, 16, RASCLANYA_PALETTE_NUMBER, NOTHING, 0, 0));
    CHECK(palette_is(b, (size_t)1 << 32, 16, RASCLANYA_PALETTE_NUMBER, NOTHING, 0, 0));
}

/* The largest offset of a palette. */
static void check_largest_offset(void)
{
    memcpy(changed, sample, SAMPLE_LEN);
    put16(changed + 124, 0xffff);
    CHECK(palette_is(slice(changed, SAMPLE_LEN), 0, 16, 0, slice("leaf\0\0\0\0\0\0\0\0\0\0\0", 16), 524280, 0));
}

static void check_data(struct slice b)
{
    static const size_t POS[TEXTURES] = {304, 336, 360, 0, 432}, LEN[TEXTURES] = {32, 16, 64, 0, 256};
    for (size_t n = 0; n < TEXTURES; n++) {
        CHECK(data1_is(b, n, 0, POS[n], LEN[n], 0));
        CHECK(data2_is(b, n, 0, n == 1 ? 352 : 0, n == 1 ? 8 : 0, 0));
    }
    CHECK(data1_is(b, TEXTURES, RASCLANYA_TEXTURE_NUMBER, 0, 0, 0));
    CHECK(data1_is(b, SIZE_MAX, RASCLANYA_TEXTURE_NUMBER, 0, 0, 0));
    CHECK(data1_is(b, (size_t)1 << 32, RASCLANYA_TEXTURE_NUMBER, 0, 0, 0));
    CHECK(data2_is(b, TEXTURES, RASCLANYA_TEXTURE_NUMBER, 0, 0, 0));
    CHECK(data2_is(b, SIZE_MAX, RASCLANYA_TEXTURE_NUMBER, 0, 0, 0));
    CHECK(data2_is(b, ((size_t)1 << 32) + 1, RASCLANYA_TEXTURE_NUMBER, 0, 0, 0));
    CHECK(pal_block_is(b, 0, 64, 80, 0));
    CHECK(pal_block_is(sample_with(48, 0), 0, 0, 0, 0));
}

/* The rows of the block's textures and palettes. */
static const size_t TEXTURE_ROWS[TEXTURES * RASCLANYA_TEXTURE_ROW] = {
    220, 0x0c090000, 304, 32, 0, 0,
    236, 0x14040002, 336, 16, 352, 8,
    252, 0x04020007, 360, 64, 0, 0,
    268, 0x00000010, 0, 0, 0, 0,
    284, 0x1c800010, 432, 256, 0, 0,
};
static const size_t PALETTE_ROWS[PALETTES * RASCLANYA_PALETTE_ROW] = {720, 8, 736, 40};
static const struct rows ALL_TEXTURES = {TEXTURE_ROWS, TEXTURES * RASCLANYA_TEXTURE_ROW};
static const struct rows ALL_PALETTES = {PALETTE_ROWS, PALETTES * RASCLANYA_PALETTE_ROW};

/* In an output of their length, in longer ones, and in shorter ones, down to 0. */
static void check_rows(struct slice b)
{
    static const size_t MORE[] = {0, 1, 9, MAX_ROWS - TEXTURES * RASCLANYA_TEXTURE_ROW};
    for (size_t i = 0; i < sizeof MORE / sizeof MORE[0]; i++) {
        CHECK(textures_are(b, ALL_TEXTURES.len + MORE[i], 0, ALL_TEXTURES, 0));
        CHECK(palettes_are(b, ALL_PALETTES.len + MORE[i], 0, ALL_PALETTES, 0));
    }
    for (size_t len = 0; len < ALL_TEXTURES.len; len++) {
        CHECK(textures_are(b, len, RASCLANYA_OUTPUT, NO_ROWS, 0));
    }
    for (size_t len = 0; len < ALL_PALETTES.len; len++) {
        CHECK(palettes_are(b, len, RASCLANYA_OUTPUT, NO_ROWS, 0));
    }
}

#define MOST RASCLANYA_MAX_COUNT
#define TEXTURE_LIST 60
#define PALETTE_LIST(entries) (TEXTURE_LIST + 16 + 28 * (entries))

static uint8_t many[PALETTE_LIST(MOST) + 16 + 24 * MOST];
static size_t many_textures[MOST * RASCLANYA_TEXTURE_ROW], many_palettes[MOST * RASCLANYA_PALETTE_ROW];

/* A block that has so many textures of format 0, so many palettes, and nothing else. Number n of either has an offset by n. */
static struct slice make_many(size_t entries)
{
    memset(many, 0, sizeof many);
    memcpy(many, "TEX0", 4);
    put16(many + 14, TEXTURE_LIST);
    put32(many + 52, (uint32_t)PALETTE_LIST(entries));
    open_list(many + TEXTURE_LIST, entries, 8);
    open_list(many + PALETTE_LIST(entries), entries, 4);
    for (size_t n = 0; n < entries; n++) {
        put_entry(many + TEXTURE_LIST, n, (uint32_t)n, (uint8_t)n);
        put_entry(many + PALETTE_LIST(entries), n, (uint32_t)(257 * n), (uint8_t)n);
    }
    return slice(many, PALETTE_LIST(entries) + 16 + 24 * entries);
}

static void check_many_rows(size_t entries)
{
    struct slice b = make_many(entries);
    for (size_t n = 0; n < entries; n++) {
        many_textures[RASCLANYA_TEXTURE_ROW * n] = TEXTURE_LIST + 16 + 12 * entries + 16 * n;
        many_textures[RASCLANYA_TEXTURE_ROW * n + 1] = n;
        many_palettes[RASCLANYA_PALETTE_ROW * n] = PALETTE_LIST(entries) + 16 + 8 * entries + 16 * n;
        many_palettes[RASCLANYA_PALETTE_ROW * n + 1] = 8 * 257 * n;
    }
    CHECK(textures_are(b, MAX_ROWS, 0, (struct rows){many_textures, RASCLANYA_TEXTURE_ROW * entries}, 0));
    CHECK(palettes_are(b, MAX_ROWS, 0, (struct rows){many_palettes, RASCLANYA_PALETTE_ROW * entries}, 0));
}

/* ---- Names. */

static struct slice text(const char *letters)
{
    return slice(letters, strlen(letters));
}

static void check_name_texts(void)
{
    struct slice leaf = slice("leaf\0\0\0\0\0\0\0\0\0\0\0", 16);
    CHECK(print_safe_is(leaf, 4, 0, text("leaf")));
    CHECK(print_safe_is(leaf, 9, 0, text("leaf")));
    CHECK(print_safe_is(leaf, 3, RASCLANYA_OUTPUT, NOTHING));
    CHECK(display_is(leaf, 4, 0, text("leaf")));
    CHECK(display_is(leaf, 9, 0, text("leaf")));
    CHECK(display_is(leaf, 3, RASCLANYA_OUTPUT, NOTHING));
    struct slice odd = slice("a\0Z\x1f 9~\x7f\x80\xbf\xc0\xff_/:\0", 16);
    CHECK(print_safe_is(odd, 15, 0, text("a_Z__9_________")));
    CHECK(print_safe_is(odd, 14, RASCLANYA_OUTPUT, NOTHING));
    CHECK(display_is(odd, 19, 0, text("a.Z. 9~\x7f\xc2\x80\xc2\xbf\xc3\x80\xc3\xbf_/:")));
    CHECK(display_is(odd, 18, RASCLANYA_OUTPUT, NOTHING));
}

/* Fewer bytes than a name has count as padded with zeros, and more are ignored. */
static void check_name_lengths(void)
{
    CHECK(print_safe_is(text("leaf"), 16, 0, text("leaf")));
    CHECK(display_is(text("leaf"), 16, 0, text("leaf")));
    CHECK(print_safe_is(text("abcdefghijklmno"), 16, 0, text("abcdefghijklmno")));
    CHECK(display_is(text("abcdefghijklmno"), 16, 0, text("abcdefghijklmno")));
    CHECK(print_safe_is(text("abcdefghijklmnopq"), 20, 0, text("abcdefghijklmnop")));
    CHECK(display_is(text("abcdefghijklmnopq"), 20, 0, text("abcdefghijklmnop")));
    CHECK(print_safe_is(slice("\0\0\0\0\0\0\0\0\0\0\0\0\0\0\0\0z", 17), 4, 0, text("_")));
    CHECK(display_is(slice("\0\0\0\0\0\0\0\0\0\0\0\0\0\0\0\0z", 17), 4, 0, NOTHING));
}

static void check_name_limits(void)
{
    CHECK(print_safe_is(NOTHING, 1, 0, text("_")));
    CHECK(print_safe_is(NOTHING, 0, RASCLANYA_OUTPUT, NOTHING));
    CHECK(display_is(NOTHING, 1, 0, NOTHING));
    CHECK(display_is(NOTHING, 0, 0, NOTHING));
    struct slice high = text("\xff\xff\xff\xff\xff\xff\xff\xff\xff\xff\xff\xff\xff\xff\xff\xff");
    struct slice shown = text("\xc3\xbf\xc3\xbf\xc3\xbf\xc3\xbf\xc3\xbf\xc3\xbf\xc3\xbf\xc3\xbf"
                              "\xc3\xbf\xc3\xbf\xc3\xbf\xc3\xbf\xc3\xbf\xc3\xbf\xc3\xbf\xc3\xbf");
    CHECK(print_safe_is(high, RASCLANYA_NAME_LEN, 0, text("________________")));
    CHECK(print_safe_is(high, RASCLANYA_NAME_LEN - 1, RASCLANYA_OUTPUT, NOTHING));
    CHECK(display_is(high, RASCLANYA_MAX_DISPLAY, 0, shown));
    CHECK(display_is(high, RASCLANYA_MAX_DISPLAY - 1, RASCLANYA_OUTPUT, NOTHING));
}

/* ---- Pictures from a block. */

static void check_picture(struct slice b, size_t n, struct chosen c, struct slice picture)
{
    CHECK(picture_is(b, n, c, picture.len, 0, picture, 0));
    CHECK(picture_is(b, n, c, picture.len + 9, 0, picture, 0));
    CHECK(picture_is(b, n, c, picture.len - 1, RASCLANYA_OUTPUT, NOTHING, 0));
    CHECK(picture_is(b, n, c, 0, RASCLANYA_OUTPUT, NOTHING, 0));
    CHECK(fetch_picture_is(b, n, c, picture.len, 0, picture, 12, 0));
    CHECK(fetch_picture_is(b, n, c, picture.len + 9, 0, picture, 12, 0));
    CHECK(fetch_picture_is(b, n, c, picture.len - 1, RASCLANYA_OUTPUT, NOTHING, 12, 0));
}

/* Palette 0 begins at the palette block's colour 4, palette 1 at 20. Every has_palette but 0 says that there is one. */
static void check_pictures(struct slice b)
{
    check_picture(b, 0, with_palette(0), block_picture(0, 4));
    check_picture(b, 0, with_palette(1), block_picture(0, 20));
    check_picture(b, 1, (struct chosen){0xffffffff, 1}, block_picture(1, 20));
    check_picture(b, 1, (struct chosen){0x80000000, 0}, block_picture(1, 4));
    check_picture(b, 2, (struct chosen){0x00000100, 1}, block_picture(2, 20));
    check_picture(b, 2, (struct chosen){0x00010000, 0}, block_picture(2, 4));
    check_picture(b, 4, with_palette(1), block_picture(4, 0));
    check_picture(b, 4, NONE, block_picture(4, 0));
    check_picture(b, 4, (struct chosen){0, SIZE_MAX}, block_picture(4, 0));
}

static void check_no_picture(struct slice b, size_t n, struct chosen c, uint32_t refusal)
{
    CHECK(picture_is(b, n, c, 512, refusal, NOTHING, 0));
    CHECK(picture_is(b, n, c, 0, refusal, NOTHING, 0));
    CHECK(fetch_picture_is(b, n, c, 512, refusal, NOTHING, 12, 0));
    CHECK(fetch_picture_is(b, n, c, 0, refusal, NOTHING, 12, 0));
}

static void check_no_pictures(struct slice b)
{
    check_no_picture(b, TEXTURES, with_palette(0), RASCLANYA_TEXTURE_NUMBER);
    check_no_picture(b, TEXTURES, with_palette(PALETTES), RASCLANYA_TEXTURE_NUMBER);
    check_no_picture(b, SIZE_MAX, NONE, RASCLANYA_TEXTURE_NUMBER);
    check_no_picture(b, (size_t)1 << 32, with_palette(0), RASCLANYA_TEXTURE_NUMBER);
    check_no_picture(b, 0, with_palette(PALETTES), RASCLANYA_PALETTE_NUMBER);
    check_no_picture(b, 0, with_palette(SIZE_MAX), RASCLANYA_PALETTE_NUMBER);
    check_no_picture(b, 0, with_palette((size_t)1 << 32), RASCLANYA_PALETTE_NUMBER);
    check_no_picture(b, 3, with_palette(PALETTES), RASCLANYA_PALETTE_NUMBER);
    check_no_picture(b, 4, (struct chosen){0xffffffff, SIZE_MAX}, RASCLANYA_PALETTE_NUMBER);
    check_no_picture(b, 0, NONE, RASCLANYA_NO_PALETTE);
    check_no_picture(b, 1, (struct chosen){0, 1}, RASCLANYA_NO_PALETTE);
    check_no_picture(b, 2, (struct chosen){0, SIZE_MAX}, RASCLANYA_NO_PALETTE);
    check_no_picture(b, 3, with_palette(1), RASCLANYA_NO_TEXELS);
    check_no_picture(b, 3, NONE, RASCLANYA_NO_TEXELS);
}

/* ---- Direct decoding. */

static struct source with_word(uint32_t word)
{
    static uint8_t bytes[64];
    memset(bytes, 0xe4, 64);
    return (struct source){word, slice(bytes, rasclanya_byte_len(word)), NOTHING, 1, 0, slice(block + 64, 80)};
}

/* The sources of the block's texture 1, in format 5, with palette 1. */
static struct source compressed(void)
{
    return (struct source){WORDS[1], slice(block + 336, 16), slice(block + 352, 8), 1, 40, slice(block + 64, 80)};
}

static void check_decoded(struct source s, struct slice picture)
{
    CHECK(decode_is(s, picture.len, 0, picture));
    CHECK(decode_is(s, picture.len + 9, 0, picture));
    CHECK(decode_is(s, picture.len - 1, RASCLANYA_OUTPUT, NOTHING));
    CHECK(decode_is(s, 0, RASCLANYA_OUTPUT, NOTHING));
}

/* Formats 2, 3, 4 and 6 with bytes E4 hex: texels 0, 1, 2, 3; 4, 14; 228; and 4 with alpha 28. */
static void check_formats(void)
{
    for (uint32_t k = 0; k < 4; k++) {
        put_texel(expected + 4 * k, color(k), 31);
    }
    check_decoded(with_word(0x08000000), repeated(4));
    put_texel(expected, color(0), 0);
    check_decoded(with_word(0x28000000), repeated(4));
    put_texel(expected, color(4), 31);
    put_texel(expected + 4, color(14), 31);
    check_decoded(with_word(0x0c000000), repeated(2));
    check_decoded(with_word(0x10000000), plain(0, 31));
    check_decoded(with_word(0x18000000), plain(color(4), 28));
}

/* The offset has 32 bits, and colours that are not wholly inside the palette block are 0. */
static void check_palette_ends(void)
{
    struct source s = with_word(0x18000000);
    s.palette_off = 70;
    check_decoded(s, plain(color(39), 28));
    s.palette_off = 71;
    check_decoded(s, plain(0, 28));
    s.palette_off = 0x100;
    check_decoded(s, plain(0, 28));
    s.palette_off = 0x10000;
    check_decoded(s, plain(0, 28));
    s.palette_off = 0xffffffff;
    check_decoded(s, plain(0, 28));
    s.palette_off = 0;
    s.pal.len = 9;
    check_decoded(s, plain(0, 28));
    s.pal.len = 10;
    check_decoded(s, plain(color(4), 28));
    s.pal = NOTHING;
    check_decoded(s, plain(0, 28));
}

static void check_has_palette(void)
{
    static const uint32_t CHOSEN[] = {1, 2, 0x100, 0x10000, 0x80000000, 0xffffffff};
    for (size_t i = 0; i < sizeof CHOSEN / sizeof CHOSEN[0]; i++) {
        struct source s = compressed();
        s.has_palette = CHOSEN[i];
        check_decoded(s, block_picture(1, 20));
    }
}

/* Formats that need none are decoded without a palette, whatever offset and palette block are lent. */
static void check_without_palette(void)
{
    struct source s = {WORDS[4], slice(block + 432, 256), NOTHING, 0, 0xffffffff, NOTHING};
    check_decoded(s, block_picture(4, 0));
    s.has_palette = 0xffffffff;
    check_decoded(s, block_picture(4, 0));
}

static void check_declined(struct source s, uint32_t refusal)
{
    CHECK(decode_is(s, 512, refusal, NOTHING));
    CHECK(decode_is(s, 0, refusal, NOTHING));
}

static void check_no_palette(void)
{
    for (uint32_t format = 1; format < 7; format++) {
        struct source s = with_word(format << 26);
        s.has_palette = 0;
        s.palette_off = 0xffffffff;
        check_declined(s, RASCLANYA_NO_PALETTE);
        s.data1 = NOTHING;
        check_declined(s, RASCLANYA_NO_PALETTE);
    }
}

static void check_no_texels(void)
{
    struct source s = with_word(0xe3ffffff);
    check_declined(s, RASCLANYA_NO_TEXELS);
    s.has_palette = 0;
    check_declined(s, RASCLANYA_NO_TEXELS);
    s.word = 0;
    check_declined(s, RASCLANYA_NO_TEXELS);
}

static void check_short_data(void)
{
    struct source s = compressed();
    s.data1.len--;
    check_declined(s, RASCLANYA_SHORT_DATA);
    s = compressed();
    s.data2.len--;
    check_declined(s, RASCLANYA_SHORT_DATA);
    s.data2 = NOTHING;
    check_declined(s, RASCLANYA_SHORT_DATA);
    s = with_word(0x04000000);
    s.data1.len--;
    check_declined(s, RASCLANYA_SHORT_DATA);
    s = (struct source){WORDS[4], slice(block + 432, 255), slice(block, BLOCK_LEN), 0, 0, NOTHING};
    check_declined(s, RASCLANYA_SHORT_DATA);
}

/* Data beyond the needed length is ignored. */
static void check_long_data(void)
{
    struct source s = compressed();
    s.data1.len += 5;
    s.data2.len += 3;
    check_decoded(s, block_picture(1, 20));
}

/* The word with all bits set: format 7, 1024 by 1024. */
static void check_largest_picture(void)
{
    static uint8_t data[MAX_PICTURE / 2];
    struct source s = {0xffffffff, slice(data, sizeof data), NOTHING, 0, 0, NOTHING};
    put_direct(data, MAX_PICTURE / 4);
    for (uint32_t k = 0; k < MAX_PICTURE / 4; k++) {
        put_texel(expected + 4 * (size_t)k, k & 0x7fff, k % 2 * 31);
    }
    CHECK(decode_is(s, MAX_PICTURE, 0, slice(expected, MAX_PICTURE)));
    CHECK(decode_is(s, MAX_PICTURE - 1, RASCLANYA_OUTPUT, NOTHING));
    s.data1.len--;
    CHECK(decode_is(s, MAX_PICTURE, RASCLANYA_SHORT_DATA, NOTHING));
}

/* ---- The listing. */

#define LISTED "textures 1\n0 leaf 3 8 8 repeat clamp transparent\npalettes 1\n0 leaf 0\n"

static void check_listing(struct slice input, const char *lines)
{
    size_t len = strlen(lines);
    CHECK(list_is(input, len, 0, lines));
    CHECK(list_is(input, len + 9, 0, lines));
    CHECK(list_is(input, RASCLANYA_MAX_LISTING, 0, lines));
    CHECK(list_is(input, RASCLANYA_MAX_LISTING - 1, 0, lines));
    CHECK(list_is(input, len - 1, RASCLANYA_OUTPUT, ""));
    CHECK(list_is(input, 0, RASCLANYA_OUTPUT, ""));
}

static void check_listings(void)
{
    static const uint8_t ZEROS[RASCLANYA_MAX_INPUT + 1];
    struct slice whole = slice(sample, SAMPLE_LEN);
    check_listing(whole, LISTED);
    check_listing(NOTHING, "refused 1 60\n");
    check_listing(first(207, whole), "refused 1 208\n");
    check_listing(far_palette_block(), "refused 1 4295491575\n");
    check_listing(sample_with(120, 5), "refused 6 0\n");
    check_listing(slice(ZEROS, RASCLANYA_MAX_INPUT), "refused 2 0\n");
    check_listing(slice(ZEROS, RASCLANYA_MAX_INPUT + 1), "refused 13 0\n");
}

/* ---- Lengths of more than 32 bits. Their low 32 bits alone are 3, which is too short for every call. */

#define LONG_LEN (((size_t)1 << 32) + 3)

/* Zeros, of which only those that are touched take memory. */
static void *long_zeros(size_t size)
{
    void *at = mmap(NULL, size, PROT_READ | PROT_WRITE, MAP_PRIVATE | MAP_ANONYMOUS | MAP_NORESERVE, -1, 0);
    if (at == MAP_FAILED) {
        perror("calls: no address space for a slice of more than 4 GiB");
        exit(EXIT_FAILURE);
    }
    return at;
}

/* The same behind a copy of some bytes. */
static uint8_t *long_bytes(struct slice start)
{
    uint8_t *at = long_zeros(LONG_LEN);
    memcpy(at, start.at, start.len);
    return at;
}

static void check_long_block(void)
{
    uint8_t *bytes = long_bytes(slice(block, BLOCK_LEN));
    struct slice b = slice(bytes, LONG_LEN);
    struct record r = {name_from(TEXTURE_NAME(0)), WORDS[0], 1, 2, 0};
    CHECK(read_tex_is(b, 0, TEXTURES, PALETTES, 0));
    CHECK(fetch_tex_is(b, 0, TEXTURES, PALETTES, 12, 0));
    CHECK(texture_is(b, 0, 16, 0, r, 0));
    CHECK(palette_is(b, 1, 16, 0, name_from(PALETTE_NAME(1)), 40, 0));
    CHECK(data1_is(b, 4, 0, 432, 256, 0));
    CHECK(data2_is(b, 1, 0, 352, 8, 0));
    CHECK(pal_block_is(b, 0, 64, 80, 0));
    CHECK(textures_are(b, MAX_ROWS, 0, ALL_TEXTURES, 0));
    CHECK(palettes_are(b, MAX_ROWS, 0, ALL_PALETTES, 0));
    CHECK(picture_is(b, 1, with_palette(1), 256, 0, block_picture(1, 20), 0));
    CHECK(fetch_picture_is(b, 1, with_palette(1), 256, 0, block_picture(1, 20), 12, 0));
    CHECK(list_is(b, 16, 0, "refused 13 0\n"));
    munmap(bytes, LONG_LEN);
}

/* Palette blocks of 0 and 8 bytes at the largest position that the header can name. */
static void check_far_palette_block(void)
{
    struct slice far = far_palette_block();
    put16(changed + 48, 0);
    uint8_t *bytes = long_bytes(far);
    CHECK(read_tex_is(slice(bytes, 0xfffffffe), RASCLANYA_SHORT, 0, 0, 0xffffffff));
    CHECK(read_tex_is(slice(bytes, 0xffffffff), 0, 1, 1, 0));
    put16(bytes + 48, 1);
    CHECK(read_tex_is(slice(bytes, LONG_LEN), RASCLANYA_SHORT, 0, 0, 0x100000007));
    munmap(bytes, LONG_LEN);
}

static void check_long_parts(void)
{
    struct source s = compressed();
    uint8_t *name = long_bytes(name_from(TEXTURE_NAME(0)));
    uint8_t *data1 = long_bytes(s.data1), *data2 = long_bytes(s.data2), *pal = long_bytes(s.pal);
    CHECK(print_safe_is(slice(name, LONG_LEN), 16, 0, text("ABCDEFGHIJKLMNOP")));
    CHECK(display_is(slice(name, LONG_LEN), 16, 0, text("ABCDEFGHIJKLMNOP")));
    s.data1 = slice(data1, LONG_LEN);
    CHECK(decode_is(s, 256, 0, block_picture(1, 20)));
    s.data2 = slice(data2, LONG_LEN);
    CHECK(decode_is(s, 256, 0, block_picture(1, 20)));
    s.pal = slice(pal, LONG_LEN);
    CHECK(decode_is(s, 256, 0, block_picture(1, 20)));
    munmap(name, LONG_LEN);
    munmap(data1, LONG_LEN);
    munmap(data2, LONG_LEN);
    munmap(pal, LONG_LEN);
}

/* Whether the bytes begin with the text and go on with zeros. Clears the text. */
static bool begins(uint8_t *bytes, struct slice start)
{
    bool same = memcmp(bytes, start.at, start.len) == 0 && bytes[start.len] == 0;
    memset(bytes, 0, start.len);
    return same;
}

static void check_long_outputs(void)
{
    struct source s = compressed();
    uint8_t *to = long_bytes(NOTHING);
    uint32_t word, wrap_s, wrap_t, alpha;
    size_t len, short_answers, needed;
    struct slice name = name_from(TEXTURE_NAME(0));
    struct slice picture = block_picture(1, 20);
    CHECK(rasclanya_texture(block, BLOCK_LEN, 0, to, LONG_LEN, &word, &wrap_s, &wrap_t, &alpha, &needed) == 0 && begins(to, name));
    CHECK(rasclanya_palette(block, BLOCK_LEN, 1, to, LONG_LEN, &word, &needed) == 0 && begins(to, name_from(PALETTE_NAME(1))));
    CHECK(rasclanya_print_safe(sample + 88, 16, to, LONG_LEN, &len) == 0 && begins(to, text("leaf")));
    CHECK(rasclanya_display(sample + 88, 16, to, LONG_LEN, &len) == 0 && begins(to, text("leaf")));
    CHECK(rasclanya_decode_texture(s.word, lent(s.data1), s.data1.len, lent(s.data2), s.data2.len, 1, 40, lent(s.pal), s.pal.len,
                                   to, LONG_LEN, &len) == 0 && begins(to, picture));
    CHECK(rasclanya_picture(block, BLOCK_LEN, 1, 1, 1, to, LONG_LEN, &len, &needed) == 0 && begins(to, picture));
    CHECK(rasclanya_fetch_picture(block, BLOCK_LEN, 1, 1, 1, to, LONG_LEN, &len, &short_answers, &needed) == 0 && begins(to, picture));
    CHECK(rasclanya_list(sample, SAMPLE_LEN, to, LONG_LEN, &len) == 0 && begins(to, text(LISTED)));
    munmap(to, LONG_LEN);
}

static void check_long_rows(void)
{
    size_t *to = long_zeros(LONG_LEN * sizeof(size_t));
    size_t len, needed;
    CHECK(rasclanya_textures(block, BLOCK_LEN, to, LONG_LEN, &len, &needed) == 0 && memcmp(to, TEXTURE_ROWS, sizeof TEXTURE_ROWS) == 0);
    CHECK(rasclanya_palettes(block, BLOCK_LEN, to, LONG_LEN, &len, &needed) == 0 && memcmp(to, PALETTE_ROWS, sizeof PALETTE_ROWS) == 0);
    munmap(to, LONG_LEN * sizeof(size_t));
}

/* ---- The program. */

static void read_sample(const char *path)
{
    FILE *file = fopen(path, "rb");
    if (file == NULL || fread(sample, 1, SAMPLE_LEN, file) != SAMPLE_LEN || fgetc(file) != EOF) {
        fprintf(stderr, "calls: %s is not the sample of 208 bytes\n", path);
        exit(EXIT_FAILURE);
    }
    fclose(file);
}

static void check_block_calls(struct slice b)
{
    check_refusals();
    check_counts(b);
    check_textures(b);
    check_palettes(b);
    check_largest_offset();
    check_data(b);
    check_rows(b);
    check_many_rows(0);
    check_many_rows(1);
    check_many_rows(MOST);
    check_pictures(b);
    check_no_pictures(b);
}

static void check_names(void)
{
    check_name_texts();
    check_name_lengths();
    check_name_limits();
}

static void check_decodings(void)
{
    check_formats();
    check_palette_ends();
    check_has_palette();
    check_without_palette();
    check_no_palette();
    check_no_texels();
    check_short_data();
    check_long_data();
    check_largest_picture();
}

static void check_long_slices(void)
{
    check_long_block();
    check_far_palette_block();
    check_long_parts();
    check_long_outputs();
    check_long_rows();
}

static void check_slices(void)
{
    check_block_calls(slice(block, BLOCK_LEN));
    check_names();
    check_decodings();
    check_listings();
    check_long_slices();
}

int main(int argc, char **argv)
{
    if (argc != 2) {
        fputs("use: calls SAMPLE\n", stderr);
        return EXIT_FAILURE;
    }
    read_sample(argv[1]);
    make_block();
    check_texts();
    check_words();
    check_slices();
    empty_is_null = true;
    check_slices();
    printf("%zu calls checked, %zu failed\n", checked, failed);
    return failed == 0 ? EXIT_SUCCESS : EXIT_FAILURE;
}
