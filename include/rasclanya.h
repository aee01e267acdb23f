/* Reading TEX0 blocks (Nintendo DS textures) and decoding their textures to RGBA pictures: the C interface of the archive libcapi.a,
   for x86-64 Linux. tools/archive writes the archive to target/staticlib/. What a block is, and what each number means: docs/FORMAT.md.

   Rules that hold for every call:

   - A slice is a pointer to bytes, or to numbers, and how many there are. Where the length is 0 the pointer is not followed, and may be NULL:
     `NULL, 0` is the empty slice. Else the pointer is not NULL, is aligned for its type, and the slice lies within one object.
   - Every other pointer is to one number, aligned for its type, and never NULL.
   - What is lent for writing (a pointer that is not to const) overlaps nothing else that is lent to the same call. What is only read may
     overlap.
   - The answer is 0, or the number of the refusal. A refused call changes nothing that it is lent but *needed, and *short_answers in the
     fetching calls; a call that is not refused writes every number that it is lent for writing.
   - *needed, where there is one, is always written: for RASCLANYA_SHORT the length of the block at which the call gets further, and
     else 0.
   - A call that writes to a slice leaves what lies behind the result as it was.
   - The readers of a texture word, and rasclanya_version, take no pointer and are never refused.
   - Every call ends, for all arguments that keep to these rules. No call keeps a pointer, allocates memory or has a state, so calls may be
     made from several threads at once, as long as none writes what another is lent. */
#ifndef RASCLANYA_H
#define RASCLANYA_H

#include <stdbool.h>
#include <stddef.h>
#include <stdint.h>

#ifdef __cplusplus
extern "C" {
#endif

/* The version of this header: 10,000 times the first number, 100 times the second, and the third. */
#define RASCLANYA_VERSION 200

/* The version of the archive. A header and an archive of one version belong together. */
uint32_t rasclanya_version(void);

/* Why a call is refused. Where several causes hold, the comment of a call gives the order in which they are told. */
enum {
    RASCLANYA_SHORT = 1,              /* the block is too short; *needed says how long it has to be */
    RASCLANYA_STAMP = 2,              /* the block does not begin with TEX0 */
    RASCLANYA_TEXTURE_DUMMY = 3,      /* the texture list's dummy is not 0 */
    RASCLANYA_TEXTURE_DATUM_SIZE = 4, /* the texture list's datum size is not 8 */
    RASCLANYA_PALETTE_DUMMY = 5,      /* the palette list's dummy is not 0 */
    RASCLANYA_PALETTE_DATUM_SIZE = 6, /* the palette list's datum size is not 4 */
    RASCLANYA_TEXTURE_NUMBER = 7,     /* the texture's number is not below the count of textures */
    RASCLANYA_PALETTE_NUMBER = 8,     /* the palette's number is not below the count of palettes */
    RASCLANYA_NO_PALETTE = 9,         /* the texture has a format of 1 to 6, and no palette was chosen */
    RASCLANYA_NO_TEXELS = 10,         /* the texture has format 0, which has no texels */
    RASCLANYA_OUTPUT = 11,            /* the output is shorter than the result */
    RASCLANYA_SHORT_DATA = 12         /* the data, or the second data for format 5, are shorter than the word says */
};

/* The same refusals under names that say what they are, and one that no call answers with: it stands in the text of a listing alone. */
enum {
    RASCLANYA_REFUSED_SHORT = 1,
    RASCLANYA_REFUSED_STAMP = 2,
    RASCLANYA_REFUSED_TEXTURE_DUMMY = 3,
    RASCLANYA_REFUSED_TEXTURE_DATUM_SIZE = 4,
    RASCLANYA_REFUSED_PALETTE_DUMMY = 5,
    RASCLANYA_REFUSED_PALETTE_DATUM_SIZE = 6,
    RASCLANYA_REFUSED_TEXTURE_NUMBER = 7,
    RASCLANYA_REFUSED_PALETTE_NUMBER = 8,
    RASCLANYA_REFUSED_NO_PALETTE = 9,
    RASCLANYA_REFUSED_NO_TEXELS = 10,
    RASCLANYA_REFUSED_OUTPUT = 11,
    RASCLANYA_REFUSED_SHORT_DATA = 12,
    RASCLANYA_REFUSED_INPUT = 13 /* the input of a listing is too long */
};

/* A refusal in words, as a text that stays: of 0 "not refused", and of any other number that no refusal has "no refusal has this number". */
static inline const char *rasclanya_refusal_text(uint32_t number)
{
    switch (number) {
    case 0: return "not refused";
    case RASCLANYA_REFUSED_SHORT: return "the block is too short";
    case RASCLANYA_REFUSED_STAMP: return "the block does not begin with TEX0";
    case RASCLANYA_REFUSED_TEXTURE_DUMMY: return "the texture list's dummy is not 0";
    case RASCLANYA_REFUSED_TEXTURE_DATUM_SIZE: return "the texture list's datum size is not 8";
    case RASCLANYA_REFUSED_PALETTE_DUMMY: return "the palette list's dummy is not 0";
    case RASCLANYA_REFUSED_PALETTE_DATUM_SIZE: return "the palette list's datum size is not 4";
    case RASCLANYA_REFUSED_TEXTURE_NUMBER: return "there is no texture of this number";
    case RASCLANYA_REFUSED_PALETTE_NUMBER: return "there is no palette of this number";
    case RASCLANYA_REFUSED_NO_PALETTE: return "the texture's format needs a palette";
    case RASCLANYA_REFUSED_NO_TEXELS: return "the texture has format 0, which has no texels";
    case RASCLANYA_REFUSED_OUTPUT: return "the output is shorter than the result";
    case RASCLANYA_REFUSED_SHORT_DATA: return "the data are shorter than the texture word says";
    case RASCLANYA_REFUSED_INPUT: return "the input has more than 65536 bytes";
    default: return "no refusal has this number";
    }
}

/* What has_palette says: whether a palette is chosen. Every other number is as RASCLANYA_WITH_PALETTE. */
enum {
    RASCLANYA_WITHOUT_PALETTE = 0,
    RASCLANYA_WITH_PALETTE = 1
};

/* What a texture does beyond its edges, along one axis. */
enum {
    RASCLANYA_CLAMP = 0,
    RASCLANYA_REPEAT = 1,
    RASCLANYA_MIRROR = 2
};

/* Which alphas a texture's texels can have. */
enum {
    RASCLANYA_OPAQUE = 0,      /* every texel is solid */
    RASCLANYA_TRANSPARENT = 1, /* a texel is solid or clear */
    RASCLANYA_TRANSLUCENT = 2  /* a texel has any alpha */
};

/* The length of a name. */
#define RASCLANYA_NAME_LEN 16
/* The longest text that rasclanya_display writes. That of rasclanya_print_safe has at most RASCLANYA_NAME_LEN bytes. */
#define RASCLANYA_MAX_DISPLAY 32
/* The longest input that rasclanya_list reads. */
#define RASCLANYA_MAX_INPUT 65536
/* An output of this length has room for every text that rasclanya_list writes. */
#define RASCLANYA_MAX_LISTING 22211

/* How many textures, and how many palettes, a block has at most. */
#define RASCLANYA_MAX_COUNT 255
/* How many numbers rasclanya_textures writes for a texture, and rasclanya_palettes for a palette. */
#define RASCLANYA_TEXTURE_ROW 6
#define RASCLANYA_PALETTE_ROW 2

/* ---- The texture word: a texture's size, format and addressing in 32 bits. */

/* Where the texture's data begin, in bytes, from the start of the data of all textures: a multiple of 8. */
uint32_t rasclanya_offset(uint32_t word);

/* The repeat bits and the mirror bits, in S and in T. rasclanya_wrap_s and rasclanya_wrap_t say what they come to. */
bool rasclanya_repeat_s(uint32_t word);
bool rasclanya_repeat_t(uint32_t word);
bool rasclanya_mirror_s(uint32_t word);
bool rasclanya_mirror_t(uint32_t word);

/* The size in texels: 8, 16, 32, 64, 128, 256, 512 or 1024. A picture has 4 * width * height bytes, at most 4,194,304. */
uint32_t rasclanya_width(uint32_t word);
uint32_t rasclanya_height(uint32_t word);

/* The format, 0 to 7. */
uint8_t rasclanya_format(uint32_t word);

/* Whether colour 0 is clear, in formats 2 to 4. */
bool rasclanya_is_color0_transparent(uint32_t word);

/* The transform mode of texture coordinates, 0 to 3. */
uint8_t rasclanya_texcoord_transform_mode(uint32_t word);

/* RASCLANYA_MIRROR where the mirror bit is set, else RASCLANYA_REPEAT where the repeat bit is set, else RASCLANYA_CLAMP. */
uint32_t rasclanya_wrap_s(uint32_t word);
uint32_t rasclanya_wrap_t(uint32_t word);

/* RASCLANYA_OPAQUE, RASCLANYA_TRANSPARENT or RASCLANYA_TRANSLUCENT, by the format and, in formats 2 to 4, by whether colour 0 is clear. */
uint32_t rasclanya_alpha_type(uint32_t word);

/* The length of the texture's data, of the first data for format 5, in bytes: 0 for format 0. */
size_t rasclanya_byte_len(uint32_t word);

/* The length of the second data, in bytes: half that of the first for format 5, and 0 for the others. */
size_t rasclanya_byte_len2(uint32_t word);

/* ---- Blocks. Each of these calls reads the block, which need not be well-formed, and may be only the first bytes of one that is still
   arriving: a refusal of the reading is 1 to 6, and the first in the order of reading is told. That order is: the header's 60 bytes (1),
   the stamp (2), the palette block (1), the texture list (1), its dummy (3), its datum size (4), each texture's data in list order (1), the
   palette list (1), its dummy (5), its datum size (6). An answer other than 1 holds for the block whatever bytes follow. */

/* How many textures and palettes the block has: 0 to 255 each.
   Refusals: those of the reading. */
uint32_t rasclanya_read_tex(const uint8_t *block, size_t block_len, size_t *textures, size_t *palettes, size_t *needed);

/* The record of texture n, counted from 0: its name, which is written to the first RASCLANYA_NAME_LEN bytes of the output, its texture
   word, and what the word says of wrapping and alpha.
   Refusals: those of the reading, then 7, then 11 where name_len is below RASCLANYA_NAME_LEN. */
uint32_t rasclanya_texture(const uint8_t *block, size_t block_len, size_t n, uint8_t *name, size_t name_len,
                           uint32_t *word, uint32_t *wrap_s, uint32_t *wrap_t, uint32_t *alpha, size_t *needed);

/* The record of palette n, counted from 0: its name, which is written to the first RASCLANYA_NAME_LEN bytes of the output, and its offset
   in bytes from the palette block's start, which may lie beyond the block's end.
   Refusals: those of the reading, then 8, then 11 where name_len is below RASCLANYA_NAME_LEN. */
uint32_t rasclanya_palette(const uint8_t *block, size_t block_len, size_t n, uint8_t *name, size_t name_len,
                           uint32_t *off, size_t *needed);

/* Where in the block the data of texture n are, or the first data for format 5: *len bytes at *pos. A part of 0 bytes has position 0.
   Refusals: those of the reading, then 7. */
uint32_t rasclanya_texture_data1(const uint8_t *block, size_t block_len, size_t n, size_t *pos, size_t *len, size_t *needed);

/* The same for the second data, which are empty for other formats than 5. */
uint32_t rasclanya_texture_data2(const uint8_t *block, size_t block_len, size_t n, size_t *pos, size_t *len, size_t *needed);

/* Where in the block the palette block is, which all palettes share: *len bytes at *pos. A part of 0 bytes has position 0.
   Refusals: those of the reading. */
uint32_t rasclanya_pal_block(const uint8_t *block, size_t block_len, size_t *pos, size_t *len, size_t *needed);

/* All textures from one reading: a row of RASCLANYA_TEXTURE_ROW numbers for each, in list order, and how many numbers that are in *len.
   The numbers of a row: where in the block the name begins, which has RASCLANYA_NAME_LEN bytes; the texture word; where the data begin, or
   the first data for format 5, and how many bytes they are; and the same of the second data. A part of 0 bytes has position 0. The rows
   have room in RASCLANYA_MAX_COUNT * RASCLANYA_TEXTURE_ROW numbers.
   Refusals: those of the reading, then 11. */
uint32_t rasclanya_textures(const uint8_t *block, size_t block_len, size_t *rows, size_t rows_len, size_t *len, size_t *needed);

/* All palettes from one reading: a row of RASCLANYA_PALETTE_ROW numbers for each, in list order, and how many numbers that are in *len. The
   numbers of a row: where in the block the name begins, which has RASCLANYA_NAME_LEN bytes, and the offset in bytes from the palette
   block's start. The rows have room in RASCLANYA_MAX_COUNT * RASCLANYA_PALETTE_ROW numbers.
   Refusals: those of the reading, then 11. */
uint32_t rasclanya_palettes(const uint8_t *block, size_t block_len, size_t *rows, size_t rows_len, size_t *len, size_t *needed);

/* ---- Names: of the bytes lent, the first RASCLANYA_NAME_LEN; fewer count as padded with zeros. Trailing zeros are no part of a text. */

/* Writes the name as letters, digits and `_`, of which there is at least one, and its length to *len: 1 to 16 bytes. Every other byte
   becomes `_`, and an empty name is `_`. No zero is written behind the text.
   Refusals: 11. */
uint32_t rasclanya_print_safe(const uint8_t *name, size_t name_len, uint8_t *out, size_t out_len, size_t *len);

/* Writes the name in UTF-8, each byte as the character of that number, with `.` for each byte below 20 hex, and its length to *len: 0 to
   RASCLANYA_MAX_DISPLAY bytes. No zero is written behind the text.
   Refusals: 11. */
uint32_t rasclanya_display(const uint8_t *name, size_t name_len, uint8_t *out, size_t out_len, size_t *len);

/* ---- Pictures: by rows from the top left, for each texel a byte of red, green, blue and alpha. *len is the picture's length,
   4 * width * height. has_palette is RASCLANYA_WITHOUT_PALETTE or RASCLANYA_WITH_PALETTE. */

/* Decodes a texture whose data need not stand in a block: its word, its data, its second data (for format 5 only), and the palette at
   palette_off of the palette block. Data beyond the length that the word says are ignored. A colour that does not lie wholly inside the
   palette block is 0. Without a palette, palette_off and pal are ignored.
   Refusals, in this order: 9, 10, 12, 11. */
uint32_t rasclanya_decode_texture(uint32_t word, const uint8_t *data1, size_t data1_len, const uint8_t *data2, size_t data2_len,
                                  uint32_t has_palette, uint32_t palette_off, const uint8_t *pal, size_t pal_len,
                                  uint8_t *out, size_t out_len, size_t *len);

/* Reads the block and decodes its texture n, with its palette of number `palette` or with none.
   Refusals: those of the reading, then 7, 8 (also where the texture needs no palette), 9, 10, 12, 11. */
uint32_t rasclanya_picture(const uint8_t *block, size_t block_len, size_t n, uint32_t has_palette, size_t palette,
                           uint8_t *out, size_t out_len, size_t *len, size_t *needed);

/* ---- Fetching: a call over a whole block that reads its first 0 bytes, and then as many as the last answer needed, until an answer is not
   short or needs more than the block has. The answer, its refusals and what is written are those of the call on the whole block.
   *short_answers is always written: how many of the answers were short, the last included. */

/* Fetches what rasclanya_read_tex answers. */
uint32_t rasclanya_fetch_tex(const uint8_t *block, size_t block_len, size_t *textures, size_t *palettes,
                             size_t *short_answers, size_t *needed);

/* Fetches what rasclanya_picture answers. */
uint32_t rasclanya_fetch_picture(const uint8_t *block, size_t block_len, size_t n, uint32_t has_palette, size_t palette,
                                 uint8_t *out, size_t out_len, size_t *len, size_t *short_answers, size_t *needed);

/* ---- The listing of a block as text. */

/* Writes the listing's lines, each ended by 0A hex, and their length to *len: `textures` and their count; for each texture its number,
   safe name, format, width, height, wrap in S, wrap in T and alpha; `palettes` and their count; for each palette its number, safe name
   and offset in bytes. A block that is refused gives the one line `refused`, the refusal's number and the needed length or 0, and an input
   longer than RASCLANYA_MAX_INPUT gives `refused 13 0`: these are texts, and the call's answer is 0.
   Refusals: 11. */
uint32_t rasclanya_list(const uint8_t *input, size_t input_len, uint8_t *out, size_t out_len, size_t *len);

#ifdef __cplusplus
}
#endif

#endif
