/* Prints what a TEX0 block has: example FILE. */
#include "rasclanya.h"

#include <stdio.h>
#include <stdlib.h>

static const char *const WRAPS[] = {"clamp", "repeat", "mirror"};
static const char *const ALPHAS[] = {"opaque", "transparent", "translucent"};

struct block {
    uint8_t *bytes;
    size_t len;
};

/* Memory of len bytes, of which there is at least one. */
static uint8_t *room(uint8_t *old, size_t len)
{
    uint8_t *bytes = realloc(old, len);
    if (bytes == NULL) {
        fputs("example: out of memory\n", stderr);
        exit(EXIT_FAILURE);
    }
    return bytes;
}

/* All bytes of the file. */
static struct block read_all(FILE *file)
{
    struct block block = {NULL, 0};
    size_t got;
    do {
        block.bytes = room(block.bytes, block.len + BUFSIZ);
        got = fread(block.bytes + block.len, 1, BUFSIZ, file);
        block.len += got;
    } while (got > 0);
    return block;
}

/* The block in the file of the path. The program ends where it cannot be read. */
static struct block read_block(const char *path)
{
    FILE *file = fopen(path, "rb");
    if (file == NULL) {
        perror(path);
        exit(EXIT_FAILURE);
    }
    struct block block = read_all(file);
    if (ferror(file)) {
        perror(path);
        exit(EXIT_FAILURE);
    }
    fclose(file);
    return block;
}

/* The name as letters, digits and `_`. Every such text has room in RASCLANYA_NAME_LEN bytes, so the call is not refused. */
static void print_name(const uint8_t *name)
{
    uint8_t text[RASCLANYA_NAME_LEN];
    size_t len = 0;
    rasclanya_print_safe(name, RASCLANYA_NAME_LEN, text, sizeof text, &len);
    printf("%.*s", (int)len, (const char *)text);
}

/* The length of the picture of texture n, with palette 0 or with none, or why there is no picture. */
static void print_picture(struct block block, size_t n, uint32_t word, uint32_t has_palette)
{
    size_t size = (size_t)4 * rasclanya_width(word) * rasclanya_height(word);
    uint8_t *picture = room(NULL, size);
    size_t len, needed;
    uint32_t refusal = rasclanya_picture(block.bytes, block.len, n, has_palette, 0, picture, size, &len, &needed);
    if (refusal == 0) {
        printf(", picture of %zu bytes\n", len);
    } else {
        printf(", no picture: %s\n", rasclanya_refusal_text(refusal));
    }
    free(picture);
}

/* A line for texture n. */
static void print_texture(struct block block, size_t n, uint32_t has_palette)
{
    uint8_t name[RASCLANYA_NAME_LEN];
    uint32_t word, wrap_s, wrap_t, alpha;
    size_t needed;
    uint32_t refusal =
        rasclanya_texture(block.bytes, block.len, n, name, sizeof name, &word, &wrap_s, &wrap_t, &alpha, &needed);
    if (refusal != 0) {
        printf("texture %zu: %s\n", n, rasclanya_refusal_text(refusal));
        return;
    }
    printf("texture %zu ", n);
    print_name(name);
    printf(": format %u, %u by %u, %s %s, %s", (unsigned)rasclanya_format(word), (unsigned)rasclanya_width(word),
           (unsigned)rasclanya_height(word), WRAPS[wrap_s], WRAPS[wrap_t], ALPHAS[alpha]);
    print_picture(block, n, word, has_palette);
}

/* A line for palette n. */
static void print_palette(struct block block, size_t n)
{
    uint8_t name[RASCLANYA_NAME_LEN];
    uint32_t off;
    size_t needed;
    uint32_t refusal = rasclanya_palette(block.bytes, block.len, n, name, sizeof name, &off, &needed);
    if (refusal != 0) {
        printf("palette %zu: %s\n", n, rasclanya_refusal_text(refusal));
        return;
    }
    printf("palette %zu ", n);
    print_name(name);
    printf(": offset %lu\n", (unsigned long)off);
}

/* All textures and palettes, or the refusal, which is also the answer of this function. */
static uint32_t print_block(struct block block)
{
    size_t textures, palettes, short_answers, needed;
    uint32_t refusal = rasclanya_fetch_tex(block.bytes, block.len, &textures, &palettes, &short_answers, &needed);
    if (refusal != 0) {
        printf("%s, needed length %zu, short answers %zu\n", rasclanya_refusal_text(refusal), needed, short_answers);
        return refusal;
    }
    printf("textures %zu, palettes %zu, short answers %zu\n", textures, palettes, short_answers);
    for (size_t n = 0; n < textures; n++) {
        print_texture(block, n, palettes > 0 ? RASCLANYA_WITH_PALETTE : RASCLANYA_WITHOUT_PALETTE);
    }
    for (size_t n = 0; n < palettes; n++) {
        print_palette(block, n);
    }
    return 0;
}

int main(int argc, char **argv)
{
    if (argc != 2) {
        fputs("use: example FILE\n", stderr);
        return EXIT_FAILURE;
    }
    struct block block = read_block(argv[1]);
    uint32_t refusal = print_block(block);
    free(block.bytes);
    return refusal == 0 ? EXIT_SUCCESS : EXIT_FAILURE;
}
