#include "tint.h"
#include "colour.h"
#include <stdlib.h>
#include <string.h>

/* Of Okabe and Ito's colours the four that hue alone tells apart best, for colour-blind viewers too: how bright they are is luma's. */
static const struct colour palette[] = {
    {{0, 114, 178}, "blue"}, {{230, 159, 0}, "orange"}, {{0, 158, 115}, "green"}, {{204, 121, 167}, "purple"}};
enum { COLOURS = sizeof palette / sizeof *palette };

static uint8_t segment_of(const struct picture *p, size_t block) {
    return p->memory.strengths[HOOKBARLEY_STRENGTH_BYTES * block + HOOKBARLEY_STRENGTH_SEGMENT];
}

static uint8_t small_of(const struct picture *p, size_t block) {
    return p->memory.strengths[HOOKBARLEY_STRENGTH_BYTES * block + HOOKBARLEY_STRENGTH_SMALL];
}

/* Without marks what is kept is whole. */
static uint8_t mark_of(const struct picture *p, size_t block) {
    return p->marks ? p->marks[block] : HOOKBARLEY_MARK_WHOLE;
}

/* The byte of a macroblock that decides, and what each of its values says; value k has colour k. */
struct tint_kind {
    const char *name;
    uint8_t (*byte_of)(const struct picture *, size_t block);
    size_t values;
    const char *words[COLOURS];
};

static const struct tint_kind kinds[] = {
    [TINT_SEGMENTS] = {"segments", segment_of, 4, {"segment 0", "segment 1", "segment 2", "segment 3"}},
    [TINT_MODES] = {"modes", small_of, 2, {"large", "small"}},
    [TINT_MARKS] = {"marks", mark_of, 2, {[HOOKBARLEY_MARK_WHOLE] = "whole", [HOOKBARLEY_MARK_MODES] = "soft"}},
};

enum tint tint_of(const char *name) {
    for (enum tint tint = TINT_SEGMENTS; tint <= TINT_MARKS; tint++)
        if (!strcmp(name, kinds[tint].name)) return tint;
    return TINT_NONE;
}

size_t tint_values(enum tint tint) { return kinds[tint].values; }

const char *tint_words(enum tint tint, size_t value) { return kinds[tint].words[value]; }

const uint8_t *tint_colour(size_t value) { return palette[value].rgb; }

/* The value of a kept macroblock. That it is one of the kind's is proved; the remainder keeps any byte inside the palette. */
static size_t value_of(const struct tint_kind *kind, const struct picture *p, size_t block) {
    return kind->byte_of(p, block) % kind->values;
}

size_t tint_value(enum tint tint, const struct picture *p, size_t block) { return value_of(&kinds[tint], p, block); }

static void tint_row(uint8_t *row, const struct tint_kind *kind, const struct picture *p, size_t y) {
    const uint8_t *luma = p->memory.y + y * p->tile.width;
    size_t first = y / 16 * (p->tile.width / 16);
    for (size_t x = 0; x < p->tile.true_width; x++) {
        size_t block = first + x / 16;
        colour_over(row + 3 * x, block < p->kept ? &palette[value_of(kind, p, block)] : NULL, luma[x]);
    }
}

int tint_write(FILE *out, enum tint tint, const struct picture *p) {
    size_t width = p->tile.true_width, height = p->tile.true_height;
    if (fprintf(out, "P6\n%zu %zu\n255\n", width, height) < 0) return 0;
    uint8_t *row = memory(3 * width);
    int good = 1;
    for (size_t y = 0; good && y < height; y++) {
        tint_row(row, &kinds[tint], p, y);
        good = fwrite(row, 3, width, out) == width;
    }
    free(row);
    return good;
}

void tint_print(FILE *out, enum tint tint, const struct picture *p) {
    const struct tint_kind *kind = &kinds[tint];
    size_t counts[COLOURS] = {0};
    for (size_t block = 0; block < p->kept; block++) counts[value_of(kind, p, block)]++;
    for (size_t k = 0; k < kind->values; k++) fprintf(out, "%s%s %s %zu", k ? ", " : "  ", kind->words[k], palette[k].words, counts[k]);
    if (p->kept < p->blocks) fprintf(out, ", unfinished grey %zu", p->blocks - p->kept);
    fprintf(out, "\n");
}
