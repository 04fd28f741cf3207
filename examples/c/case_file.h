/* A case file taken apart into what hookbarley_decode takes. Its numbers are big-endian: version (1 byte), length of the rest (4), width,
 * height (2 each), count (1), the header's entries (2 each, signed), the lengths of the first partition and of the token partitions (4
 * each), their bytes. Its first partition holds modes alone. */
#ifndef CASE_FILE_H
#define CASE_FILE_H

#include "hookbarley.h"
#include <stdio.h>
#include <stdlib.h>
#include <string.h>

enum { CASE_HEADER = 10, CASE_LENGTHS = CASE_HEADER + 2 * HOOKBARLEY_ENTRIES };

struct case_file {
    uint8_t bytes[1 << 22];
    size_t length;
    size_t places; /* where the first partition starts */
    int32_t header[HOOKBARLEY_ENTRIES];
    struct hookbarley_tile tile;
};

static inline size_t case_number(const uint8_t *p, int bytes) {
    size_t x = 0;
    while (bytes--) x = x << 8 | *p++;
    return x;
}

/* The reader at the start of the first partition: two bytes in its window, 0 for one past its end. */
static inline void case_open(const uint8_t *bytes, struct hookbarley_tile *t) {
    const uint8_t *first = bytes + t->first_start;
    t->at = 2, t->range = 255, t->shifts = 0;
    t->window = (t->first_length > 0 ? first[0] * 256u : 0) + (t->first_length > 1 ? first[1] : 0);
}

/* Reads a file: 1, or 0 where it is malformed. One that cannot be read ends the program with status 2. */
static inline int case_read(const char *path, struct case_file *c) {
    FILE *f = fopen(path, "rb");
    if (!f) { perror(path); exit(2); }
    c->length = fread(c->bytes, 1, sizeof c->bytes, f);
    fclose(f);
    const uint8_t *b = c->bytes, *lengths = b + CASE_LENGTHS;
    size_t count = b[9], at = c->places = CASE_LENGTHS + 4 * (1 + count);
    if (c->length < CASE_LENGTHS + 4 || b[0] != 1 || case_number(b + 1, 4) + 5 != c->length || c->length < c->places) return 0;
    for (int i = 0; i < HOOKBARLEY_ENTRIES; i++) c->header[i] = (int16_t)case_number(b + CASE_HEADER + 2 * i, 2);
    memset(&c->tile, 0, sizeof c->tile);
    c->tile.width = c->tile.true_width = case_number(b + 5, 2);
    c->tile.height = c->tile.true_height = case_number(b + 7, 2);
    c->tile.count = count;
    c->tile.first_start = at;
    at += c->tile.first_length = case_number(lengths, 4);
    for (size_t i = 0; i < count; i++) {
        size_t length = case_number(lengths + 4 * (1 + i), 4);
        if (i < HOOKBARLEY_PARTITIONS) c->tile.token_starts[i] = at, c->tile.token_lengths[i] = length;
        at += length;
    }
    if (at != c->length) return 0;
    case_open(b, &c->tile);
    return 1;
}

/* Whether hookbarley_decode takes this width or height. */
static inline int case_side(size_t n) { return n >= 16 && n <= 16384 && n % 16 == 0; }

#endif
