/* Calls on tiles drawn from the seed: valid, damaged and absurd ones. */
#ifndef DRAWN_CALLS_H
#define DRAWN_CALLS_H

#include "tile_calls.h"

static inline void fill(uint8_t *p, size_t n) {
    switch (below(5)) {
    case 0: memset(p, 0, n); break;
    case 1: memset(p, 255, n); break;
    case 2: memset(p, (int)below(256), n); break;
    default: while (n--) *p++ = (uint8_t)draw();
    }
}

/* Token partition p has bytes and shares none with another that is read. */
static inline int alone(const struct call *c, size_t p) {
    const struct hookbarley_tile *t = &c->tile;
    size_t a = t->token_starts[p], b = a + t->token_lengths[p];
    if (a == b) return 0;
    if (t->first_start < b && a < t->first_start + t->first_length) return 0;
    for (size_t i = 0; i < t->count; i++)
        if (i != p && t->token_starts[i] < b && a < t->token_starts[i] + t->token_lengths[i]) return 0;
    return 1;
}

/* A valid call with random content. */
static inline void invent(struct call *c) {
    struct hookbarley_tile *t = &c->tile;
    t->count = 1 + below(8);
    t->first_start = below(4);
    t->first_length = below(62);
    size_t at = t->first_start + t->first_length;
    for (size_t i = 0; i < 8; i++) {
        t->token_starts[i] = at;
        at += t->token_lengths[i] = below(below(4) ? 42 : 402);
    }
    c->n = at + below(4);
    fill(c->bytes, c->n);
    t->width = 16 * (1 + below(below(4) ? 2 : 4));
    t->height = 16 * (1 + below(below(4) ? 2 : 4));
    t->true_width = draw(), t->true_height = draw(), t->simple = draw(); /* not looked at */
    lengths_of(t->width, t->height, c->lent);
    int legal = (int)below(2);
    for (int i = 0; i < HOOKBARLEY_ENTRIES; i++) {
        int of_map = i >= HOOKBARLEY_HEADER_MAP_PROBABILITY && i < HOOKBARLEY_HEADER_MAP_PROBABILITY + 3;
        int probability = of_map || i >= HOOKBARLEY_HEADER_COEFFICIENTS;
        c->header[i] = !legal ? (int)below(511) - 255 : probability ? (int)below(256) : (int)below(64) * !below(3);
    }
    c->header_len = HOOKBARLEY_ENTRIES;
    c->tile_len = HOOKBARLEY_TILE_NUMBERS;
    case_open(c->bytes, t);
}

static inline size_t wild(size_t n) {
    size_t top = SIZE_MAX, w[] = {0, 1, 2, 3, n, n - 1, n + 1, n / 2, top, top - 1, top - n, top - n + 1, (size_t)1 << 63, (size_t)1 << 32};
    size_t i = below(sizeof w / sizeof *w + 2);
    return i < sizeof w / sizeof *w ? w[i] : below(n + 1);
}

static inline void resize(struct call *c) {
    static const size_t two32 = (size_t)1 << 32;
    const size_t absurd[] = {0, 1, 15, 17, 24, 16385, 16400, 65536, two32, two32 + 16, SIZE_MAX, SIZE_MAX - 15, (size_t)1 << 60};
    struct hookbarley_tile *t = &c->tile;
    if (below(3) == 0) {
        *(below(2) ? &t->width : &t->height) = absurd[below(sizeof absurd / sizeof *absurd)];
        return;
    }
    t->width = 16 * (1 + below(5));
    t->height = 16 * (1 + below(5));
    if (below(500) == 0) { t->width = 16384; t->height = 16; }
    if (below(500) == 0) { t->width = 16; t->height = 16384; }
    if (below(10)) lengths_of(t->width, t->height, c->lent);
}

/* A reader out of range; half of them would be in range if only their lower 32 bits counted. */
static inline void spoil_reader(struct hookbarley_tile *t) {
    static const size_t two32 = (size_t)1 << 32;
    switch (below(7)) {
    case 0: t->at = wild(t->first_length); break;
    case 1: t->range = below(2) ? below(128) : 256 + below(1000); break;
    case 2: t->shifts = below(2) ? 8 + below(30) : draw(); break;
    case 3: t->window = below(2) ? (uint32_t)draw() : draw(); break;
    case 4: t->range += two32 * (1 + below(two32 - 1)); break;
    case 5: t->shifts += two32 * (1 + below(two32 - 1)); break;
    default: t->window += two32 * (1 + below(two32 - 1));
    }
}

static inline void damage_bytes(struct call *c) {
    for (size_t x = 1 + below(16); x--;)
        if (below(3)) c->bytes[below(c->n)] ^= (uint8_t)(1 << below(8));
        else c->bytes[below(c->n)] = (uint8_t)draw();
}

static inline void damage_header(struct call *c) {
    static const int32_t out[] = {256, -256, INT32_MAX, INT32_MIN, 1000, -32768, 65536};
    switch (below(4)) {
    case 0: c->header[below(HOOKBARLEY_ENTRIES)] = out[below(7)]; break;
    case 1:
        for (size_t i = 0; i < HOOKBARLEY_ENTRIES; i++) c->header[i] = (int)below(511) - 255;
        break;
    default:
        for (size_t x = 1 + below(30); x--;) c->header[below(HOOKBARLEY_ENTRIES)] = (int)below(511) - 255;
    }
}

static inline void damage_partitions(struct call *c) {
    struct hookbarley_tile *t = &c->tile;
    size_t i = below(8), j = below(8), x, used = t->count && t->count < 8 ? t->count : 8;
    switch (below(6)) {
    case 0:
        i %= used, j %= used;
        x = t->token_starts[i], t->token_starts[i] = t->token_starts[j], t->token_starts[j] = x;
        x = t->token_lengths[i], t->token_lengths[i] = t->token_lengths[j], t->token_lengths[j] = x;
        break;
    case 1: case 2:
        t->token_starts[i] = below(c->n);
        t->token_lengths[i] = below(c->n - t->token_starts[i] + 1);
        break;
    case 3:
        t->first_start = below(c->n);
        t->first_length = below(c->n - t->first_start + 1);
        break;
    case 4:
        if (below(2)) *(below(2) ? &t->first_start : &t->first_length) = wild(c->n);
        else (below(2) ? t->token_starts : t->token_lengths)[i] = wild(c->n);
        break;
    default:
        if (below(3) == 0) c->n = below(c->n + 1);
        else if (below(2)) t->token_lengths[i] = below(t->token_lengths[i] + 1);
        else t->first_length = below(t->first_length + 1);
    }
    if (c->n == 0) c->n = 1;
}

static inline void damage_lengths(struct call *c, int lent) {
    static const size_t entries[] = {0, 1, HOOKBARLEY_ENTRIES - 1, HOOKBARLEY_ENTRIES + 1, 1200};
    size_t i = below((size_t)lent), *n = &c->lent[i];
    switch (below(12)) {
    case 0: *n = 0; break;
    case 1: *n -= *n > 0; break;
    case 2: *n += *n < buffers[i].capacity; break;
    case 3: *n *= *n * 2 <= buffers[i].capacity ? 2 : 1; break;
    case 4: case 5: case 6: case 7: c->header_len = entries[below(5)]; break;
    default: c->tile_len = below(sizeof c->numbers / sizeof *c->numbers + 1);
    }
}

/* One kind of damage; of the lengths of what is lent the first `lent` may be hit. */
static inline void damage(struct call *c, int lent) {
    struct hookbarley_tile *t = &c->tile;
    size_t kind = below(24);
    if (kind < 6) damage_bytes(c);
    else if (kind < 12) damage_partitions(c);
    else if (kind < 16) damage_header(c);
    else if (kind < 17) resize(c);
    else if (kind < 18) t->count = below(4) ? 1 + below(8) : wild(8);
    else if (kind < 20) {
        t->at = 2 + below(t->first_length + 1);
        t->range = 128 + below(128);
        t->shifts = below(8);
        t->window = below(65536) >> t->shifts << t->shifts;
    } else if (kind < 21) spoil_reader(t);
    else damage_lengths(c, lent);
}

/* Any tile, most often the smallest of four. */
static inline const struct call *small_tile(void) {
    const struct call *c = &tiles[below(tiles_len)];
    for (size_t i = below(8) ? 3 : 0; i--;) {
        const struct call *d = &tiles[below(tiles_len)];
        if (d->tile.width * d->tile.height < c->tile.width * c->tile.height) c = d;
    }
    return c;
}

/* Without the bytes that are not used. */
static inline void copy(struct call *to, const struct call *from) {
    memcpy(to->bytes, from->bytes, from->n);
    memcpy(&to->n, &from->n, sizeof *to - offsetof(struct call, n));
}

/* A valid call or a tile, damaged up to three times. */
static inline void draw_call(struct call *c, int lent) {
    if (below(3)) copy(c, small_tile());
    else invent(c);
    for (size_t d = below(4); d--;) damage(c, lent);
}

/* Another content of token partition p; `old` keeps what it was. */
static inline void change_partition(struct call *c, size_t p, uint8_t *old) {
    uint8_t *partition = c->bytes + c->tile.token_starts[p];
    size_t n = c->tile.token_lengths[p];
    memcpy(old, partition, n);
    if (below(3)) fill(partition, n);
    else partition[below(n)] ^= (uint8_t)(1 + below(255));
}

/* A reason to refuse for each of the lower seven bits of `why`. */
static inline void spoil_arguments(struct call *c, size_t why) {
    static const size_t two32 = (size_t)1 << 32;
    const size_t sides[] = {0, 17, 16400, SIZE_MAX, two32 + 16}, counts[] = {0, 9, 16, SIZE_MAX, two32 + 1};
    const size_t ranges[] = {0, 127, 256, SIZE_MAX, two32 + 255};
    const int32_t entries[] = {256, -256, INT32_MIN, INT32_MAX, 32767};
    size_t i = below(5);
    copy(c, small_tile());
    if (why & 1) *(below(2) ? &c->tile.width : &c->tile.height) = sides[i];
    if (why & 2) c->tile.count = counts[i];
    if (why & 4) c->header[below(HOOKBARLEY_ENTRIES)] = entries[i];
    if (why & 8) { if (i) c->lent[below(LENT)] ^= 1; else c->header_len++; }
    if (why & 16) c->tile.first_start = below(2) ? c->n + 1 + below(100) : SIZE_MAX - below(100);
    if (why & 32) c->tile.range = ranges[i];
    if (why & 64) c->tile_len = below(2) ? HOOKBARLEY_TILE_NUMBERS - 1 : HOOKBARLEY_TILE_NUMBERS + 1;
}

#endif
