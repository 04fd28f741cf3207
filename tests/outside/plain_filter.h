/* The deblocking call between guard pages, beside a plain filter of this file (RFC 6386, section 15, on signed samples). */
#ifndef PLAIN_FILTER_H
#define PLAIN_FILTER_H

#include "tile_calls.h"

static inline int s8(int x) { return x < -128 ? -128 : x > 127 ? 127 : x; }

static inline int gap(const uint8_t *p, ptrdiff_t i, ptrdiff_t j) { return abs(p[i] - p[j]); }

static inline void position(uint8_t *p, ptrdiff_t d, int simple, int outer, int limit, int inner, int threshold) {
    if (4 * gap(p, -d, 0) + gap(p, -2 * d, d) > 2 * limit + 1) return;
    for (ptrdiff_t i = 0; i < 3 && !simple; i++)
        if (gap(p, (i - 4) * d, (i - 3) * d) > inner || gap(p, (3 - i) * d, (2 - i) * d) > inner) return;
    int x[8];
    for (int i = 0; i < 8; i++) x[i] = simple && (i < 2 || i > 5) ? 0 : p[(i - 4) * d] - 128;
    int variance = gap(p, -2 * d, -d) > threshold || gap(p, d, 0) > threshold, taps = simple || variance || outer;
    int a = s8((taps ? s8(x[2] - x[5]) : 0) + 3 * (x[4] - x[3]));
    if (outer && !simple && !variance) {
        for (int i = 0; i < 3; i++) {
            int step = s8(((27 - 9 * i) * a + 63) >> 7);
            p[i * d] = (uint8_t)(s8(x[4 + i] - step) + 128);
            p[(-1 - i) * d] = (uint8_t)(s8(x[3 - i] + step) + 128);
        }
        return;
    }
    int f = s8(a + 4) >> 3, g = s8(a + 3) >> 3;
    p[0] = (uint8_t)(s8(x[4] - f) + 128);
    p[-d] = (uint8_t)(s8(x[3] + g) + 128);
    if (simple || variance) return;
    f = (f + 1) >> 1;
    p[d] = (uint8_t)(s8(x[5] - f) + 128);
    p[-2 * d] = (uint8_t)(s8(x[2] + f) + 128);
}

/* The edge at `e` of the macroblock whose first sample is p[0]: a vertical one (way 0) or a horizontal one. */
static inline void plain_edge(uint8_t *p, size_t w, size_t side, int way, size_t e, int simple, const uint8_t *t) {
    ptrdiff_t across = way ? (ptrdiff_t)w : 1, along = way ? 1 : (ptrdiff_t)w;
    int limit = t[HOOKBARLEY_STRENGTH_LIMIT] + (e ? 0 : 4);
    for (size_t i = 0; i < side; i++)
        position(p + (ptrdiff_t)e * across + (ptrdiff_t)i * along, across, simple, !e, limit, t[HOOKBARLEY_STRENGTH_INNER],
                 t[HOOKBARLEY_STRENGTH_THRESHOLD]);
}

static inline void plain_plane(uint8_t *p, size_t w, size_t h, size_t side, int simple, const uint8_t *t) {
    for (size_t row = 0; row < h / side; row++)
        for (size_t column = 0; column < w / side; column++, t += HOOKBARLEY_STRENGTH_BYTES)
            for (int way = 0; t[HOOKBARLEY_STRENGTH_LIMIT] && way < 2; way++)
                for (size_t e = 0; e < side; e += 4)
                    if (e ? t[HOOKBARLEY_STRENGTH_INSIDE] == 1 : (way ? row : column) > 0)
                        plain_edge(p + row * side * w + column * side, w, side, way, e, simple, t);
}

static size_t deblockings[12];

/* What deblocking is given besides planes, and what it must answer. */
struct deblock_call { size_t w, h, lent[3]; const uint8_t *strengths; size_t strengths_len; int simple; uint32_t want; };

/* The call at one guard: the planes become `plain`. */
static inline void deblock_at(const struct deblock_call *d, const struct result *r, uint8_t plain[3][1 << 18], int end) {
    uint8_t *m[3];
    for (int b = Y; b <= V; b++) {
        m[b] = poisoned(&buffers[b], d->lent[b], end, 0, SLACK);
        memcpy(m[b], r->mem[b], d->lent[b]);
    }
    const uint8_t *t = lay(&buffers[BYTES], d->strengths, d->strengths_len, end);
    uint32_t number = hookbarley_deblock(m[Y], d->lent[Y], m[U], d->lent[U], m[V], d->lent[V], t, d->strengths_len, d->w, d->h,
                                         d->simple ? 1u << draw() % 32 : 0);
    if (number != d->want) fail("deblocking answers %u, should be %u", number, d->want);
    for (int b = Y; b <= V; b++) {
        if (memcmp(m[b], plain[b], d->lent[b]))
            fail("%s deblocked with answer %u is not as the plain filter leaves it", buffers[b].name, d->want);
        untouched(&buffers[b], d->lent[b], end, 0, SLACK);
    }
}

/* The call at both guards; r's planes become what it leaves: what the plain filter leaves, or after a refusal what they were. */
static inline void deblocking(struct result *r, const struct deblock_call *d) {
    static uint8_t plain[3][1 << 18];
    for (int b = Y; b <= V; b++) memcpy(plain[b], r->mem[b], d->lent[b]);
    if (!d->want) {
        plain_plane(plain[Y], d->w, d->h, 16, d->simple, d->strengths);
        for (int b = U; b <= V && !d->simple; b++) plain_plane(plain[b], d->w / 2, d->h / 2, 8, 0, d->strengths);
    }
    for (int end = 0; end < 2; end++) deblock_at(d, r, plain, end);
    for (int b = Y; b <= V; b++) memcpy(r->mem[b], plain[b], d->lent[b]);
    deblockings[d->want]++;
}

/* Deblocks what a call left. */
static inline void deblocked(const struct call *c, struct result *r, int simple) {
    if (!has_picture(r->number)) return;
    deblocking(r, &(struct deblock_call){c->tile.width, c->tile.height, {c->lent[Y], c->lent[U], c->lent[V]}, r->mem[STRENGTHS],
                                         c->lent[STRENGTHS], simple, HOOKBARLEY_WHOLE});
    planes_rest(c, r, " deblocked");
}

/* Two answers to tiles alike but for token partition p, deblocked: the rows above row p agree, but for their lowest three sample rows. */
static inline void after_apart(const struct call *c, size_t p, const struct result *before, const struct result *after, int simple) {
    static struct result a, b;
    if (!a.mem[0]) a = new_result(), b = new_result();
    const struct result *from[] = {before, after};
    struct result *to[] = {&a, &b};
    for (int i = 0; i < 2; i++) {
        to[i]->number = from[i]->number, to[i]->k = from[i]->k;
        for (int m = 0; m < LENT; m++) memcpy(to[i]->mem[m], from[i]->mem[m], c->lent[m]);
        deblocked(c, to[i], simple);
    }
    for (int m = Y; m <= V; m++) {
        size_t side = m == Y ? 16 : 8, w = c->tile.width * side / 16, h = c->tile.height * side / 16;
        size_t rows = p * side >= h ? h : p * side < 3 ? 0 : p * side - 3;
        if (memcmp(a.mem[m], b.mem[m], w * rows))
            fail("partition %zu: %s deblocked differs above the lowest three rows", p, buffers[m].name);
    }
}

#endif
