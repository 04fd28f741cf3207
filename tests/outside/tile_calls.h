/* The calls on a tile as tests make them, picture, rescue, profile and recode: arguments of any length between guard pages (guard.h), read from
 * case files; the refusal that they ask for; what holds of an answer's macroblocks and what those of two answers have in common. */
#ifndef TILE_CALLS_H
#define TILE_CALLS_H

#include "guard.h"
#include "../../examples/c/case_file.h"

/* What is lent to every call on a tile is below LENT; the rescue call is lent the marks too. */
enum { Y, U, V, COLUMNS, MODES, STRENGTHS, LENT, MARKS = LENT, LENT_MARKED };
enum { BYTES = LENT_MARKED, TILE, HEADER, FINISHED, FIRST_READS, TOKEN_READS, RULE, OUT, RESULT, BUFFERS };
enum { SLACK = 64 };
static struct guarded buffers[BUFFERS] = {
    [Y] = {.name = "y", .capacity = 1 << 18},
    [U] = {.name = "u", .capacity = 1 << 16},
    [V] = {.name = "v", .capacity = 1 << 16},
    [COLUMNS] = {.name = "columns", .capacity = 1 << 14},
    [MODES] = {.name = "modes", .capacity = 5 << 12},
    [STRENGTHS] = {.name = "strengths", .capacity = 1 << 13},
    [MARKS] = {.name = "marks", .capacity = 1 << 12},
    [BYTES] = {.name = "bytes", .capacity = 1 << 17, .input = 1},
    [TILE] = {.name = "tile", .capacity = 1 << 12, .input = 1},
    [HEADER] = {.name = "header", .capacity = 5 << 12, .input = 1},
    [FINISHED] = {.name = "finished", .capacity = 1 << 12},
    [FIRST_READS] = {.name = "first_reads", .capacity = 1 << 12},
    [TOKEN_READS] = {.name = "token_reads", .capacity = 1 << 12},
    [RULE] = {.name = "rule", .capacity = 1 << 12},
    [OUT] = {.name = "out", .capacity = 1 << 20},
    [RESULT] = {.name = "result", .capacity = 1 << 12},
};

/* One call's arguments and lent lengths. */
struct call {
    uint8_t bytes[1 << 17];
    size_t n;
    union {
        struct hookbarley_tile tile;
        size_t numbers[HOOKBARLEY_TILE_NUMBERS + 12];
    };
    size_t tile_len;
    int32_t header[1200];
    size_t header_len, lent[LENT_MARKED];
};

struct result { uint32_t number, rule; size_t k; uint64_t first, tokens; uint8_t *mem[LENT_MARKED]; };

static inline struct result new_result(void) {
    struct result r = {0};
    for (int b = 0; b < LENT_MARKED; b++) r.mem[b] = malloc(buffers[b].capacity);
    return r;
}

/* The length of partition p: 0 the first, then the token partitions. */
static inline size_t *length_of(struct call *c, size_t p) { return p ? &c->tile.token_lengths[p - 1] : &c->tile.first_length; }

/* A call's arguments between the guards; `k` is where it says how many macroblocks there are, or which one. */
struct laid { const uint8_t *bytes; const int32_t *header; const size_t *tile; uint8_t *m[LENT_MARKED]; size_t *k; };

/* The buffers end (end = 1) or start (end = 0) at a guard; of those lent the first `lent` are poisoned. */
static inline struct laid lay_call(const struct call *c, int lent, int end, int poison) {
    struct laid a;
    for (int b = 0; b < lent; b++) a.m[b] = poisoned(&buffers[b], c->lent[b], end, poison, SLACK);
    a.bytes = lay(&buffers[BYTES], c->bytes, c->n, end);
    a.header = lay(&buffers[HEADER], c->header, c->header_len * sizeof *a.header, end);
    a.tile = lay(&buffers[TILE], c->numbers, c->tile_len * sizeof *a.tile, end);
    a.k = poisoned(&buffers[FINISHED], sizeof *a.k, end, poison, SLACK);
    return a;
}

/* What the call left, and nothing beside it. */
static inline void take_back(const struct call *c, const struct laid *a, int lent, int end, int poison, struct result *r) {
    r->k = *a->k;
    untouched(&buffers[FINISHED], sizeof *a->k, end, poison, SLACK);
    for (int b = 0; b < lent; b++) {
        memcpy(r->mem[b], a->m[b], c->lent[b]);
        untouched(&buffers[b], c->lent[b], end, poison, SLACK);
    }
}

/* What these calls take first: what is read, then six of what is lent. */
#define LENT_FOR(a, c, b) (a).m[b], (c)->lent[b]
#define ON_TILE(a, c)                                                                                                                      \
    (a).bytes, (c)->n, (a).header, (c)->header_len, (a).tile, (c)->tile_len, LENT_FOR(a, c, Y), LENT_FOR(a, c, U), LENT_FOR(a, c, V),      \
        LENT_FOR(a, c, COLUMNS), LENT_FOR(a, c, MODES), LENT_FOR(a, c, STRENGTHS)

/* Runs the picture call. */
static inline void run(const struct call *c, int end, int poison, struct result *r) {
    struct laid a = lay_call(c, LENT, end, poison);
    uint64_t *first = poisoned(&buffers[FIRST_READS], sizeof *first, end, poison, SLACK);
    uint64_t *tokens = poisoned(&buffers[TOKEN_READS], sizeof *tokens, end, poison, SLACK);
    r->number = hookbarley_decode(ON_TILE(a, c), a.k, first, tokens);
    r->first = *first;
    r->tokens = *tokens;
    take_back(c, &a, LENT, end, poison, r);
    for (int b = FIRST_READS; b <= TOKEN_READS; b++) untouched(&buffers[b], sizeof(uint64_t), end, poison, SLACK);
}

/* Runs the rescue call, which does not say what it read. */
static inline void run_rescue(const struct call *c, int end, int poison, struct result *r) {
    struct laid a = lay_call(c, LENT_MARKED, end, poison);
    r->number = hookbarley_rescue(ON_TILE(a, c), LENT_FOR(a, c, MARKS), a.k);
    r->first = r->tokens = 0;
    take_back(c, &a, LENT_MARKED, end, poison, r);
}

/* Runs the profile; `k` is the macroblock that it names. */
static inline void run_profile(const struct call *c, int end, int poison, struct result *r) {
    struct laid a = lay_call(c, LENT, end, poison);
    uint32_t *rule = poisoned(&buffers[RULE], sizeof *rule, end, poison, SLACK);
    r->number = hookbarley_profile(ON_TILE(a, c), rule, a.k);
    r->rule = *rule;
    r->first = r->tokens = 0;
    take_back(c, &a, LENT, end, poison, r);
    untouched(&buffers[RULE], sizeof *rule, end, poison, SLACK);
}

/* What the recode call leaves besides: the room, and the numbers of the result. */
struct recoded {
    struct result left;
    uint8_t *out;
    size_t room, result_len;
    union {
        struct hookbarley_tile tile;
        size_t numbers[HOOKBARLEY_TILE_NUMBERS + 12];
    };
};

static inline struct recoded new_recoded(void) {
    return (struct recoded){.left = new_result(), .out = malloc(buffers[OUT].capacity), .result_len = HOOKBARLEY_TILE_NUMBERS};
}

/* Runs the recode call with the room and the numbers that `r` says; it tells neither k nor what it read. */
static inline void run_recode(const struct call *c, int end, int poison, struct recoded *r) {
    struct laid a = lay_call(c, LENT, end, poison);
    uint8_t *out = poisoned(&buffers[OUT], r->room, end, poison, SLACK);
    size_t *result = poisoned(&buffers[RESULT], r->result_len * sizeof *result, end, poison, SLACK);
    r->left.number = hookbarley_recode(ON_TILE(a, c), out, r->room, result, r->result_len);
    take_back(c, &a, LENT, end, poison, &r->left);
    r->left.k = r->left.first = r->left.tokens = 0;
    memcpy(r->out, out, r->room);
    memcpy(r->numbers, result, r->result_len * sizeof *result);
    untouched(&buffers[OUT], r->room, end, poison, SLACK);
    untouched(&buffers[RESULT], r->result_len * sizeof *result, end, poison, SLACK);
}

/* The refusal that the picture call must answer with, worked out from the header's text; 0 where it must be decoded. */
static inline int inside(const struct call *c, size_t start, size_t length) {
    return start <= c->n && length <= c->n - start;
}

static inline int side(size_t n) { return n >= 16 && n <= 16384 && n % 16 == 0; }

static inline void lengths_of(size_t w, size_t h, size_t *lent) {
    size_t columns = w / 16, blocks = columns * (h / 16);
    lent[Y] = w * h;
    lent[U] = lent[V] = (w / 2) * (h / 2);
    lent[COLUMNS] = HOOKBARLEY_COLUMN_BYTES * columns;
    lent[MODES] = HOOKBARLEY_MODE_BYTES * blocks;
    lent[STRENGTHS] = HOOKBARLEY_STRENGTH_BYTES * blocks;
    lent[MARKS] = blocks;
}

static inline uint32_t refusal(const struct call *c) {
    const struct hookbarley_tile *t = &c->tile;
    if (c->tile_len != HOOKBARLEY_TILE_NUMBERS) return HOOKBARLEY_ARGUMENT;
    if (!side(t->width) || !side(t->height)) return HOOKBARLEY_SIZE;
    if (t->count < 1 || t->count > 8) return HOOKBARLEY_COUNT;
    for (size_t i = 0; i < c->header_len; i++)
        if (c->header[i] < -255 || c->header[i] > 255) return HOOKBARLEY_ENTRY;
    size_t lent[LENT_MARKED];
    lengths_of(t->width, t->height, lent);
    if (memcmp(lent, c->lent, LENT * sizeof *lent) || c->header_len != HOOKBARLEY_ENTRIES) return HOOKBARLEY_LENGTH;
    if (!inside(c, t->first_start, t->first_length)) return HOOKBARLEY_PARTITION;
    for (size_t i = 0; i < t->count; i++)
        if (!inside(c, t->token_starts[i], t->token_lengths[i])) return HOOKBARLEY_PARTITION;
    if (t->at < 2 || t->at > t->first_length + 2 || t->range < 128 || t->range > 255 || t->shifts > 7) return HOOKBARLEY_PARTITION;
    if (t->window > 65535 || t->window % ((size_t)1 << t->shifts)) return HOOKBARLEY_PARTITION;
    return HOOKBARLEY_WHOLE;
}

/* Whether a call leaves a picture. */
static inline int has_picture(uint32_t number) {
    return number == HOOKBARLEY_WHOLE || number == HOOKBARLEY_NO_MODES || number == HOOKBARLEY_NO_TOKENS;
}

static inline size_t blocks_of(const struct call *c) { return (c->tile.width / 16) * (c->tile.height / 16); }

/* The macroblocks of row r among the first k. */
static inline size_t done(size_t columns, size_t r, size_t k) {
    size_t before = r * columns;
    return k <= before ? 0 : k - before >= columns ? columns : k - before;
}

static inline void plane_rest(const char *name, const char *when, const uint8_t *p, size_t w, size_t h, size_t side, size_t k) {
    for (size_t y = 0; y < h; y++) {
        size_t f = side * done(w / side, y / side, k);
        if (!all(p + y * w + f, w - f, 128)) fail("%s%s: a sample of an unfinished macroblock is not 128 (row %zu)", name, when, y);
    }
}

static inline void plane_same(const char *name, const uint8_t *p, const uint8_t *q, size_t w, size_t h, size_t side, size_t k) {
    for (size_t y = 0; y < h; y++)
        if (memcmp(p + y * w, q + y * w, side * done(w / side, y / side, k)))
            fail("%s: a sample of a finished macroblock differs (row %zu)", name, y);
}

/* The same of the three planes: the samples of unfinished macroblocks, or of finished ones beside another result's. */
static inline void planes_rest(const struct call *c, const struct result *r, const char *when) {
    for (int b = Y; b <= V; b++) {
        size_t half = b == Y ? 1 : 2;
        plane_rest(buffers[b].name, when, r->mem[b], c->tile.width / half, c->tile.height / half, 16 / half, r->k);
    }
}

/* The first k macroblocks agree. */
static inline void same(const struct call *c, const struct result *a, const struct result *b, size_t k) {
    for (int m = Y; m <= V; m++) {
        size_t half = m == Y ? 1 : 2;
        plane_same(buffers[m].name, a->mem[m], b->mem[m], c->tile.width / half, c->tile.height / half, 16 / half, k);
    }
    if (memcmp(a->mem[MODES], b->mem[MODES], HOOKBARLEY_MODE_BYTES * k)) fail("modes of finished macroblocks differ");
    if (memcmp(a->mem[STRENGTHS], b->mem[STRENGTHS], HOOKBARLEY_STRENGTH_BYTES * k)) fail("strengths of finished macroblocks differ");
}

/* A refusal, after which the first `lent` of what was lent are as they were. */
static inline void refused_soundly(const struct call *c, const struct result *r, uint32_t want, int lent, int poison) {
    if (r->number != want || r->k != 0) fail("answer %u %zu, should be %u 0", r->number, r->k, want);
    if (r->first || r->tokens) fail("refused with %u, and symbols are counted", want);
    for (int b = 0; b < lent; b++)
        if (!all(r->mem[b], c->lent[b], poison)) fail("refused with %u, and %s was written", want, buffers[b].name);
}

/* The records of unfinished macroblocks are 0, and each strength record has its mode record's segment and small. */
static inline void records_sound(const struct result *r, size_t blocks) {
    for (size_t i = 0; i < blocks; i++) {
        const uint8_t *t = r->mem[STRENGTHS] + HOOKBARLEY_STRENGTH_BYTES * i, *m = r->mem[MODES] + HOOKBARLEY_MODE_BYTES * i;
        if (i >= r->k && !all(m, HOOKBARLEY_MODE_BYTES, 0)) fail("modes of unfinished macroblocks are not 0");
        if (i >= r->k && !all(t, HOOKBARLEY_STRENGTH_BYTES, 0)) fail("strengths of unfinished macroblocks are not 0");
        if (t[HOOKBARLEY_STRENGTH_SEGMENT] != m[HOOKBARLEY_MODE_SEGMENT] || t[HOOKBARLEY_STRENGTH_SMALL] != m[HOOKBARLEY_MODE_SMALL])
            fail("strengths of macroblock %zu have another segment or kind than its modes", i);
    }
}

/* A column is four modes below 10 in four bits each, nine flags in one bit each, and zeros. */
static inline void column_bits(const uint8_t *c, size_t columns) {
    for (size_t x = 0; x < columns; x++, c += HOOKBARLEY_COLUMN_BYTES) {
        for (int i = 0; i < 2; i++)
            if (c[i] % 16 > 9 || c[i] / 16 > 9) fail("column %zu has a mode above 9", x);
        if (c[2] > 1) fail("column %zu has a bit above its flags", x);
    }
}

/* A case file; what is damaged is its partitions, so the bytes before them are left out. */
static inline int load(const char *path, struct call *c) {
    static struct case_file f;
    if (!case_read(path, &f) || f.tile.width * f.tile.height > buffers[Y].capacity) return 0;
    memset(c, 0, sizeof *c);
    c->n = f.length - f.places;
    if (c->n > sizeof c->bytes) return 0;
    memcpy(c->bytes, f.bytes + f.places, c->n);
    memcpy(c->header, f.header, sizeof f.header);
    c->header_len = HOOKBARLEY_ENTRIES;
    c->tile = f.tile;
    c->tile_len = HOOKBARLEY_TILE_NUMBERS;
    c->tile.first_start -= f.places;
    for (size_t i = 0; i < c->tile.count && i < HOOKBARLEY_PARTITIONS; i++) c->tile.token_starts[i] -= f.places;
    lengths_of(c->tile.width, c->tile.height, c->lent);
    return 1;
}

static inline unsigned long long fnv(const uint8_t *p, size_t n) {
    unsigned long long h = 0xcbf29ce484222325ull;
    while (n--) h = (h ^ *p++) * 0x100000001b3ull;
    return h;
}

static struct call *tiles;
static size_t tiles_len;

static inline void load_all(const char *dir) {
    char path[4096];
    tiles = calloc(200, sizeof *tiles);
    for (tiles_len = 0; tiles_len < 200; tiles_len++) {
        snprintf(path, sizeof path, "%s/%04zu.case", dir, tiles_len);
        if (access(path, R_OK)) break;
        struct call *c = &tiles[tiles_len];
        if (!load(path, c) || refusal(c) == HOOKBARLEY_COUNT) { fprintf(stderr, "%s: not a tile\n", path); exit(2); }
    }
    if (!tiles_len) { fprintf(stderr, "%s: no tiles\n", dir); exit(2); }
}

#endif
