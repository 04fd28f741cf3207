/* The call on a key frame's header from outside, between guard pages (guard.h): frame N SEED FILE.. (.webp).
 *
 * `reading` below says what must come out; it was written from RFC 6386, sections 9 and 19.2, and the order of the refusals, apart from the
 * library: its boolean decoder loads bit by bit. Run here:
 *   files   each frame: its answer, printed;
 *   cut     each frame, every shorter length;
 *   flipped each frame, every bit of its first 30 bytes;
 *   random  N frames made from SEED: bytes damaged, cut, or the ten bytes before random ones;
 *   lengths other numbers of entries and of tile numbers: 9.
 * What is taken is handed to the picture call, which must not refuse it (0, 6 or 7), where the picture is small. */
#include "guard.h"
#include "frame_tables.h"

enum { BYTES, ENTRIES, TILE, BUFFERS };
enum { MOST = 1 << 16, SMALL = 64 };
static struct guarded buffers[BUFFERS] = {
    [BYTES] = {.name = "bytes", .capacity = 1 << 17, .input = 1},
    [ENTRIES] = {.name = "entries", .capacity = 5 << 12},
    [TILE] = {.name = "tile", .capacity = 1 << 12},
};

/* ---- what must come out. The reader here keeps sixteen bits in `value`, of which the lowest may not be known yet: `used` counts the bits
 * of the partition that were shifted out, and a symbol needs the eight behind them. */
struct bits { const uint8_t *bytes; size_t length, used; uint32_t range, value; int out; };

static uint32_t bit_at(const struct bits *b, size_t i) { return i / 8 < b->length ? b->bytes[i / 8] >> (7 - i % 8) & 1 : 0; }

static int symbol(struct bits *b, uint32_t probability) {
    if (b->out || b->used + 8 > 8 * b->length) {
        b->out = 1;
        return 0;
    }
    uint32_t split = 1 + ((b->range - 1) * probability >> 8);
    int one = b->value >> 8 >= split;
    b->range = one ? b->range - split : split;
    if (one) b->value -= split << 8;
    for (; b->range < 128; b->range *= 2) b->value = (b->value * 2 & 65535) + bit_at(b, b->used++ + 16);
    return one;
}

static int literal(struct bits *b, int n) {
    int v = 0;
    while (n--) v = 2 * v + symbol(b, 128);
    return v;
}

static int optional(struct bits *b, int n) {
    if (!literal(b, 1)) return 0;
    int v = literal(b, n);
    return literal(b, 1) ? -v : v;
}

/* Entries in a row, each of so many bits. */
static void optionals(struct bits *b, int32_t *to, int count, int n) {
    while (count--) *to++ = optional(b, n);
}

static void segments_of(struct bits *b, int32_t *h) {
    if (!(h[HOOKBARLEY_HEADER_SEGMENTS] = literal(b, 1))) return;
    h[HOOKBARLEY_HEADER_MAP] = literal(b, 1);
    if (literal(b, 1)) {
        h[HOOKBARLEY_HEADER_ABSOLUTE] = literal(b, 1);
        optionals(b, h + HOOKBARLEY_HEADER_SEGMENT_QUANTIZER, 4, 7);
        optionals(b, h + HOOKBARLEY_HEADER_SEGMENT_LEVEL, 4, 6);
    }
    for (int i = 0; h[HOOKBARLEY_HEADER_MAP] && i < 3; i++) h[HOOKBARLEY_HEADER_MAP_PROBABILITY + i] = literal(b, 1) ? literal(b, 8) : 255;
}

static size_t header_of(struct bits *b, int32_t *h, size_t *simple) {
    memset(h, 0, HOOKBARLEY_ENTRIES * sizeof *h);
    literal(b, 2);
    segments_of(b, h);
    *simple = (size_t)literal(b, 1);
    h[HOOKBARLEY_HEADER_LEVEL] = literal(b, 6);
    h[HOOKBARLEY_HEADER_SHARPNESS] = literal(b, 3);
    if ((h[HOOKBARLEY_HEADER_DELTAS] = literal(b, 1)) && literal(b, 1)) {
        int32_t deltas[8];
        optionals(b, deltas, 8, 6);
        h[HOOKBARLEY_HEADER_INTRA_DELTA] = deltas[0];
        h[HOOKBARLEY_HEADER_SMALL_DELTA] = deltas[4];
    }
    size_t count = (size_t)1 << literal(b, 2);
    h[HOOKBARLEY_HEADER_QUANTIZER] = literal(b, 7);
    optionals(b, h + HOOKBARLEY_HEADER_QUANTIZER_DELTA, 5, 4);
    literal(b, 1);
    for (int i = 0; i < 1056; i++)
        h[HOOKBARLEY_HEADER_COEFFICIENTS + i] = symbol(b, coeff_update_probs[i]) ? literal(b, 8) : default_coeff_probs[i];
    if ((h[HOOKBARLEY_HEADER_SKIPPING] = literal(b, 1))) h[HOOKBARLEY_HEADER_SKIP_PROBABILITY] = literal(b, 8);
    return count;
}

static size_t little(const uint8_t *p, int n) {
    size_t x = 0;
    while (n--) x = x << 8 | p[n];
    return x;
}

static uint32_t reading(const uint8_t *f, size_t n, int32_t *h, struct hookbarley_tile *t) {
    memset(t, 0, sizeof *t);
    if (n < 10 || f[0] & 1 || f[3] != 0x9d || f[4] != 0x01 || f[5] != 0x2a || (f[0] >> 1 & 7) > 3) return HOOKBARLEY_NO_KEY_FRAME;
    size_t w = little(f + 6, 2) & 16383, d = little(f + 8, 2) & 16383, size = little(f, 3) >> 5, simple;
    if (!w || !d) return HOOKBARLEY_NO_KEY_FRAME;
    if (n - 10 < size) return HOOKBARLEY_PAST_END;
    if (size < 2) return HOOKBARLEY_NO_HEADER;
    struct bits b = {f + 10, size, 0, 255, (uint32_t)(f[10] << 8 | f[11]), 0};
    size_t count = header_of(&b, h, &simple);
    if (b.out) return HOOKBARLEY_NO_HEADER;
    const uint8_t *sizes = f + 10 + size;
    size_t at = 10 + size + 3 * (count - 1);
    if (n < at) return HOOKBARLEY_PAST_END;
    struct hookbarley_tile whole = {(w + 15) / 16 * 16, (d + 15) / 16 * 16, w, d, simple, count, 10, size, {0}, {0}, 0, 0, 0, 0};
    for (size_t i = 0; i < count; i++) {
        whole.token_starts[i] = at;
        whole.token_lengths[i] = i + 1 < count ? little(sizes + 3 * i, 3) : n - at;
        if (n - at < whole.token_lengths[i]) return HOOKBARLEY_PAST_END;
        at += whole.token_lengths[i];
    }
    whole.at = b.used / 8 + 2;
    whole.range = b.range;
    whole.shifts = b.used % 8;
    whole.window = b.value >> whole.shifts << whole.shifts;
    *t = whole;
    return 0;
}

/* ---- one call, its buffers ending and starting at a guard */
static size_t calls, answers[20], pictures, picture_answers[20];

static void picture(const uint8_t *f, size_t n, const int32_t *h, const struct hookbarley_tile *t) {
    if (t->width > SMALL || t->height > SMALL) return;
    static uint8_t room[SMALL * SMALL * 2 + 4096];
    struct hookbarley_memory m;
    size_t finished;
    uint64_t first_reads, token_reads;
    hookbarley_lend(t, room, &m);
    uint32_t number = hookbarley_picture(f, n, h, t, &m, &finished, &first_reads, &token_reads);
    int taken = number == HOOKBARLEY_WHOLE || number == HOOKBARLEY_NO_MODES || number == HOOKBARLEY_NO_TOKENS;
    if (!taken) fail("the picture call refuses what was taken with %u", number);
    uint64_t asked = finished + (number != HOOKBARLEY_WHOLE);
    if (first_reads > asked * HOOKBARLEY_FIRST_MOST || token_reads > asked * HOOKBARLEY_TOKEN_MOST)
        fail("more symbols than %zu macroblocks can read", (size_t)asked);
    if (hookbarley_deblock_picture(t, &m)) fail("the deblocking call refuses what was decoded");
    picture_answers[number]++;
    pictures++;
}

static uint32_t take(const uint8_t *f, size_t n) {
    static int32_t want_h[HOOKBARLEY_ENTRIES];
    struct hookbarley_tile want_t;
    uint32_t want = reading(f, n, want_h, &want_t), got = HOOKBARLEY_WHOLE;
    for (int end = 0; end < 2; end++) {
        int poison = (int)below(256);
        const uint8_t *in = lay(&buffers[BYTES], f, n, end);
        int32_t *h = poisoned(&buffers[ENTRIES], sizeof want_h, end, poison, REST);
        struct hookbarley_tile *t = poisoned(&buffers[TILE], sizeof *t, end, poison, REST);
        got = hookbarley_take(in, n, h, t);
        if (got != want) fail("the header of %zu bytes gives %u, should be %u", n, got, want);
        if (memcmp(in, f, n)) fail("the frame is written to");
        if (memcmp(t, &want_t, sizeof *t)) fail("another tile");
        if (got ? !all((uint8_t *)h, sizeof want_h, poison) : memcmp(h, want_h, sizeof want_h)) fail("other entries");
        untouched(&buffers[ENTRIES], sizeof want_h, end, poison, REST);
        untouched(&buffers[TILE], sizeof *t, end, poison, REST);
        calls++;
        answers[got]++;
        if (got == HOOKBARLEY_WHOLE && end) picture(in, n, h, t);
    }
    return got;
}

static void lengths(const uint8_t *f, size_t n) {
    static const size_t entries[] = {0, 1, HOOKBARLEY_ENTRIES - 1, HOOKBARLEY_ENTRIES + 1, 4000};
    static const size_t numbers[] = {0, 1, HOOKBARLEY_TILE_NUMBERS - 1, HOOKBARLEY_TILE_NUMBERS + 1, 100};
    for (int i = 0; i < 25; i++) {
        int poison = (int)below(255) + 1;
        size_t e = i / 5 ? entries[i % 5] : HOOKBARLEY_ENTRIES;
        size_t k = i / 5 == 0 || i / 5 > 2 ? numbers[(i + i / 5) % 5] : HOOKBARLEY_TILE_NUMBERS, size = k * sizeof(size_t);
        const uint8_t *in = lay(&buffers[BYTES], f, n, 1);
        int32_t *h = poisoned(&buffers[ENTRIES], e * sizeof *h, 1, poison, REST);
        size_t *t = poisoned(&buffers[TILE], size, 1, poison, REST);
        trying("%zu entries, %zu numbers", e, k);
        if (hookbarley_frame(in, n, h, e, t, k) != HOOKBARLEY_ARGUMENT) fail("not 9");
        if (!all((uint8_t *)h, e * sizeof *h, poison)) fail("the entries change");
        if (!all((uint8_t *)t, size, k == HOOKBARLEY_TILE_NUMBERS ? 0 : poison)) fail("other numbers");
        untouched(&buffers[ENTRIES], e * sizeof *h, 1, poison, REST);
        untouched(&buffers[TILE], size, 1, poison, REST);
        calls++;
        answers[HOOKBARLEY_ARGUMENT]++;
    }
}

/* ---- the frames */
struct file { const char *name; uint8_t *bytes; size_t n; } *files;
static size_t files_len;

static void load(const char *name) {
    static uint8_t whole[MOST];
    FILE *f = fopen(name, "rb");
    if (!f) { perror(name); exit(2); }
    size_t n = fread(whole, 1, MOST, f), start, length;
    fclose(f);
    if (n == MOST || hookbarley_webp_find(whole, n, &start, &length)) { fprintf(stderr, "%s: no frame, or over 64 KiB\n", name); exit(2); }
    struct file *g = &files[files_len++];
    g->name = name;
    g->bytes = malloc(MOST);
    g->n = length;
    memcpy(g->bytes, whole + start, length);
}

static void damage_all(const struct file *f) {
    static uint8_t s[MOST];
    /* behind the first partition, which ends below 2048, the header's call sees of a cut the length alone: each 31st */
    for (size_t n = HOOKBARLEY_WHOLE; n < f->n; n += n < 2048 ? 1 : 31) {
        trying("%s cut to %zu", f->name, n);
        take(f->bytes, n);
    }
    for (size_t bit = 0; bit < 240 && bit < 8 * f->n; bit++) {
        trying("%s with bit %zu flipped", f->name, bit);
        memcpy(s, f->bytes, f->n);
        s[bit / 8] ^= (uint8_t)(1 << bit % 8);
        take(s, f->n);
    }
}

static void random_calls(size_t times) {
    static uint8_t s[MOST];
    for (size_t i = 0; i < times; i++) {
        trying("random %zu", i);
        const struct file *f = &files[below(files_len)];
        size_t n = f->n;
        memcpy(s, f->bytes, n);
        if (below(4) == 0) { /* a first partition and tokens of random bytes, mostly of small pictures */
            n = 10 + below(4000);
            size_t size = below(below(8) ? n - 9 : n);
            for (size_t k = 10; k < n; k++) s[k] = (uint8_t)draw();
            for (int k = 0; k < 3; k++) s[k] = (uint8_t)((size << 5 | below(4) << 1) >> 8 * k);
            for (int k = 6; k < 10; k++) s[k] = (uint8_t)(k % 2 ? below(4) << 6 : 1 + below(64));
            /* literals are halves: a low byte now and then keeps the 1056 updates rare */
            for (size_t k = 10; k < n && below(2); k++) s[k] &= (uint8_t)draw();
        }
        for (size_t d = below(4); d--;) {
            if (below(3)) s[below(n < 60 ? n : below(2) ? 12 : 60)] = (uint8_t)draw();
            else if (n > 1) n = below(4) ? n - below(n < 40 ? n : 40) : 1 + below(n);
        }
        take(s, n);
    }
}

int main(int argc, char **argv) {
    if (argc < 4) { fprintf(stderr, "usage: %s N SEED FILE..\n", argv[0]); return 2; }
    begin(argv[2], buffers, BUFFERS);
    files = calloc((size_t)argc, sizeof *files);
    for (int i = 3; i < argc; i++) load(argv[i]);
    for (size_t i = 0; i < files_len; i++) {
        trying("%s", files[i].name);
        printf("file %s, a frame of %zu bytes: %u\n", files[i].name, files[i].n, take(files[i].bytes, files[i].n));
    }
    lengths(files[0].bytes, files[0].n);
    for (size_t i = 0; i < files_len; i++) damage_all(&files[i]);
    random_calls(strtoull(argv[1], NULL, 10));
    printf("answers 0, 9, 12, 13, 14: %zu %zu %zu %zu %zu\n", answers[0], answers[9], answers[12], answers[13], answers[14]);
    printf("pictures decoded and deblocked: %zu, answers 0, 6, 7: %zu %zu %zu\n", pictures, picture_answers[0], picture_answers[6],
           picture_answers[7]);
    printf("ok: %zu calls on a frame's header, nothing touched outside\n", calls);
    return 0;
}
