/* The cockpit profile from outside, between guard pages (guard.h) and beside the picture call: profile N SEED FILE..
 *
 * Each FILE is a WebP file or a bare VP8 frame. What holds of every call, at both guards and over two poisons: number, rule and
 * macroblock are those of a reading of the rules of its own (`judge`), and memory is as it was lent up to rule 4 and as the picture call
 * leaves it from rule 5 on.
 * Run here:
 *   files   every file, as it is;
 *   broken  of one that fits, every set of eight things to break: size, count, segments, sharpness, an entry, a length, a partition, the
 *           tile's numbers;
 *   cut     of those that reach rule 5, every partition cut to some forty lengths;
 *   random  N inputs made from SEED, most of them 256 by 256, valid, damaged and absurd. */
#include "drawn_calls.h"

static struct result picture, left[2];
static size_t calls, refusals, rules[7];

/* What the profile must answer: the refusal, the rule, the macroblock (`k`). Runs the picture call where that decides. */
static struct result judge(const struct call *c) {
    const struct hookbarley_tile *t = &c->tile;
    const int32_t *h = c->header;
    struct result want = {0};
    if (c->tile_len != HOOKBARLEY_TILE_NUMBERS) { want.number = HOOKBARLEY_ARGUMENT; return want; }
    if (t->width != 256 || t->height != 256) { want.rule = HOOKBARLEY_PROFILE_SIZE; return want; }
    if (t->count != 1 && t->count != 2 && t->count != 4) { want.rule = HOOKBARLEY_PROFILE_PARTITIONS; return want; }
    want.number = refusal(c);
    if (want.number) return want;
    if (h[HOOKBARLEY_HEADER_SEGMENTS] || h[HOOKBARLEY_HEADER_MAP]) { want.rule = HOOKBARLEY_PROFILE_SEGMENTS; return want; }
    if (h[HOOKBARLEY_HEADER_SHARPNESS]) { want.rule = HOOKBARLEY_PROFILE_SHARPNESS; return want; }
    run(c, 1, 0xA5, &picture);
    if (picture.number) { want.rule = HOOKBARLEY_PROFILE_WHOLE; return want; }
    for (size_t k = 0; k < 256 && !want.rule; k++) {
        const uint8_t *mode = picture.mem[MODES] + HOOKBARLEY_MODE_BYTES * k;
        if (mode[HOOKBARLEY_MODE_SKIP] && mode[HOOKBARLEY_MODE_SMALL]) want.rule = HOOKBARLEY_PROFILE_SKIPPED, want.k = k;
    }
    return want;
}

static void sound(const struct call *c, const struct result *want, const struct result *r, int poison) {
    int decoded = !want->number && (want->rule == HOOKBARLEY_PROFILE_FITS || want->rule >= HOOKBARLEY_PROFILE_WHOLE);
    if (r->number != want->number || r->rule != want->rule || r->k != want->k)
        fail("answer %u %u %zu, should be %u %u %zu", r->number, r->rule, r->k, want->number, want->rule, want->k);
    for (int b = 0; b < LENT; b++) {
        if (!decoded && !all(r->mem[b], c->lent[b], poison)) fail("rule %u, and %s was written", r->rule, buffers[b].name);
        if (decoded && memcmp(r->mem[b], picture.mem[b], c->lent[b]))
            fail("rule %u, and %s is not as the picture call leaves it", r->rule, buffers[b].name);
    }
}

/* Both places, two poisons. Returns the rule. */
static uint32_t profiled(const struct call *c) {
    struct result want = judge(c);
    run_profile(c, 1, 0xA5, &left[0]);
    sound(c, &want, &left[0], 0xA5);
    run_profile(c, 0, 0x5A, &left[1]);
    sound(c, &want, &left[1], 0x5A);
    calls += 2;
    if (want.number) refusals++;
    else rules[want.rule]++;
    return want.rule;
}

/* A key frame as the picture call takes it. */
static int load_frame(const char *path, struct call *c) {
    FILE *in = fopen(path, "rb");
    size_t start, length;
    if (!in) return 0;
    memset(c, 0, sizeof *c);
    c->n = fread(c->bytes, 1, sizeof c->bytes, in);
    fclose(in);
    if (!hookbarley_webp_find(c->bytes, c->n, &start, &length)) memmove(c->bytes, c->bytes + start, c->n = length);
    c->header_len = HOOKBARLEY_ENTRIES;
    c->tile_len = HOOKBARLEY_TILE_NUMBERS;
    if (hookbarley_take(c->bytes, c->n, c->header, &c->tile)) return 0;
    lengths_of(c->tile.width, c->tile.height, c->lent);
    for (int b = 0; b < LENT; b++)
        if (c->lent[b] > buffers[b].capacity) return 0;
    return 1;
}

/* Every file; returns the first that fits. */
static const struct call *files(char **names, size_t count) {
    const struct call *fits = NULL;
    tiles = calloc(count, sizeof *tiles);
    for (size_t i = 0; i < count; i++) {
        trying("file %s", names[i]);
        if (!load_frame(names[i], &tiles[i])) fail("not a tile");
        if (profiled(&tiles[i]) == HOOKBARLEY_PROFILE_FITS && !fits) fits = &tiles[i];
    }
    tiles_len = count;
    printf("files: %zu files, %zu fit, %zu have a macroblock skipped and small\n", count, rules[0], rules[HOOKBARLEY_PROFILE_SKIPPED]);
    if (!fits || !rules[HOOKBARLEY_PROFILE_SKIPPED]) fail("no file fits, or none breaks rule 6");
    return fits;
}

/* One of eight things to break for each bit of `why`. */
static void spoil(struct call *c, size_t why) {
    static const size_t two32 = (size_t)1 << 32;
    const size_t sides[] = {240, 272, 16, 0, 255, two32 + 256, SIZE_MAX}, counts[] = {0, 3, 5, 6, 7, 8, 9, two32 + 1, SIZE_MAX};
    const int32_t on[] = {1, -1, 255, -255, 128};
    size_t i = below(5);
    if (why & 1) *(below(2) ? &c->tile.width : &c->tile.height) = sides[below(7)];
    if (why & 2) c->tile.count = counts[below(9)];
    if (why & 4) c->header[below(2) ? HOOKBARLEY_HEADER_SEGMENTS : HOOKBARLEY_HEADER_MAP] = on[i];
    if (why & 8) c->header[HOOKBARLEY_HEADER_SHARPNESS] = on[below(5)];
    if (why & 16) c->header[below(HOOKBARLEY_ENTRIES)] = below(2) ? 256 : INT32_MIN;
    if (why & 32) { if (i) c->lent[below(LENT)] ^= 1; else c->header_len--; }
    if (why & 64) { if (i) c->tile.token_starts[0] = c->n + 1; else c->tile.range = 127; }
    if (why & 128) c->tile_len = below(2) ? HOOKBARLEY_TILE_NUMBERS - 1 : HOOKBARLEY_TILE_NUMBERS + 1;
    if (why & 1 && below(2) && c->tile.width <= 272 && c->tile.height <= 272) lengths_of(c->tile.width, c->tile.height, c->lent);
}

static void broken(const struct call *fits, size_t times) {
    static struct call c;
    for (size_t t = 0; t < times; t++) {
        trying("broken %zu", t);
        copy(&c, fits);
        spoil(&c, t % 256);
        if (profiled(&c) == HOOKBARLEY_PROFILE_FITS && !left[0].number && t % 256) fail("it fits all the same");
    }
    printf("broken: %zu inputs with every set of eight things\n", times);
}

static void cut(void) {
    static struct call c;
    size_t cuts = 0;
    for (size_t t = 0; t < tiles_len; t++) {
        copy(&c, &tiles[t]);
        uint32_t rule = judge(&c).rule;
        if (rule != HOOKBARLEY_PROFILE_FITS && rule < HOOKBARLEY_PROFILE_WHOLE) continue;
        for (size_t p = 0; p <= c.tile.count; p++) {
            size_t *length = length_of(&c, p), from = *length, step = 1 + from / 40;
            for (size_t n = below(step); n < from; n += step, cuts++) {
                trying("cut, file %zu, partition %zu, length %zu", t, p, n);
                *length = n;
                profiled(&c);
            }
            *length = from;
        }
    }
    printf("cut: %zu cuts\n", cuts);
}

static void random_calls(size_t times) {
    static struct call c;
    for (size_t t = 0; t < times; t++) {
        trying("random %zu", t);
        draw_call(&c, LENT);
        if (below(4) && c.tile.width < 256) {
            c.tile.width = c.tile.height = 256;
            c.tile.count = 1 << below(3);
            for (int i = HOOKBARLEY_HEADER_SEGMENTS; i <= HOOKBARLEY_HEADER_MAP && below(8); i++) c.header[i] = 0;
            if (below(8)) c.header[HOOKBARLEY_HEADER_SHARPNESS] = 0;
            lengths_of(256, 256, c.lent);
        }
        profiled(&c);
    }
    printf("random: %zu inputs\n", times);
}

int main(int argc, char **argv) {
    if (argc < 4) { fprintf(stderr, "usage: %s N SEED FILE..\n", argv[0]); return 2; }
    begin(argv[2], buffers, BUFFERS);
    printf("seed: %s\n", argv[2]);
    picture = new_result(), left[0] = new_result(), left[1] = new_result();
    const struct call *fits = files(argv + 3, (size_t)argc - 3);
    broken(fits, 2048);
    cut();
    random_calls(strtoull(argv[1], NULL, 10));
    printf("rules: %zu fit", rules[0]);
    for (int i = 1; i < 7; i++) printf(", %zu break %d", rules[i], i);
    printf("\nok: %zu calls of the profile, %zu inputs refused, nothing touched outside\n", calls, refusals);
    return 0;
}
