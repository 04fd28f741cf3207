/* The picture call from outside, with damaged input, between guard pages (guard.h): damaged DIR N SEED [random].
 *
 * DIR holds NNNN.case, expected-memory-m102.txt and expected-counts-m102.txt (tests/outside/README.md). Memory to be written is poisoned,
 * each time with another byte. Run here:
 *   whole   every tile of DIR: number, k and the six memories as expected-memory-m102.txt says, the symbols read as
 *           expected-counts-m102.txt;
 *   cut     every tile, every partition, every shorter length: finished macroblocks equal the whole tile's, the rest is 128 and 0,
 *           column memory is as after macroblock k - 1; k and the symbols read never fall as the length rises;
 *   apart   every tile of two partitions or more, every partition: another content leaves the macroblock rows above alone;
 *   random  N inputs made from SEED, valid, damaged and absurd (drawn_calls.h): the number is the one that tile_calls.h works out (1 to 5,
 *           9) or 0, 6, 7, refusals leave the poison and read nothing, both runs agree, the rest is 128 and 0, no more symbols are read
 *           than so many macroblocks can read, a further cut keeps what is finished;
 *   refused every set of reasons to refuse: the number is that of the first check, nothing is written;
 *   kernel  the edge kernel: numbers of the scope, other lengths answer 9 and change nothing;
 *   deblock after each answer above, both kinds: what a plain filter (plain_filter.h) makes of the planes, strengths in memory that may
 *           only be read, grey stays grey; with N drawn pictures, sizes, lengths and strengths too: 1, 4 and 11 in this order, nothing
 *           written.
 * With `random` the cuts are left out. */
#include "drawn_calls.h"
#include "plain_filter.h"

/* What holds of one answer. */
static void sound(const struct call *c, const struct result *r, uint32_t want, int poison) {
    if (want) {
        refused_soundly(c, r, want, LENT, poison);
        return;
    }
    size_t blocks = blocks_of(c), k = r->k;
    if (!has_picture(r->number)) fail("answer %u, should be 0, 6 or 7", r->number);
    if (r->number == HOOKBARLEY_WHOLE ? k != blocks : k >= blocks) fail("answer %u with %zu of %zu macroblocks", r->number, k, blocks);
    uint64_t asked = k + (r->number != HOOKBARLEY_WHOLE);
    if (r->first > asked * HOOKBARLEY_FIRST_MOST || r->tokens > asked * HOOKBARLEY_TOKEN_MOST)
        fail("more symbols than %zu macroblocks can read", (size_t)asked);
    planes_rest(c, r, "");
    records_sound(r, blocks);
}

static size_t answers[10], calls;

/* Both places, two poisons; everything that holds of every call. */
static uint32_t both(const struct call *c, struct result *r, struct result *spare) {
    uint32_t want = refusal(c);
    run(c, 1, 0xA5, r);
    sound(c, r, want, 0xA5);
    run(c, 0, 0x5A, spare);
    sound(c, spare, want, 0x5A);
    calls += 2;
    if (r->number != spare->number || r->k != spare->k) fail("answers %u %zu and %u %zu", r->number, r->k, spare->number, spare->k);
    if (r->first != spare->first || r->tokens != spare->tokens) fail("the symbols read differ");
    for (int b = 0; want == 0 && b < LENT; b++)
        if (memcmp(r->mem[b], spare->mem[b], c->lent[b])) fail("%s depends on what it held", buffers[b].name);
    answers[r->number]++;
    return want;
}

static FILE *expected(const char *dir, const char *name) {
    char path[4096];
    snprintf(path, sizeof path, "%s/%s", dir, name);
    FILE *f = fopen(path, "r");
    if (!f) { perror(path); exit(2); }
    return f;
}

static void must_be(const char *got, char *line, size_t size, FILE *f) {
    if (!fgets(line, (int)size, f)) fail("no line for it in an expected file");
    line[strcspn(line, "\r\n")] = 0;
    if (strcmp(line, got)) fail("got %s, should be %s", got, line);
}

static void whole(const char *dir, struct result *r, struct result *spare) {
    char line[512], got[512];
    FILE *f = expected(dir, "expected-memory-m102.txt"), *counts = expected(dir, "expected-counts-m102.txt");
    for (size_t t = 0; t < tiles_len; t++) {
        trying("whole, tile %04zu", t);
        struct call *c = &tiles[t];
        both(c, r, spare);
        int n = sprintf(got, "%u %zu", r->number, r->k);
        for (int b = 0; b < LENT; b++) n += sprintf(got + n, " %016llx", fnv(r->mem[b], c->lent[b]));
        must_be(got, line, sizeof line, f);
        sprintf(got, "%u %zu %llu %llu", r->number, r->k, (unsigned long long)r->first, (unsigned long long)r->tokens);
        must_be(got, line, sizeof line, counts);
    }
    fclose(f);
    fclose(counts);
    printf("whole: %zu tiles as expected\n", tiles_len);
}

/* Column memory after each macroblock row: that of the tile with fewer rows. Empty before the first. */
static uint8_t after_rows[65][HOOKBARLEY_COLUMN_BYTES * 64];

static void learn_columns(const struct call *tile, struct result *r, struct result *spare) {
    static struct call c;
    c = *tile;
    memset(after_rows, 0, sizeof after_rows);
    for (size_t row = 1; row <= tile->tile.height / 16; row++) {
        c.tile.height = 16 * row;
        lengths_of(c.tile.width, c.tile.height, c.lent);
        both(&c, r, spare);
        memcpy(after_rows[row], r->mem[COLUMNS], c.lent[COLUMNS]);
    }
}

/* Column memory is as after macroblock k - 1. */
static void columns_after(const struct call *c, const struct result *r) {
    size_t columns = c->tile.width / 16, row = r->k / columns, done = HOOKBARLEY_COLUMN_BYTES * (r->k % columns);
    const uint8_t *got = r->mem[COLUMNS];
    column_bits(got, columns);
    if (memcmp(got, after_rows[row + (done > 0)], done) || memcmp(got + done, after_rows[row] + done, c->lent[COLUMNS] - done))
        fail("column memory is not as after %zu macroblocks", r->k);
}

/* Partition p of tile t cut to every shorter length. Returns how many cuts were tried. */
static size_t cut_partition(size_t t, struct call *c, size_t p, struct result *r, struct result *spare, const struct result *full) {
    size_t *length = length_of(c, p), from = *length, last = 0;
    uint64_t first = 0, tokens = 0;
    for (size_t n = 0; n < from; n++) {
        trying("cut, tile %04zu, partition %zu, length %zu", t, p, n);
        *length = n;
        if (both(c, r, spare)) continue;
        same(c, r, full, r->k);
        columns_after(c, r);
        if (r->k > full->k || r->k < last) fail("k %zu after %zu, whole %zu", r->k, last, full->k);
        if (r->first > full->first || r->first < first || r->tokens > full->tokens || r->tokens < tokens)
            fail("a shorter partition reads more symbols");
        last = r->k, first = r->first, tokens = r->tokens;
        if (n % 8 == 0) deblocked(c, r, n % 16 == 0);
    }
    *length = from;
    return from;
}

static void cut(struct result *r, struct result *spare, struct result *full) {
    static struct call c;
    size_t cuts = 0;
    for (size_t t = 0; t < tiles_len; t++) {
        c = tiles[t];
        trying("cut, tile %04zu whole", t);
        if (both(&c, full, spare) || c.tile.width > 1024 || c.tile.height > 1024) continue;
        learn_columns(&c, r, spare);
        for (size_t p = 0; p <= c.tile.count; p++) cuts += cut_partition(t, &c, p, r, spare, full);
    }
    printf("cut: %zu cuts of %zu tiles\n", cuts, tiles_len);
}

/* Another content of partition p leaves the macroblock rows above row p alone. */
static void apart(struct call *c, size_t p, const struct result *before, struct result *r, struct result *spare) {
    static uint8_t old[1 << 17];
    size_t above = p * (c->tile.width / 16), blocks = blocks_of(c);
    change_partition(c, p, old);
    both(c, r, spare);
    memcpy(c->bytes + c->tile.token_starts[p], old, c->tile.token_lengths[p]);
    if (above > blocks) above = blocks;
    size_t k = before->k < above ? before->k : above, l = r->k < above ? r->k : above;
    if (k != l) fail("above partition %zu: %zu and %zu macroblocks", p, k, l);
    same(c, before, r, k);
    size_t both_k = before->k < r->k ? before->k : r->k;
    if (memcmp(before->mem[MODES], r->mem[MODES], HOOKBARLEY_MODE_BYTES * both_k)) fail("modes depend on token partition %zu", p);
    for (int simple = 0; simple < 2; simple++) after_apart(c, p, before, r, simple);
    if (above == blocks && (before->number != r->number || memcmp(before->mem[COLUMNS], r->mem[COLUMNS], c->lent[COLUMNS])))
        fail("partition %zu is not read, and the answer differs", p);
}

static void all_apart(struct result *r, struct result *spare, struct result *full) {
    size_t pairs = 0;
    for (size_t t = 0; t < tiles_len; t++) {
        struct call *c = &tiles[t];
        if (refusal(c)) continue;
        run(c, 1, 0xA5, full);
        for (size_t p = 0; c->tile.count > 1 && p < c->tile.count; p++)
            for (int i = 0; c->tile.token_lengths[p] && i < 8; i++, pairs++) {
                trying("apart, tile %04zu, partition %zu, change %d", t, p, i);
                apart(c, p, full, r, spare);
            }
    }
    printf("apart: %zu pairs that differ in one token partition\n", pairs);
}

static void random_calls(size_t times, struct result *r, struct result *spare, struct result *full) {
    static struct call c;
    size_t further = 0, pairs = 0;
    for (size_t t = 0; t < times; t++) {
        trying("random %zu", t);
        draw_call(&c, LENT);
        if (both(&c, full, spare)) continue;
        if (below(4) == 0) {
            size_t *length = length_of(&c, below(c.tile.count + 1)), from = *length;
            *length = below(from + 1);
            if (both(&c, r, spare) == 0) {
                if (r->k > full->k) fail("a cut finishes more, %zu and %zu", r->k, full->k);
                same(&c, r, full, r->k);
                further++;
            }
            *length = from;
        }
        size_t p = below(c.tile.count);
        if (below(8) == 0 && alone(&c, p)) { apart(&c, p, full, r, spare); pairs++; }
    }
    printf("random: %zu inputs, %zu cut further, %zu pairs\n", times, further, pairs);
}

/* Every set of reasons to refuse: the first check's number is answered. */
static void refused(size_t times, struct result *r, struct result *spare) {
    static struct call c;
    for (size_t t = 0; t < times; t++) {
        size_t why = t % 128;
        trying("refused %zu", t);
        spoil_arguments(&c, why);
        if (both(&c, r, spare) == 0 && why) fail("reasons %zu, and not refused", why);
    }
    printf("refused: %zu inputs with every set of seven reasons\n", times);
}

/* Drawn planes and strengths; wrong sizes, lengths and limits. */
static void deblock_drawn(struct result *r, uint8_t *strengths) {
    static const size_t sides[] = {0, 8, 17, 16400, SIZE_MAX, SIZE_MAX - 15, ((size_t)1 << 32) + 16, (size_t)1 << 60};
    size_t w = 16 * (1 + below(5)), h = 16 * (1 + below(5)), lent[LENT_MARKED], spread = 1 + below(below(3) ? 20 : 256);
    lengths_of(w, h, lent);
    size_t tops[HOOKBARLEY_STRENGTH_BYTES] = {below(4) ? 190 : 60, below(2) ? 64 : 256, below(2) ? 3 : 256, below(4) ? 2 : 256, 256, 256};
    for (size_t i = 0; i < lent[STRENGTHS]; i++) strengths[i] = (uint8_t)below(tops[i % HOOKBARLEY_STRENGTH_BYTES]);
    for (int b = Y; b <= V; b++) {
        uint8_t base = (uint8_t)draw();
        for (size_t i = 0; i < lent[b]; i++) r->mem[b][i] = (uint8_t)(base + below(spread));
    }
    size_t why = below(3) ? 0 : below(8);
    struct deblock_call d = {w, h, {lent[Y], lent[U], lent[V]}, strengths, lent[STRENGTHS], (int)below(2), 0};
    d.want = why & 1 ? HOOKBARLEY_SIZE : why & 2 ? HOOKBARLEY_LENGTH : why & 4 ? HOOKBARLEY_LIMIT : HOOKBARLEY_WHOLE;
    if (why & 4) {
        size_t block = below(lent[STRENGTHS] / HOOKBARLEY_STRENGTH_BYTES);
        strengths[HOOKBARLEY_STRENGTH_BYTES * block + HOOKBARLEY_STRENGTH_LIMIT] = (uint8_t)(190 + below(66));
    }
    if (why & 2) {
        size_t *length = (size_t *[]){&d.lent[Y], &d.lent[U], &d.lent[V], &d.strengths_len}[below(4)];
        *length = below(3) ? *length - 1 : below(2) ? 0 : *length + 1;
    }
    if (why & 1) *(below(2) ? &d.w : &d.h) = sides[below(sizeof sides / sizeof *sides)];
    deblocking(r, &d);
}

static void deblocks(size_t times, struct result *r) {
    static uint8_t strengths[1 << 12];
    for (size_t t = 0; t < times; t++) {
        trying("deblock %zu", t);
        deblock_drawn(r, strengths);
    }
    printf("deblock: %zu deblocked, refused with 1: %zu, 4: %zu, 11: %zu\n", deblockings[HOOKBARLEY_WHOLE], deblockings[HOOKBARLEY_SIZE],
           deblockings[HOOKBARLEY_LENGTH], deblockings[HOOKBARLEY_LIMIT]);
}

/* One edge drawn, of eight samples or of another number, at both guards. */
static void kernel_drawn(void) {
    uint8_t e[20], once[20], simple = (uint8_t)draw(), edge = (uint8_t)draw(), base = (uint8_t)draw();
    uint8_t limit = (uint8_t)draw(), inner = (uint8_t)draw(), threshold = (uint8_t)draw();
    size_t n = below(4) ? 8 : below(17), spread = 1 + below(below(2) ? 12 : 256);
    if (below(2)) simple = 0;
    if (below(2)) edge = 0;
    for (size_t i = 0; i < n; i++) e[i] = (uint8_t)(base + below(spread));
    for (int end = 0; end < 2; end++) {
        uint8_t *s = poisoned(&buffers[Y], n, end, 0, SLACK);
        memcpy(s, e, n);
        uint32_t number = hookbarley_filter(s, n, simple, edge, limit, inner, threshold);
        if (number != (n == 8 ? HOOKBARLEY_WHOLE : HOOKBARLEY_ARGUMENT)) fail("kernel answers %u for %zu samples", number, n);
        if (n != 8 && memcmp(s, e, n)) fail("kernel refuses and writes");
        if (n == 8 && (s[0] != e[0] || s[7] != e[7])) fail("kernel changes sample 0 or 7");
        if (end && memcmp(s, once, n)) fail("kernel answers differ");
        untouched(&buffers[Y], n, end, 0, SLACK);
        memcpy(once, s, n);
    }
}

static void kernel(size_t times) {
    static const uint8_t flat[8] = {100, 100, 100, 100, 110, 110, 110, 110};
    static const struct { uint8_t simple, edge, limit, to[8]; } worked[] = {
        {0, 1, 24, {100, 100, 100, 100, 110, 110, 110, 110}}, {0, 1, 25, {100, 101, 103, 104, 106, 107, 109, 110}},
        {0, 0, 25, {100, 100, 102, 104, 106, 108, 110, 110}}, {1, 0, 25, {100, 100, 100, 102, 107, 110, 110, 110}}};
    trying("kernel");
    for (int i = 0; i < 4; i++) {
        uint8_t *s = memcpy(place(&buffers[Y], 8, 1), flat, 8);
        uint32_t n = hookbarley_filter(s, 8, worked[i].simple, worked[i].edge, worked[i].limit, 0, 0);
        if (n || memcmp(s, worked[i].to, 8)) fail("worked numbers, line %d", i);
    }
    for (size_t t = 0; t < times; t++) kernel_drawn();
    printf("kernel: 4 worked edges, %zu random\n", times);
}

int main(int argc, char **argv) {
    if (argc < 4) { fprintf(stderr, "usage: %s DIR N SEED [random]\n", argv[0]); return 2; }
    size_t times = strtoull(argv[2], NULL, 10);
    begin(argv[3], buffers, BUFFERS);
    printf("seed: %s\n", argv[3]);
    load_all(argv[1]);
    struct result r = new_result(), spare = new_result(), full = new_result();
    whole(argv[1], &r, &spare);
    kernel(times);
    deblocks(times / 4, &r);
    all_apart(&r, &spare, &full);
    random_calls(times, &r, &spare, &full);
    refused(1280, &r, &spare);
    if (argc == 4) cut(&r, &spare, &full);
    printf("answers 0 to 9:");
    for (int i = 0; i < 10; i++) printf(" %zu", answers[i]);
    printf("\nok: %zu calls of the picture call, nothing touched outside\n", calls);
    return 0;
}
