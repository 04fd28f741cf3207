/* The rescue call from outside, with damaged input, between guard pages (guard.h) and beside the picture call: rescue DIR N SEED.
 *
 * DIR holds NNNN.case (tests/outside/README.md). What holds of every call that is not refused, at both guards and over two poisons:
 *   marks   0 for what the picture call finishes, 1 from there to *kept, 2 from there on; *kept goes further only where it answers 7;
 *   whole   macroblocks marked 0 are the picture call's, and where it does not answer 7 all memory is;
 *   rebuilt macroblocks marked 1 are counted empty: they filter inside only where modes are small, and leave flags of 0;
 *   grey    the others are 128 and 0.
 * Run here:
 *   cut     every tile, every partition, some forty lengths: tokens decide neither *kept nor modes nor strengths but for the inner edges;
 *   apart   every tile of two partitions or more, every partition, half of them with another one cut: another content leaves the
 *           macroblock rows above alone, marks included, and all of the picture where it stopped above;
 *   random  N inputs made from SEED, valid, damaged and absurd, some cut further, some changed in one partition;
 *   refused every set of reasons to refuse, marks of another length among them: the number is that of the first check, nothing is written;
 *   deblock after many of these, both kinds: what a plain filter makes of the planes (plain_filter.h), never refused, grey stays grey. */
#include "drawn_calls.h"
#include "plain_filter.h"

/* What the two calls leave of the same arguments. */
struct pair { struct result picture, saved; };

static struct pair new_pair(void) { return (struct pair){new_result(), new_result()}; }

static size_t calls, refusals, marked[3];

/* The picture call's refusal; its fourth check covers the marks too. */
static uint32_t rescue_refusal(const struct call *c) {
    uint32_t number = refusal(c);
    int checked = number == HOOKBARLEY_WHOLE || number == HOOKBARLEY_PARTITION;
    return checked && c->lent[MARKS] != blocks_of(c) ? HOOKBARLEY_LENGTH : number;
}

static void marks_sound(const struct pair *r, size_t blocks) {
    size_t k = r->picture.k, kept = r->saved.k;
    const uint8_t *marks = r->saved.mem[MARKS];
    if (kept > blocks || (r->picture.number == HOOKBARLEY_NO_TOKENS ? kept <= k : kept != k))
        fail("%zu of %zu macroblocks kept, the picture call answers %u %zu", kept, blocks, r->picture.number, k);
    if (!all(marks, k, HOOKBARLEY_MARK_WHOLE) || !all(marks + k, kept - k, HOOKBARLEY_MARK_MODES) ||
        !all(marks + kept, blocks - kept, HOOKBARLEY_MARK_GREY))
        fail("marks are not 0 up to %zu, 1 up to %zu, then 2", k, kept);
    marked[HOOKBARLEY_MARK_WHOLE] += k, marked[HOOKBARLEY_MARK_MODES] += kept - k, marked[HOOKBARLEY_MARK_GREY] += blocks - kept;
}

/* A column has the lowest modes of its last macroblock that is not grey, which leaves no flags where it is rebuilt; else it is as the
 * picture call leaves it. */
static void columns_sound(const struct call *c, const struct pair *r) {
    size_t columns = c->tile.width / 16, k = r->picture.k, kept = r->saved.k;
    column_bits(r->saved.mem[COLUMNS], columns);
    for (size_t x = 0; x < columns; x++) {
        const uint8_t *column = r->saved.mem[COLUMNS] + HOOKBARLEY_COLUMN_BYTES * x;
        size_t last = x < kept ? kept - 1 - (kept - 1 - x) % columns : x;
        const uint8_t *lowest = r->saved.mem[MODES] + HOOKBARLEY_MODE_BYTES * last + HOOKBARLEY_MODE_LUMA + 12;
        for (int i = 0; i < 4; i++)
            if (((column[0] << 8 | column[1]) >> 4 * i & 15) != lowest[i]) fail("column %zu has not the modes of macroblock %zu", x, last);
        if (k <= last && last < kept) {
            if (column[2] || column[3]) fail("column %zu has flags of macroblock %zu, which is rebuilt", x, last);
        } else if (memcmp(column, r->picture.mem[COLUMNS] + HOOKBARLEY_COLUMN_BYTES * x, HOOKBARLEY_COLUMN_BYTES)) {
            fail("column %zu is not as the picture call leaves it", x);
        }
    }
}

/* What holds of one answer, `poison` having been what was lent. */
static void sound(const struct call *c, const struct pair *r, uint32_t want, int poison) {
    const struct result *saved = &r->saved;
    if (want) {
        refused_soundly(c, saved, want, LENT_MARKED, poison);
        return;
    }
    if (saved->number != HOOKBARLEY_WHOLE) fail("answer %u, should be 0", saved->number);
    marks_sound(r, blocks_of(c));
    same(c, &r->picture, saved, r->picture.k);
    columns_sound(c, r);
    planes_rest(c, saved, "");
    records_sound(saved, blocks_of(c));
    for (size_t i = r->picture.k; i < saved->k; i++) {
        const uint8_t *t = saved->mem[STRENGTHS] + HOOKBARLEY_STRENGTH_BYTES * i;
        int inside = t[HOOKBARLEY_STRENGTH_LIMIT] && t[HOOKBARLEY_STRENGTH_SMALL]; /* with a limit of 0 nothing is filtered */
        if (t[HOOKBARLEY_STRENGTH_INSIDE] != inside) fail("macroblock %zu is not counted empty", i);
    }
}

/* Both places, two poisons, beside the picture call; everything that holds of every call. */
static uint32_t rescued(const struct call *c, struct pair *r) {
    static struct pair spare;
    uint32_t want = rescue_refusal(c);
    if (!spare.saved.mem[0]) spare.saved = new_result();
    if (!want) run(c, 1, 0xA5, &r->picture);
    run_rescue(c, 1, 0xA5, &r->saved);
    sound(c, r, want, 0xA5);
    spare.picture = r->picture;
    run_rescue(c, 0, 0x5A, &spare.saved);
    sound(c, &spare, want, 0x5A);
    for (int b = 0; want == 0 && b < LENT_MARKED; b++)
        if (memcmp(r->saved.mem[b], spare.saved.mem[b], c->lent[b])) fail("%s depends on what it held", buffers[b].name);
    calls += 2, refusals += want != 0;
    return want;
}

/* Of two tiles alike but for tokens as many macroblocks are kept, with the same modes, and the same strengths but for the inner edges. */
static void alike_but_tokens(const struct call *c, const struct result *a, const struct result *b) {
    if (a->k != b->k) fail("other tokens, and %zu and %zu macroblocks are kept", a->k, b->k);
    if (memcmp(a->mem[MODES], b->mem[MODES], c->lent[MODES])) fail("other tokens, and modes differ");
    for (size_t i = 0; i < c->lent[STRENGTHS]; i++)
        if (i % HOOKBARLEY_STRENGTH_BYTES != HOOKBARLEY_STRENGTH_INSIDE && a->mem[STRENGTHS][i] != b->mem[STRENGTHS][i])
            fail("other tokens, and strengths of macroblock %zu differ", i / HOOKBARLEY_STRENGTH_BYTES);
}

/* A token partition cut to a drawn length, further than `before`. */
static void cut_tokens(struct call *c, const struct pair *before, struct pair *r) {
    size_t *length = length_of(c, 1 + below(c->tile.count)), from = *length;
    *length = below(from + 1);
    rescued(c, r);
    alike_but_tokens(c, &before->saved, &r->saved);
    if (r->picture.k > before->picture.k) fail("a cut leaves more whole, %zu and %zu", r->picture.k, before->picture.k);
    *length = from;
}

/* Partition p of tile t cut to some lengths; where it is the first, then with a token partition cut too. Returns how many were tried. */
static size_t cut_partition(size_t t, struct call *c, size_t p, const struct pair *whole, struct pair *r, struct pair *spare) {
    size_t *length = length_of(c, p), from = *length, step = 1 + from / 40, cuts = 0;
    for (size_t n = below(step); n < from; n += step, cuts++) {
        trying("cut, tile %04zu, partition %zu, length %zu", t, p, n);
        *length = n;
        if (rescued(c, r)) fail("a tile was refused");
        if (p) alike_but_tokens(c, &whole->saved, &r->saved);
        else cut_tokens(c, r, spare);
        deblocked(c, &r->saved, (int)below(2));
    }
    *length = from;
    return cuts;
}

static void cut(struct pair *whole, struct pair *r, struct pair *spare) {
    static struct call c;
    size_t cuts = 0;
    for (size_t t = 0; t < tiles_len; t++) {
        copy(&c, &tiles[t]);
        trying("tile %04zu whole", t);
        if (rescued(&c, whole)) fail("a tile was refused");
        for (size_t p = 0; p <= c.tile.count; p++) cuts += cut_partition(t, &c, p, whole, r, spare);
    }
    printf("cut: %zu cuts of %zu tiles\n", cuts, tiles_len);
}

/* Another content of token partition p leaves the macroblock rows above row p alone, and all where the picture stopped above it. */
static void apart(struct call *c, size_t p, const struct pair *before, struct pair *r) {
    static uint8_t old[1 << 17];
    size_t above = p * (c->tile.width / 16), blocks = blocks_of(c);
    change_partition(c, p, old);
    rescued(c, r);
    memcpy(c->bytes + c->tile.token_starts[p], old, c->tile.token_lengths[p]);
    if (above > blocks) above = blocks;
    alike_but_tokens(c, &before->saved, &r->saved);
    same(c, &before->saved, &r->saved, above);
    if (memcmp(before->saved.mem[MARKS], r->saved.mem[MARKS], above)) fail("marks above partition %zu differ", p);
    int settled = above == blocks || before->picture.k < above;
    for (int b = 0; settled && b < LENT_MARKED; b++)
        if (memcmp(before->saved.mem[b], r->saved.mem[b], c->lent[b]))
            fail("partition %zu is not read, and %s differs", p, buffers[b].name);
    for (int simple = 0; simple < 2; simple++) after_apart(c, p, &before->saved, &r->saved, simple);
}

static void all_apart(struct pair *before, struct pair *r) {
    static struct call c;
    size_t pairs = 0;
    for (size_t t = 0; t < tiles_len; t++)
        for (size_t p = 0; tiles[t].tile.count > 1 && p < tiles[t].tile.count; p++)
            for (int i = 0; i < 4; i++) {
                trying("apart, tile %04zu, partition %zu, change %d", t, p, i);
                copy(&c, &tiles[t]);
                size_t *length = length_of(&c, 1 + below(c.tile.count));
                if (i % 2) *length = below(*length + 1);
                if (rescued(&c, before) || !alone(&c, p)) continue;
                apart(&c, p, before, r);
                pairs++;
            }
    printf("apart: %zu pairs that differ in one token partition\n", pairs);
}

static void random_calls(size_t times, struct pair *whole, struct pair *r) {
    static struct call c;
    size_t further = 0, pairs = 0;
    for (size_t t = 0; t < times; t++) {
        trying("random %zu", t);
        draw_call(&c, LENT_MARKED);
        if (rescued(&c, whole)) continue;
        if (below(4) == 0) { cut_tokens(&c, whole, r); further++; }
        size_t p = below(c.tile.count);
        if (below(8) == 0 && alone(&c, p)) { apart(&c, p, whole, r); pairs++; }
        if (below(8) == 0) deblocked(&c, &whole->saved, (int)below(2));
    }
    printf("random: %zu inputs, %zu cut further, %zu pairs\n", times, further, pairs);
}

/* Every set of reasons to refuse, marks of another length the eighth of them. */
static void refused(size_t times, struct pair *r) {
    static struct call c;
    for (size_t t = 0; t < times; t++) {
        size_t why = t % 256;
        trying("refused %zu", t);
        spoil_arguments(&c, why);
        size_t lengths[] = {0, c.lent[MARKS] - 1, c.lent[MARKS] + 1, 2 * c.lent[MARKS]};
        if (why & 128) c.lent[MARKS] = lengths[below(4)];
        if (rescued(&c, r) == 0 && why) fail("reasons %zu, and not refused", why);
    }
    printf("refused: %zu inputs with every set of eight reasons\n", times);
}

int main(int argc, char **argv) {
    if (argc != 4) { fprintf(stderr, "usage: %s DIR N SEED\n", argv[0]); return 2; }
    size_t times = strtoull(argv[2], NULL, 10);
    begin(argv[3], buffers, BUFFERS);
    printf("seed: %s\n", argv[3]);
    load_all(argv[1]);
    struct pair whole = new_pair(), r = new_pair(), spare = new_pair();
    cut(&whole, &r, &spare);
    all_apart(&whole, &r);
    random_calls(times, &whole, &r);
    refused(1280, &r);
    printf("deblock: %zu deblocked\n", deblockings[HOOKBARLEY_WHOLE]);
    printf("marked: %zu whole, %zu from modes, %zu grey\n", marked[0], marked[1], marked[2]);
    printf("ok: %zu calls of the rescue call, %zu inputs refused, nothing touched outside\n", calls, refusals);
    return 0;
}
