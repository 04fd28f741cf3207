/* Explanations from outside, between guard pages (guard.h): explain N SEED.
 *
 * `reason` and `stepped` below say what must come out; they were written from RFC 6386, section 15, on signed samples, apart from the
 * library. Run here:
 *   told    N edges made from SEED, of all kinds of strengths: rule, pair, steps and samples after are as worked out here, the samples
 *           after are hookbarley_filter's, and each is its sample with its step added, clipped; every rule and every pair is reached;
 *   deblock the macroblock's edges again through hookbarley_deblock, sixteen to a picture of 32 by 16: its samples are those told;
 *   refused every set of lengths of 0 to 16 of which one is not eight: 9, both numbers 0, nothing written. */
#include "guard.h"

enum { SAMPLES, AFTER, STEPS, RULE, PAIR, BUFFERS };
enum { CAPACITY = 1 << 12 };
static struct guarded buffers[BUFFERS] = {
    [SAMPLES] = {.name = "samples", .capacity = CAPACITY, .input = 1},
    [AFTER] = {.name = "after", .capacity = CAPACITY},
    [STEPS] = {.name = "steps", .capacity = CAPACITY},
    [RULE] = {.name = "rule", .capacity = CAPACITY},
    [PAIR] = {.name = "pair", .capacity = CAPACITY},
};

/* A number of either sign to be added to others. */
static int less(int n) { return (int)below((size_t)n); }

/* One edge and its strengths; what is told of it. */
struct edge { uint8_t s[8], simple, outer, limit, inner, threshold; };
struct told { uint32_t number, rule, pair; uint8_t after[16]; int32_t steps[16]; };

/* ---- what must come out */
static int s8(int x) { return x < -128 ? -128 : x > 127 ? 127 : x; }

static int gap(const struct edge *e, int i, int j) { return abs(e->s[i] - e->s[j]); }

static uint32_t reason(const struct edge *e, uint32_t *pair) {
    static const int pairs[6][2] = {{0, 1}, {1, 2}, {2, 3}, {7, 6}, {6, 5}, {5, 4}};
    *pair = 0;
    if (2 * gap(e, 3, 4) + gap(e, 2, 5) / 2 > e->limit) return HOOKBARLEY_EDGE_FAILED;
    if (e->simple) return HOOKBARLEY_SIMPLE;
    for (int i = 0; i < 6; i++)
        if (gap(e, pairs[i][0], pairs[i][1]) > e->inner) { *pair = (uint32_t)i + 1; return HOOKBARLEY_ROUGH; }
    if (gap(e, 2, 3) > e->threshold || gap(e, 5, 4) > e->threshold) return HOOKBARLEY_HIGH_VARIANCE;
    return e->outer ? HOOKBARLEY_MACROBLOCK_EDGE : HOOKBARLEY_INNER_EDGE;
}

static void stepped(const struct edge *e, uint32_t rule, int32_t *steps) {
    int x[8];
    for (int i = 0; i < 8; i++) x[i] = e->s[i] - 128, steps[i] = 0;
    if (rule == HOOKBARLEY_EDGE_FAILED || rule == HOOKBARLEY_ROUGH) return;
    int a = s8((rule == HOOKBARLEY_INNER_EDGE ? 0 : s8(x[2] - x[5])) + 3 * (x[4] - x[3]));
    if (rule == HOOKBARLEY_MACROBLOCK_EDGE) {
        for (int i = 0; i < 3; i++) {
            steps[3 - i] = s8(((27 - 9 * i) * a + 63) >> 7);
            steps[4 + i] = -steps[3 - i];
        }
        return;
    }
    int f = s8(a + 4) >> 3;
    steps[3] = s8(a + 3) >> 3;
    steps[4] = -f;
    if (rule == HOOKBARLEY_INNER_EDGE) steps[2] = (f + 1) >> 1, steps[5] = -steps[2];
}

/* ---- the call, its buffers ending (end = 1) or starting (end = 0) at a guard */
static void explain(const struct edge *e, const size_t *lengths, int end, int poison, struct told *t) {
    size_t sizes[BUFFERS] = {lengths[0], lengths[1], lengths[2] * sizeof(int32_t), sizeof(uint32_t), sizeof(uint32_t)};
    uint8_t given[16];
    void *p[BUFFERS];
    for (size_t i = 0; i < lengths[0]; i++) given[i] = e->s[i % 8];
    const uint8_t *samples = lay(&buffers[SAMPLES], given, lengths[0], end);
    for (int b = AFTER; b < BUFFERS; b++) p[b] = poisoned(&buffers[b], sizes[b], end, poison, REST);
    t->number = hookbarley_explain(samples, lengths[0], e->simple, e->outer, e->limit, e->inner, e->threshold, p[AFTER], lengths[1],
                                   p[STEPS], lengths[2], p[RULE], p[PAIR]);
    memcpy(&t->rule, p[RULE], sizeof t->rule);
    memcpy(&t->pair, p[PAIR], sizeof t->pair);
    memcpy(t->after, p[AFTER], sizes[AFTER]);
    memcpy(t->steps, p[STEPS], sizes[STEPS]);
    for (int b = AFTER; b < BUFFERS; b++) untouched(&buffers[b], sizes[b], end, poison, REST);
}

static size_t rules[7], pairs[7], clipped;

static void check(const struct edge *e, struct told *t) {
    static const size_t eight[] = {8, 8, 8};
    uint32_t pair, rule = reason(e, &pair);
    int32_t steps[8];
    uint8_t after[8];
    stepped(e, rule, steps);
    memcpy(after, e->s, 8);
    if (hookbarley_filter(after, 8, e->simple, e->outer, e->limit, e->inner, e->threshold)) fail("the kernel refuses");
    for (int end = 0; end < 2; end++) {
        explain(e, eight, end, end ? 0xA5 : 0x5A, t);
        if (t->number) fail("answer %u", t->number);
        if (t->rule != rule || t->pair != pair) fail("rule %u pair %u, should be %u and %u", t->rule, t->pair, rule, pair);
        if (memcmp(t->steps, steps, sizeof steps)) fail("a step is not as worked out");
        if (memcmp(t->after, after, 8)) fail("a sample is not the kernel's");
        for (int i = 0; i < 8; i++) {
            int x = e->s[i] + steps[i];
            if (t->after[i] != (x < 0 ? 0 : x > 255 ? 255 : x)) fail("sample %d is not its step added and clipped", i);
            clipped += x < 0 || x > 255;
        }
    }
    rules[rule]++;
    pairs[pair]++;
}

static struct edge drawn(void) {
    struct edge e;
    int base = less(320) - 32, spread = 1 + less(1 << less(8)), step = less(3) ? less(24) - 12 : less(256) - 128;
    int cut = less(8), jump = less(2) ? 0 : less(128) - 64; /* often a jump between two neighbours on one side */
    for (int i = 0; i < 8; i++) {
        int x = base + (i < 4 ? 0 : step) + less(spread) + ((cut < 4 ? i < cut : i > cut) ? jump : 0);
        e.s[i] = (uint8_t)(x < 0 ? 0 : x > 255 ? 255 : x);
    }
    e.simple = less(4) ? 0 : (uint8_t)(1 + less(255));
    e.outer = less(2) ? 0 : (uint8_t)(1 + less(255));
    e.limit = (uint8_t)(less(2) ? less(190) : less(256));
    e.inner = (uint8_t)(less(2) ? less(64) : less(256));
    e.threshold = (uint8_t)(less(4) ? less(3) : less(256));
    return e;
}

/* Sixteen macroblock edges of one kind and strength, in the rows of a picture of 32 by 16. */
static void through_deblock(void) {
    struct edge e = drawn();
    struct told t;
    uint8_t y[512], u[128], v[128], want[512];
    uint8_t strengths[2 * HOOKBARLEY_STRENGTH_BYTES] = {0}, *right = strengths + HOOKBARLEY_STRENGTH_BYTES;
    e.simple = (uint8_t)less(2);
    e.outer = 1;
    uint8_t limit = (uint8_t)(1 + less(189));
    e.limit = limit + 4;
    right[HOOKBARLEY_STRENGTH_LIMIT] = limit;
    right[HOOKBARLEY_STRENGTH_INNER] = e.inner;
    right[HOOKBARLEY_STRENGTH_THRESHOLD] = e.threshold;
    memset(u, 128, sizeof u);
    memset(v, 128, sizeof v);
    for (int i = 0; i < 512; i++) want[i] = y[i] = (uint8_t)draw();
    for (int row = 0; row < 16; row++) {
        struct edge d = drawn();
        memcpy(e.s, d.s, 8);
        memcpy(y + 32 * row + 12, e.s, 8);
        memcpy(want + 32 * row, y + 32 * row, 32);
        check(&e, &t);
        memcpy(want + 32 * row + 12, t.after, 8);
    }
    if (hookbarley_deblock(y, 512, u, 128, v, 128, strengths, sizeof strengths, 32, 16, e.simple)) fail("deblocking refuses");
    if (memcmp(y, want, 512)) fail("deblocking leaves other samples than those told");
}

static void refused(const size_t *lengths) {
    struct edge e = drawn();
    struct told t;
    trying("refused %zu %zu %zu", lengths[0], lengths[1], lengths[2]);
    for (int end = 0; end < 2; end++) {
        explain(&e, lengths, end, 0xA5, &t);
        if (t.number != HOOKBARLEY_ARGUMENT || t.rule || t.pair) fail("answer %u %u %u, should be 9 0 0", t.number, t.rule, t.pair);
        if (!all(t.after, lengths[1], 0xA5)) fail("refused, and after was written");
        if (!all((uint8_t *)t.steps, lengths[2] * sizeof *t.steps, 0xA5)) fail("refused, and steps was written");
    }
}

static void print_told(size_t n) {
    printf("told %zu edges: edge failed %zu, rough %zu (", n, rules[HOOKBARLEY_EDGE_FAILED], rules[HOOKBARLEY_ROUGH]);
    for (int i = HOOKBARLEY_P3_P2; i <= HOOKBARLEY_Q1_Q0; i++) printf("%zu%s", pairs[i], i < HOOKBARLEY_Q1_Q0 ? " " : ")");
    printf(", simple %zu, high variance %zu", rules[HOOKBARLEY_SIMPLE], rules[HOOKBARLEY_HIGH_VARIANCE]);
    printf(", macroblock %zu, inner %zu", rules[HOOKBARLEY_MACROBLOCK_EDGE], rules[HOOKBARLEY_INNER_EDGE]);
    printf("; %zu sums clipped\n", clipped / 2);
}

int main(int argc, char **argv) {
    if (argc != 3) { fprintf(stderr, "explain N SEED\n"); return 2; }
    size_t n = strtoull(argv[1], NULL, 10), sets = 0;
    struct told t;
    begin(argv[2], buffers, BUFFERS);
    for (size_t i = 0; i < n; i++) {
        trying("told %zu", i);
        struct edge e = drawn();
        check(&e, &t);
    }
    for (int i = 1; i < 7; i++)
        if (n >= 2000 && (!rules[i] || !pairs[i])) fail("rule or pair %d was never reached", i);
    print_told(n);
    for (size_t i = 0; i < n / 16; i++) {
        trying("deblock %zu", i);
        through_deblock();
    }
    for (size_t i = 0; i < 17 * 17 * 17; i++) {
        size_t lengths[] = {i % 17, i / 17 % 17, i / 289};
        if (lengths[0] == 8 && lengths[1] == 8 && lengths[2] == 8) continue;
        refused(lengths);
        sets++;
    }
    printf("%zu edges told, %zu pictures deblocked, %zu sets of lengths refused\n", n, n / 16, sets);
    return 0;
}
