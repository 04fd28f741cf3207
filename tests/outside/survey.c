/* The survey calls from outside, with damaged input, between guard pages (guard.h) and beside the picture call: survey DIR N SEED.
 *
 * DIR holds NNNN.case (tests/outside/README.md). What holds of every call, at both guards and over two poisons:
 *   picture  answer, macroblocks finished, symbols read and all lent memory are the picture call's, refusals 1 to 5 too;
 *   record   it is what it was and a tally of its own of that answer and memory (survey_calls.h), place by place;
 *   15       exactly where a sum passes 2^63-1: the picture is decoded all the same, the record is as it was;
 *   9        where there are not 37 counts or not 28 numbers of a tile: nothing has changed, the outputs are 0.
 * Run here:
 *   cut      every tile, every partition, some twenty lengths, over a record of zeros and a drawn one;
 *   full     every tile, every count that it raises: the most that still fits, and one more;
 *   random   N inputs made from SEED, valid, damaged and absurd, over drawn records, some of them of another length;
 *   refused  every set of reasons to refuse, a record of another length among them;
 *   add      N pairs of drawn records, some of another length;
 *   fold     deliveries of drawn calls: folded in order, in another order, and in two parts that are added, the record is the same; each
 *            table sums to what the calls finished. */
#include "survey_calls.h"

static size_t calls, refusals, full_records;

static struct record zeros(void) { return (struct record){.length = COUNTS}; }

/* Zeros, small numbers, or numbers near the limit in a few places. */
static struct record draw_record(void) {
    struct record r = zeros();
    size_t kind = below(4);
    for (int i = 0; kind && i < COUNTS; i++) r.counts[i] = below(1000000);
    for (size_t x = kind == 3 ? 1 + below(3) : 0; x--;) {
        uint64_t near[] = {LIMIT, LIMIT - 1, LIMIT - below(64), LIMIT - below(100000), (uint64_t)LIMIT + 1 + below(8), UINT64_MAX};
        r.counts[below(COUNTS)] = near[below(6)];
    }
    return r;
}

/* A length that is not that of a record. */
static void spoil_length(struct record *r) {
    static const size_t lengths[] = {0, 1, COUNTS - 1, COUNTS + 1, MOST_COUNTS};
    r->length = lengths[below(5)];
    for (size_t i = COUNTS; i < r->length; i++) r->counts[i] = draw();
}

/* One call beside the picture call's, at one guard. Returns the record that it leaves. */
static struct record beside_picture(const struct call *c, const struct record *before, int end, int poison, struct result *picture) {
    static struct result r;
    struct record after = *before;
    if (!r.mem[0]) r = new_result();
    run(c, end, poison, picture);
    run_survey(c, end, poison, &after, &r);
    calls++;
    if (before->length != COUNTS || c->tile_len != HOOKBARLEY_TILE_NUMBERS) {
        refused_soundly(c, &r, HOOKBARLEY_ARGUMENT, LENT, poison);
        if (!same_record(before, &after)) fail("refused with 9, and the record has changed");
        refusals++;
        return after;
    }
    struct record added = tallied(picture), want = sum(before, &added);
    int good = fits(before, &added);
    uint32_t number = good ? picture->number : HOOKBARLEY_FULL;
    if (r.number != number || r.k != picture->k) fail("answer %u %zu, should be %u %zu", r.number, r.k, number, picture->k);
    if (r.first != picture->first || r.tokens != picture->tokens) fail("other symbols are read than by the picture call");
    for (int b = 0; b < LENT; b++)
        if (memcmp(r.mem[b], picture->mem[b], c->lent[b])) fail("%s is not as the picture call leaves it", buffers[b].name);
    if (!good && !same_record(before, &after)) fail("answer 15, and the record has changed");
    for (int i = 0; good && i < COUNTS; i++)
        if (after.counts[i] != want.counts[i])
            fail("count %d is %llu, should be %llu", i, (unsigned long long)after.counts[i], (unsigned long long)want.counts[i]);
    refusals += picture->number >= HOOKBARLEY_SIZE && picture->number <= HOOKBARLEY_PARTITION;
    full_records += !good;
    return after;
}

/* Both places, two poisons; everything that holds of every call. */
static struct record surveyed(const struct call *c, const struct record *before, struct result *picture) {
    struct record one = beside_picture(c, before, 0, 0x5A, picture), other = beside_picture(c, before, 1, 0xA5, picture);
    if (!same_record(&one, &other)) fail("the record depends on what was lent");
    return one;
}

static void cut(struct result *picture) {
    static struct call c;
    const struct record none = zeros();
    size_t cuts = 0;
    for (size_t t = 0; t < tiles_len; t++) {
        copy(&c, &tiles[t]);
        for (size_t p = 0; p <= c.tile.count; p++) {
            size_t *length = length_of(&c, p), from = *length, step = 1 + from / 20;
            for (size_t n = below(step); n <= from; n += step, cuts++) {
                trying("cut, tile %04zu, partition %zu, length %zu", t, p, n);
                *length = n;
                struct record before = draw_record();
                surveyed(&c, &none, picture);
                surveyed(&c, &before, picture);
            }
            *length = from;
        }
    }
    printf("cut: %zu cuts of %zu tiles\n", cuts, tiles_len);
}

/* Each count that a picture raises: the most that fits, and one more. */
static void full(struct result *picture) {
    size_t tried = 0;
    for (size_t t = 0; t < tiles_len; t++) {
        struct record before = zeros(), added = surveyed(&tiles[t], &before, picture);
        for (int i = 0; i < COUNTS; i++) {
            trying("full, tile %04zu, count %d", t, i);
            before = draw_record();
            before.counts[i] = LIMIT - added.counts[i];
            surveyed(&tiles[t], &before, picture);
            before = zeros();
            before.counts[i] = LIMIT - added.counts[i] + 1;
            size_t was = full_records;
            surveyed(&tiles[t], &before, picture);
            if (full_records != was + 2) fail("a count of 2^63-%llu fits", (unsigned long long)added.counts[i]);
            tried++;
        }
    }
    printf("full: %zu counts up to their limit and past it\n", tried);
}

static void random_calls(size_t times, struct result *picture) {
    static struct call c;
    for (size_t t = 0; t < times; t++) {
        trying("random %zu", t);
        struct record before = draw_record();
        draw_call(&c, LENT);
        if (below(16) == 0) spoil_length(&before);
        surveyed(&c, &before, picture);
    }
    printf("random: %zu inputs\n", times);
}

/* Every set of reasons to refuse, a record of another length the eighth of them. */
static void refused(size_t times, struct result *picture) {
    static struct call c;
    for (size_t t = 0; t < times; t++) {
        size_t why = t % 256;
        trying("refused %zu", t);
        struct record before = draw_record();
        spoil_arguments(&c, why);
        if (why & 128) spoil_length(&before);
        surveyed(&c, &before, picture);
    }
    printf("refused: %zu inputs with every set of eight reasons\n", times);
}

/* One addition, at both guards. */
static void added(const struct record *a, const struct record *b) {
    int long_enough = a->length == COUNTS && b->length == COUNTS;
    uint32_t want = !long_enough ? HOOKBARLEY_ARGUMENT : fits(a, b) ? HOOKBARLEY_WHOLE : HOOKBARLEY_FULL;
    struct record both = want ? *a : sum(a, b);
    for (int end = 0; end < 2; end++) {
        struct record got = *a;
        uint32_t number = run_add(&got, b, end, end ? 0xA5 : 0x5A);
        if (number != want) fail("answer %u, should be %u", number, want);
        if (!same_record(&got, &both)) fail("answer %u, and the record is not as it should be", number);
        calls++;
    }
}

static void add(size_t times) {
    for (size_t t = 0; t < times; t++) {
        trying("add %zu", t);
        struct record a = draw_record(), b = draw_record();
        if (below(8) == 0) spoil_length(&a);
        if (below(8) == 0) spoil_length(&b);
        added(&a, &b);
        if (a.length != COUNTS || b.length != COUNTS) continue;
        int i = (int)below(COUNTS);
        a = zeros();
        a.counts[i] = LIMIT - (b.counts[i] > LIMIT ? 0 : b.counts[i]) + below(2);
        added(&a, &b);
    }
    printf("add: %zu pairs\n", times);
}

/* A delivery: drawn calls, kept to be folded again. */
enum { DELIVERY = 12 };
static struct call delivery[DELIVERY];

static struct record folded(const size_t *order, size_t from, size_t to, struct result *picture, size_t *finished) {
    struct record r = zeros();
    for (size_t i = from; i < to; i++) {
        r = surveyed(&delivery[order[i]], &r, picture);
        *finished += picture->k;
    }
    return r;
}

/* The totals that the calls ask for: their number, what they finished, sixteen for each small one. */
static void totals_sound(const struct record *r, size_t count, size_t finished) {
    static const struct { int from, rows; } by_macroblock[] = {
        {HOOKBARLEY_SURVEY_SEGMENTS, 4}, {HOOKBARLEY_SURVEY_LUMA, 5}, {HOOKBARLEY_SURVEY_CHROMA, 4}, {HOOKBARLEY_SURVEY_SKIP, 2},
        {HOOKBARLEY_SURVEY_INSIDE, 2}};
    if (total(r, HOOKBARLEY_SURVEY_ANSWERS, 8) != count) fail("the answers do not sum to %zu calls", count);
    for (int i = 0; i < 5; i++)
        if (total(r, by_macroblock[i].from, by_macroblock[i].rows) != finished)
            fail("the table at %d does not sum to %zu macroblocks", by_macroblock[i].from, finished);
    if (total(r, HOOKBARLEY_SURVEY_SUBBLOCKS, 10) != 16 * r->counts[HOOKBARLEY_SURVEY_SMALL])
        fail("sub-blocks are not sixteen a small one");
}

static void fold(size_t times, struct result *picture) {
    for (size_t t = 0; t < times; t++) {
        size_t order[DELIVERY], count = 0, finished = 0, ignored = 0;
        trying("fold %zu", t);
        while (count < DELIVERY) {
            draw_call(&delivery[count], LENT);
            if (delivery[count].tile_len != HOOKBARLEY_TILE_NUMBERS) continue; /* no call is made */
            order[count] = count, count++;
        }
        struct record all = folded(order, 0, count, picture, &finished);
        totals_sound(&all, count, finished);
        for (size_t i = count; i-- > 1;) {
            size_t j = below(i + 1), x = order[i];
            order[i] = order[j], order[j] = x;
        }
        size_t middle = below(count + 1);
        struct record again = folded(order, 0, count, picture, &ignored), one = folded(order, 0, middle, picture, &ignored);
        struct record rest = folded(order, middle, count, picture, &ignored);
        if (!same_record(&all, &again)) fail("another order gives another record");
        if (run_add(&one, &rest, 1, 0xA5) || !same_record(&all, &one)) fail("two parts added are not the whole");
    }
    printf("fold: %zu deliveries of %d calls\n", times, DELIVERY);
}

int main(int argc, char **argv) {
    if (argc != 4) { fprintf(stderr, "usage: %s DIR N SEED\n", argv[0]); return 2; }
    size_t times = strtoull(argv[2], NULL, 10);
    begin_survey(argv[3]);
    printf("seed: %s\n", argv[3]);
    load_all(argv[1]);
    struct result picture = new_result();
    cut(&picture);
    full(&picture);
    random_calls(times, &picture);
    refused(1280, &picture);
    add(times);
    fold(1 + times / 200, &picture);
    printf("ok: %zu calls of the survey calls, %zu refused, %zu full, nothing touched outside\n", calls, refusals, full_records);
    return 0;
}
