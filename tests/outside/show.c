/* From a frame's bytes to the screen, between guard pages (guard.h) and beside the three calls one after the other: show N SEED FILE..
 * (.webp, or .ivf, of which the first frame counts).
 *
 * What holds of every call, at both guards and over two poisons: answer, counts, header, tile and all memory are what hookbarley_frame,
 * hookbarley_decode and, unless the frame's level is 0, hookbarley_deblock leave; after a refusal nothing has changed. Run here:
 *   files   each frame: its answer, printed;
 *   cut     each frame, some hundred lengths;
 *   apart   each frame of two partitions or more, each partition with other contents: the rows above are the same, but for the lowest
 *           three sample rows where it is filtered;
 *   lengths every set of wrong lengths, of whole frames and refused ones: 9, then 12 to 14, then 4;
 *   again   hookbarley_show on one frame after another in memory lent once: where sizes differ 4, and the tile stays;
 *   random  N frames made from SEED: bytes damaged, cut, or the ten bytes before random ones. */
#include "frame_calls.h"

/* What a call is given: a frame, and how much is lent; the header's length counts entries, the tile's numbers. */
struct call { const uint8_t *bytes; size_t n, lent[LENT], entries, numbers; };

/* What it leaves. */
struct left {
    uint32_t number;
    size_t finished;
    uint64_t first, tokens;
    int32_t header[HOOKBARLEY_ENTRIES];
    struct hookbarley_tile tile;
    uint8_t *mem[LENT];
};

static size_t calls, answers[20], level_0;

static struct left new_left(void) {
    struct left l = {0};
    for (int b = 0; b < LENT; b++) l.mem[b] = malloc(buffers[b].capacity);
    return l;
}

/* ---- the three calls one after the other */
static void in_three(const struct call *c, struct left *l) {
    size_t lent[LENT];
    l->finished = l->first = l->tokens = 0;
    l->number = HOOKBARLEY_ARGUMENT;
    if (c->numbers != HOOKBARLEY_TILE_NUMBERS || c->entries != HOOKBARLEY_ENTRIES) return;
    l->number = hookbarley_take(c->bytes, c->n, l->header, &l->tile);
    if (l->number) return;
    l->number = HOOKBARLEY_LENGTH;
    if (!lengths_for(&l->tile, lent) || memcmp(lent, c->lent, sizeof lent)) return;
    struct hookbarley_memory m = {l->mem[Y], l->mem[U], l->mem[V], l->mem[COLUMNS], l->mem[MODES], l->mem[STRENGTHS]};
    l->number = hookbarley_picture(c->bytes, c->n, l->header, &l->tile, &m, &l->finished, &l->first, &l->tokens);
    if (l->header[HOOKBARLEY_HEADER_LEVEL]) {
        if (hookbarley_deblock_picture(&l->tile, &m)) fail("the deblocking call refuses what was decoded");
    } else if (!all(m.strengths, lent[STRENGTHS], 0)) {
        level_0++;
    }
}

static int refused(uint32_t number) {
    return number != HOOKBARLEY_WHOLE && number != HOOKBARLEY_NO_MODES && number != HOOKBARLEY_NO_TOKENS;
}

/* ---- one call, its buffers ending (end = 1) or starting at a guard, beside what the three left */
static void beside_three(const struct call *c, const struct left *want, int end, int poison) {
    size_t sizes[BUFFERS] = {[ENTRIES] = c->entries * sizeof(int32_t), [TILE] = c->numbers * sizeof(size_t), [FINISHED] = sizeof(size_t),
                             [FIRST_READS] = sizeof(uint64_t), [TOKEN_READS] = sizeof(uint64_t)};
    uint8_t *p[BUFFERS];
    memcpy(sizes, c->lent, sizeof c->lent);
    for (int b = 0; b < BUFFERS; b++)
        if (b != BYTES) p[b] = poisoned(&buffers[b], sizes[b], end, poison, SLACK);
    const uint8_t *in = lay(&buffers[BYTES], c->bytes, c->n, end);
    uint32_t got = hookbarley_key_frame(in, c->n, (int32_t *)p[ENTRIES], c->entries, (size_t *)p[TILE], c->numbers, p[Y], sizes[Y], p[U],
                                        sizes[U], p[V], sizes[V], p[COLUMNS], sizes[COLUMNS], p[MODES], sizes[MODES], p[STRENGTHS],
                                        sizes[STRENGTHS], (size_t *)p[FINISHED], (uint64_t *)p[FIRST_READS], (uint64_t *)p[TOKEN_READS]);
    if (got != want->number) fail("answer %u, the three calls give %u", got, want->number);
    if (memcmp(in, c->bytes, c->n)) fail("the frame is written to");
    if (memcmp(p[FINISHED], &want->finished, sizeof want->finished)) fail("answer %u with other macroblocks finished", got);
    if (memcmp(p[FIRST_READS], &want->first, sizeof want->first) || memcmp(p[TOKEN_READS], &want->tokens, sizeof want->tokens))
        fail("answer %u with other counts", got);
    const void *whole[TILE + 1] = {[ENTRIES] = want->header, [TILE] = &want->tile};
    for (int b = 0; b <= TILE; b++) {
        if (b == BYTES) continue;
        if (b < LENT) whole[b] = want->mem[b];
        if (refused(got) ? !all(p[b], sizes[b], poison) : memcmp(p[b], whole[b], sizes[b]) != 0)
            fail("answer %u, and %s %s", got, buffers[b].name, refused(got) ? "changed" : "is not what the three calls leave");
    }
    for (int b = 0; b < BUFFERS; b++)
        if (b != BYTES) untouched(&buffers[b], sizes[b], end, poison, SLACK);
    calls++;
    answers[got]++;
}

/* A call with all that holds of it; its answer. */
static uint32_t shown(const struct call *c, struct left *l) {
    in_three(c, l);
    beside_three(c, l, 1, 0xA5);
    beside_three(c, l, 0, 0x5A);
    return l->number;
}

/* ---- the frames */
/* A call on these bytes, lent what their own size asks; where they have none, or too large a one, what the file's asks. */
static struct call call_on(const struct file *f, const uint8_t *bytes, size_t n) {
    static int32_t header[HOOKBARLEY_ENTRIES];
    struct hookbarley_tile tile;
    struct call c = {.bytes = bytes, .n = n, .entries = HOOKBARLEY_ENTRIES, .numbers = HOOKBARLEY_TILE_NUMBERS};
    if (hookbarley_take(bytes, n, header, &tile) || !lengths_for(&tile, c.lent)) lengths_for(&f->tile, c.lent);
    return c;
}

static void cut(struct left *l) {
    size_t cuts = 0;
    for (size_t i = 0; i < files_len; i++)
        for (size_t n = 0, step = 1 + files[i].n / 100; n < files[i].n; n += step, cuts++) {
            trying("%s cut to %zu", files[i].name, n);
            struct call c = call_on(&files[i], files[i].bytes, n);
            shown(&c, l);
        }
    printf("cut: %zu cuts of %zu frames\n", cuts, files_len);
}

/* ---- two frames that differ in token partition p alone */
static void rows_same(const struct left *a, const struct left *b, size_t p) {
    size_t wide = a->tile.width / 16, high = a->tile.height / 16, above = p < high ? p : high;
    for (int m = Y; m <= V; m++) {
        size_t side = m == Y ? 16 : 8, rows = above * side;
        if (p < high && a->header[HOOKBARLEY_HEADER_LEVEL]) rows -= rows ? 3 : 0;
        if (memcmp(a->mem[m], b->mem[m], rows * wide * side)) fail("%s above partition %zu differs", buffers[m].name, p);
    }
    if (memcmp(a->mem[MODES], b->mem[MODES], above * wide * HOOKBARLEY_MODE_BYTES)) fail("modes above partition %zu differ", p);
    if (memcmp(a->mem[STRENGTHS], b->mem[STRENGTHS], above * wide * HOOKBARLEY_STRENGTH_BYTES))
        fail("strengths above partition %zu differ", p);
    if (memcmp(a->header, b->header, sizeof a->header) || memcmp(&a->tile, &b->tile, sizeof a->tile)) fail("another header");
    int stop = a->finished < above * wide || b->finished < above * wide;
    if ((stop || p >= high) && (a->number != b->number || a->finished != b->finished)) fail("another stop above partition %zu", p);
    if (p >= high && memcmp(a->mem[COLUMNS], b->mem[COLUMNS], wide * HOOKBARLEY_COLUMN_BYTES))
        fail("no row reads partition %zu, and columns differ", p);
}

static void apart(struct left *before, struct left *after) {
    static uint8_t s[MOST];
    size_t pairs = 0;
    for (size_t i = 0; i < files_len; i++) {
        const struct file *f = &files[i];
        for (size_t turn = 0; f->tile.count > 1 && turn < 5 * f->tile.count; turn++) {
            size_t p = turn % f->tile.count, start = f->tile.token_starts[p], length = f->tile.token_lengths[p];
            trying("apart, %s, partition %zu, change %zu", f->name, p, turn / f->tile.count);
            memcpy(s, f->bytes, f->n);
            struct call whole = call_on(f, f->bytes, f->n), other = call_on(f, s, f->n);
            for (size_t k = 1 + below(4); length && k--;) s[start + below(length)] = (uint8_t)draw();
            if (turn % 3 == 0) memset(s + start, 255, length); /* runs out, mostly */
            shown(&whole, before);
            shown(&other, after);
            rows_same(before, after, p);
            pairs++;
        }
    }
    printf("apart: %zu pairs that differ in one token partition\n", pairs);
}

/* ---- lengths: every set of the eight, on a frame that is taken and on frames that are not */
static void lengths(struct left *l) {
    static uint8_t s[MOST];
    for (size_t i = 0; i < 4 * 4 * 256; i++) {
        const struct file *f = &files[0];
        size_t spoilt = i / 256 % 4;
        memcpy(s, f->bytes, f->n);
        struct call c = call_on(f, s, f->n);
        size_t *each[] = {c.lent, c.lent + 1, c.lent + 2, c.lent + 3, c.lent + 4, c.lent + 5, &c.entries, &c.numbers};
        trying("lengths, set %zu, frame %zu", i % 256, spoilt);
        for (int b = 0; b < 8; b++) {
            size_t others[] = {0, *each[b] - 1, *each[b] + 1, 2 * *each[b]};
            if (i >> b & 1) *each[b] = others[(i / 1024 + (size_t)b) % 4];
        }
        if (spoilt == 1) s[0] |= 1;
        if (spoilt == 2) c.n = 20;
        if (spoilt == 3) s[0] = 0x30, s[1] = s[2] = 0;
        static const uint32_t by_frame[] = {HOOKBARLEY_WHOLE, HOOKBARLEY_NO_KEY_FRAME, HOOKBARLEY_PAST_END, HOOKBARLEY_NO_HEADER};
        uint32_t want = i & 192 ? HOOKBARLEY_ARGUMENT : by_frame[spoilt];
        if (want == HOOKBARLEY_WHOLE && i % 256) want = HOOKBARLEY_LENGTH;
        if (shown(&c, l) != want) fail("answer %u, should be %u", l->number, want);
    }
    printf("lengths: 4096 inputs with every set of eight wrong lengths\n");
}

/* ---- the inline call, on one frame after another in memory lent once */
static void again(const struct file *f, const struct file *g, struct left *l) {
    static int32_t header[HOOKBARLEY_ENTRIES];
    struct hookbarley_tile tile;
    struct hookbarley_memory m;
    size_t finished;
    hookbarley_take(f->bytes, f->n, header, &tile);
    uint8_t *room = malloc(hookbarley_room(&tile));
    hookbarley_lend(&tile, room, &m);
    if (hookbarley_show(f->bytes, f->n, header, &tile, &m, &finished)) fail("not whole");
    struct hookbarley_tile first = tile;
    int same = f->tile.width == g->tile.width && f->tile.height == g->tile.height;
    uint32_t number = hookbarley_show(g->bytes, g->n, header, &tile, &m, &finished);
    if (number != (same ? HOOKBARLEY_WHOLE : HOOKBARLEY_LENGTH)) fail("answer %u", number);
    if (memcmp(&tile, same ? &g->tile : &first, sizeof tile)) fail("another tile");
    struct call c = call_on(g, same ? g->bytes : f->bytes, same ? g->n : f->n);
    in_three(&c, l);
    const uint8_t *planes[] = {m.y, m.u, m.v};
    for (int b = Y; b <= V; b++)
        if (memcmp(planes[b], l->mem[b], c.lent[b])) fail("another picture");
    free(room);
    calls += 2;
}

static void random_calls(size_t times, struct left *l) {
    static uint8_t s[MOST];
    for (size_t i = 0; i < times; i++) {
        trying("random %zu", i);
        size_t n;
        const struct file *f = draw_frame(s, &n);
        struct call c = call_on(f, s, n);
        shown(&c, l);
    }
    printf("random: %zu inputs\n", times);
}

int main(int argc, char **argv) {
    if (argc < 4) { fprintf(stderr, "usage: %s N SEED FILE..\n", argv[0]); return 2; }
    begin(argv[2], buffers, BUFFERS);
    load_frames(argv + 3);
    struct left l = new_left(), other = new_left();
    for (size_t i = 0; i < files_len; i++) {
        trying("%s", files[i].name);
        struct call c = call_on(&files[i], files[i].bytes, files[i].n);
        printf("file %s, a frame of %zu bytes: %u\n", files[i].name, files[i].n, shown(&c, &l));
    }
    cut(&l);
    apart(&l, &other);
    lengths(&l);
    for (size_t i = 0; i < files_len * files_len; i++) {
        trying("%s after %s", files[i % files_len].name, files[i / files_len].name);
        again(&files[i / files_len], &files[i % files_len], &l);
    }
    random_calls(strtoull(argv[1], NULL, 10), &l);
    printf("answers 0, 4, 6, 7, 9, 12, 13, 14: %zu %zu %zu %zu %zu %zu %zu %zu\n", answers[0], answers[4], answers[6], answers[7],
           answers[9], answers[12], answers[13], answers[14]);
    printf("level 0: %zu frames with strengths, not filtered\n", level_0);
    printf("ok: %zu calls from a frame to the screen, as the three calls, nothing touched outside\n", calls);
    return 0;
}
