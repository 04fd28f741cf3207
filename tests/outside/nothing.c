/* NULL with length 0 for each slice of each call, alone and with every set of the others: the answer is the one that include/hookbarley.h
 * gives, and nothing behind NULL is touched. The compiler checks that the places of a tile's numbers are those of its struct. */
#include "guard.h"

#define AT(member, place) _Static_assert(offsetof(struct hookbarley_tile, member) == (place) * sizeof(size_t), #member)
AT(width, HOOKBARLEY_TILE_WIDTH);
AT(height, HOOKBARLEY_TILE_HEIGHT);
AT(true_width, HOOKBARLEY_TILE_TRUE_WIDTH);
AT(true_height, HOOKBARLEY_TILE_TRUE_HEIGHT);
AT(simple, HOOKBARLEY_TILE_SIMPLE);
AT(count, HOOKBARLEY_TILE_COUNT);
AT(first_start, HOOKBARLEY_TILE_FIRST_START);
AT(first_length, HOOKBARLEY_TILE_FIRST_LENGTH);
AT(token_starts, HOOKBARLEY_TILE_TOKEN_STARTS);
AT(token_lengths, HOOKBARLEY_TILE_TOKEN_LENGTHS);
AT(at, HOOKBARLEY_TILE_AT);
AT(range, HOOKBARLEY_TILE_RANGE);
AT(shifts, HOOKBARLEY_TILE_SHIFTS);
AT(window, HOOKBARLEY_TILE_WINDOW);
_Static_assert(sizeof(struct hookbarley_tile) == HOOKBARLEY_TILE_NUMBERS * sizeof(size_t), "a tile is its numbers");

/* One macroblock and its partitions, which have no bytes. */
static const struct hookbarley_tile tile = {.width = 16, .height = 16, .count = 1, .at = 2, .range = 255};
static int32_t header[HOOKBARLEY_ENTRIES];
static uint8_t bytes[64], room[1024];
static size_t calls;

/* The i-th slice of a call is left out where bit i of `out` is set. */
#define GIVEN(i, from, count) (out >> (i) & 1 ? NULL : (from)), (out >> (i) & 1 ? 0 : (count))

static void must_be(uint32_t got, uint32_t want) {
    if (got != want) fail("answer %u, should be %u", got, want);
    calls++;
}

/* What the calls on a tile take first, nine slices. */
#define GIVEN_MEMORY                                                                                                                       \
    GIVEN(3, m.y, n.y), GIVEN(4, m.u, n.u), GIVEN(5, m.v, n.v), GIVEN(6, m.columns, n.columns), GIVEN(7, m.modes, n.modes),                \
        GIVEN(8, m.strengths, n.strengths)
#define GIVEN_TILE(tile)                                                                                                                   \
    GIVEN(0, bytes, sizeof bytes), GIVEN(1, header, HOOKBARLEY_ENTRIES), GIVEN(2, (const size_t *)&tile, HOOKBARLEY_TILE_NUMBERS),         \
        GIVEN_MEMORY

/* Their refusal without these; 0 where nothing but the bytes is left out. */
static uint32_t refusal(unsigned out) { return out & 4 ? HOOKBARLEY_ARGUMENT : out & ~1u ? HOOKBARLEY_LENGTH : HOOKBARLEY_WHOLE; }

/* The room poisoned and cut into what a tile is lent. */
static struct hookbarley_memory lent(void) {
    struct hookbarley_memory m;
    hookbarley_lend(&tile, memset(room, 0xA5, sizeof room), &m);
    return m;
}

/* The planes are grey, or after a refusal as they were. */
static void planes_are(const struct hookbarley_lengths *n, uint32_t refused) {
    if (!all(room, n->y + n->u + n->v, refused ? 0xA5 : 128)) fail("other planes");
}

static void decoding(unsigned out) {
    struct hookbarley_lengths n = hookbarley_lengths_of(&tile);
    struct hookbarley_memory m = lent();
    size_t finished;
    uint64_t first_reads, token_reads;
    uint32_t refused = refusal(out);
    trying("decode without %#x", out);
    must_be(hookbarley_decode(GIVEN_TILE(tile), &finished, &first_reads, &token_reads), refused ? refused : HOOKBARLEY_NO_MODES);
    if (finished || first_reads || token_reads) fail("something was read");
    planes_are(&n, refused);
}

static void rescuing(unsigned out) {
    struct hookbarley_lengths n = hookbarley_lengths_of(&tile);
    struct hookbarley_memory m = lent();
    uint8_t marks[1] = {0xA5};
    size_t kept;
    uint32_t refused = refusal(out);
    trying("rescue without %#x", out);
    must_be(hookbarley_rescue(GIVEN_TILE(tile), GIVEN(9, marks, sizeof marks), &kept), refused);
    if (kept || marks[0] != (refused ? 0xA5 : HOOKBARLEY_MARK_GREY)) fail("something is kept");
    planes_are(&n, refused);
}

/* A tile of the profile's size, whose first partition has no bytes: rule 5 fails. */
static void profiling(unsigned out) {
    static const struct hookbarley_tile square = {.width = 256, .height = 256, .count = 1, .at = 2, .range = 255};
    static uint8_t square_room[1 << 17];
    struct hookbarley_lengths n = hookbarley_lengths_of(&square);
    struct hookbarley_memory m;
    uint32_t refused = refusal(out), rule;
    size_t macroblock;
    trying("profile without %#x", out);
    hookbarley_lend(&square, memset(square_room, 0xA5, sizeof square_room), &m);
    must_be(hookbarley_profile(GIVEN_TILE(square), &rule, &macroblock), refused);
    if (rule != (refused ? 0 : HOOKBARLEY_PROFILE_WHOLE) || macroblock) fail("rule %u, macroblock %zu", rule, macroblock);
    if (!all(square_room, n.y + n.u + n.v, refused ? 0xA5 : 128)) fail("other planes");
}

static void surveying(unsigned out) {
    struct hookbarley_lengths n = hookbarley_lengths_of(&tile);
    struct hookbarley_memory m = lent();
    uint64_t record[HOOKBARLEY_SURVEY_COUNTS] = {0}, first_reads, token_reads;
    size_t finished;
    uint32_t refused = out & 512 ? HOOKBARLEY_ARGUMENT : refusal(out), want = refused ? refused : HOOKBARLEY_NO_MODES;
    trying("survey without %#x", out);
    must_be(hookbarley_survey(GIVEN_TILE(tile), &finished, &first_reads, &token_reads, GIVEN(9, record, HOOKBARLEY_SURVEY_COUNTS)), want);
    if (finished || first_reads || token_reads) fail("something was read");
    for (uint32_t i = 0; i < HOOKBARLEY_SURVEY_COUNTS; i++)
        if (record[i] != (i == want && want != HOOKBARLEY_ARGUMENT)) fail("count %u is %llu", i, (unsigned long long)record[i]);
    planes_are(&n, refused);
}

static void adding(unsigned out) {
    uint64_t record[HOOKBARLEY_SURVEY_COUNTS] = {0}, other[HOOKBARLEY_SURVEY_COUNTS] = {0};
    trying("survey_add without %#x", out);
    must_be(hookbarley_survey_add(GIVEN(0, record, HOOKBARLEY_SURVEY_COUNTS), GIVEN(1, other, HOOKBARLEY_SURVEY_COUNTS)),
            out ? HOOKBARLEY_ARGUMENT : HOOKBARLEY_WHOLE);
}

static void recoding(unsigned out) {
    struct hookbarley_lengths n = hookbarley_lengths_of(&tile);
    struct hookbarley_memory m = lent();
    struct hookbarley_tile result;
    uint8_t written[64];
    uint32_t refused = out >> 10 & 1 ? HOOKBARLEY_ARGUMENT : refusal(out & 511);
    trying("recode without %#x", out);
    memset(written, 0xA5, sizeof written);
    memset(&result, 0xA5, sizeof result);
    must_be(hookbarley_recode(GIVEN_TILE(tile), GIVEN(9, written, sizeof written), GIVEN(10, (size_t *)&result, HOOKBARLEY_TILE_NUMBERS)),
            refused ? refused : HOOKBARLEY_NO_MODES);
    if (!all(written, sizeof written, 0xA5)) fail("something is written");
    if (!all((const uint8_t *)&result, sizeof result, refused == HOOKBARLEY_ARGUMENT ? 0xA5 : 0)) fail("there is a result");
    planes_are(&n, refused);
}

static void deblocking(unsigned out) {
    struct hookbarley_lengths n = hookbarley_lengths_of(&tile);
    struct hookbarley_memory m;
    trying("deblock without %#x", out);
    hookbarley_lend(&tile, memset(room, 0, sizeof room), &m);
    must_be(hookbarley_deblock(GIVEN(0, m.y, n.y), GIVEN(1, m.u, n.u), GIVEN(2, m.v, n.v), GIVEN(3, m.strengths, n.strengths), 16, 16, 0),
            out ? HOOKBARLEY_LENGTH : HOOKBARLEY_WHOLE);
}

static void taking(unsigned out) {
    struct hookbarley_tile taken;
    int32_t entries[HOOKBARLEY_ENTRIES];
    trying("frame without %#x", out);
    must_be(hookbarley_frame(GIVEN(0, bytes, sizeof bytes), GIVEN(1, entries, HOOKBARLEY_ENTRIES),
                             GIVEN(2, (size_t *)&taken, HOOKBARLEY_TILE_NUMBERS)), out & 6 ? HOOKBARLEY_ARGUMENT : HOOKBARLEY_NO_KEY_FRAME);
}

/* A frame of one macroblock whose token partition has no bytes: where all is lent it is grey. */
static const uint8_t tokenless[70] = {[0] = (60 << 5 & 255) | 16, [1] = 60 >> 3, [3] = 0x9d, 0x01, 0x2a, 16, 0, 16, 0};

static void showing(unsigned out) {
    struct hookbarley_lengths n = hookbarley_lengths_of(&tile);
    struct hookbarley_memory m = lent();
    struct hookbarley_tile taken;
    int32_t entries[HOOKBARLEY_ENTRIES];
    size_t finished;
    uint64_t first_reads, token_reads;
    uint32_t refused = out & 6 ? HOOKBARLEY_ARGUMENT : out & 1 ? HOOKBARLEY_NO_KEY_FRAME : refusal(out);
    trying("key_frame without %#x", out);
    must_be(hookbarley_key_frame(GIVEN(0, tokenless, sizeof tokenless), GIVEN(1, entries, HOOKBARLEY_ENTRIES),
                                 GIVEN(2, (size_t *)&taken, HOOKBARLEY_TILE_NUMBERS), GIVEN_MEMORY, &finished, &first_reads, &token_reads),
            refused ? refused : HOOKBARLEY_NO_TOKENS);
    if (finished || token_reads || (refused && first_reads)) fail("something was read");
    planes_are(&n, refused);
}

/* The same frame: its tokens are missing. */
static void recoding_frame(unsigned out) {
    struct hookbarley_lengths n = hookbarley_lengths_of(&tile);
    struct hookbarley_memory m = lent();
    uint8_t into[64];
    size_t written;
    uint32_t refused = out & 1 ? HOOKBARLEY_NO_KEY_FRAME : refusal(out & 504);
    trying("recode_frame without %#x", out);
    memset(into, 0xA5, sizeof into);
    must_be(hookbarley_recode_frame(GIVEN(0, tokenless, sizeof tokenless), GIVEN_MEMORY, GIVEN(1, into, sizeof into), &written),
            refused ? refused : HOOKBARLEY_NO_TOKENS);
    if (written || !all(into, sizeof into, 0xA5)) fail("something is written");
    planes_are(&n, refused);
}

static void explaining(unsigned out) {
    uint8_t samples[8] = {0}, after[8];
    int32_t steps[8];
    uint32_t rule, pair;
    trying("explain without %#x", out);
    must_be(hookbarley_explain(GIVEN(0, samples, 8), 0, 0, 0, 0, 0, GIVEN(1, after, 8), GIVEN(2, steps, 8), &rule, &pair),
            out ? HOOKBARLEY_ARGUMENT : HOOKBARLEY_WHOLE);
}

static void wrapping(unsigned out) {
    size_t start, length, written;
    trying("wrap without %#x", out);
    must_be(hookbarley_webp_wrap(GIVEN(0, bytes, 1), GIVEN(1, room, sizeof room), &written), out & 2 ? HOOKBARLEY_ROOM : HOOKBARLEY_WHOLE);
    if (out & 2) return;
    must_be(hookbarley_webp_find(room, written, &start, &length), HOOKBARLEY_WHOLE);
    if (start != 20 || length != !(out & 1)) fail("a frame of %zu bytes was written", length);
}

int main(void) {
    size_t start, length;
    begin("0", NULL, 0);
    for (unsigned out = 0; out < 512; out++) decoding(out);
    for (unsigned out = 0; out < 1024; out++) rescuing(out);
    for (unsigned out = 0; out < 512; out++) profiling(out);
    for (unsigned out = 0; out < 1024; out++) surveying(out);
    for (unsigned out = 0; out < 4; out++) adding(out);
    for (unsigned out = 0; out < 512; out++) showing(out);
    for (unsigned out = 0; out < 2048; out++) recoding(out);
    for (unsigned out = 0; out < 512; out++)
        if (!(out & 4)) recoding_frame(out);
    for (unsigned out = 0; out < 16; out++) deblocking(out);
    for (unsigned out = 0; out < 8; out++) taking(out);
    for (unsigned out = 0; out < 8; out++) explaining(out);
    for (unsigned out = 0; out < 4; out++) wrapping(out);
    trying("find and filter");
    must_be(hookbarley_webp_find(NULL, 0, &start, &length), HOOKBARLEY_MARKS);
    must_be(hookbarley_filter(NULL, 0, 0, 0, 0, 0, 0), HOOKBARLEY_ARGUMENT);
    printf("ok: %zu calls with NULL for every set of slices\n", calls);
    return 0;
}
