/* The inline calls of include/hookbarley.h on any bytes: a WebP file or a bare frame. Lent memory has exactly the length that the calls ask
 * for, with a margin on both sides that must not change; and the calls must agree with each other. */
#include "hookbarley.h"
#include "fuzz.h"

enum { MARGIN = 64, BLOCKS_MOST = 64, FILLED = 0xA5 };

/* Lent memory between two margins. */
static uint8_t *lent(size_t length, int fill) {
    uint8_t *all = malloc(length + 2 * MARGIN);
    CHECK(all);
    memset(all, FILLED, length + 2 * MARGIN);
    memset(all + MARGIN, fill, length);
    return all + MARGIN;
}

static void give_back(uint8_t *memory, size_t length) {
    for (int i = 0; i < MARGIN; i++) CHECK(memory[i - MARGIN] == FILLED && memory[length + (size_t)i] == FILLED);
    free(memory - MARGIN);
}

/* A frame that was taken, and what its calls are compared with. */
struct taken {
    const uint8_t *bytes;
    size_t length, room, blocks;
    int32_t header[HOOKBARLEY_ENTRIES];
    struct hookbarley_tile tile;
    uint32_t number; /* of the picture call */
    size_t finished;
    uint64_t first_reads, token_reads;
    uint8_t *decoded; /* the memory that it left */
};

static void decode(struct taken *t) {
    struct hookbarley_memory memory;
    t->decoded = lent(t->room, 1);
    hookbarley_lend(&t->tile, t->decoded, &memory);
    t->number = hookbarley_picture(t->bytes, t->length, t->header, &t->tile, &memory, &t->finished, &t->first_reads, &t->token_reads);
    CHECK(t->number == HOOKBARLEY_WHOLE || t->number == HOOKBARLEY_NO_MODES || t->number == HOOKBARLEY_NO_TOKENS);
    CHECK((t->number == HOOKBARLEY_WHOLE) == (t->finished == t->blocks));
    CHECK(t->first_reads <= (t->finished + 1) * HOOKBARLEY_FIRST_MOST && t->token_reads <= (t->finished + 1) * HOOKBARLEY_TOKEN_MOST);
}

/* In one call, and call by call. */
static void show(struct taken *t) {
    struct hookbarley_memory memory, apart;
    struct hookbarley_tile tile = t->tile;
    uint8_t *room = lent(t->room, 2), *copy = lent(t->room, 3);
    size_t finished;
    hookbarley_lend(&tile, room, &memory);
    CHECK(hookbarley_show(t->bytes, t->length, t->header, &tile, &memory, &finished) == t->number && finished == t->finished);
    CHECK(!memcmp(&tile, &t->tile, sizeof tile));
    memcpy(copy, t->decoded, t->room);
    hookbarley_lend(&t->tile, copy, &apart);
    if (t->header[HOOKBARLEY_HEADER_LEVEL]) CHECK(!hookbarley_deblock_picture(&t->tile, &apart));
    CHECK(!memcmp(room, copy, t->room));
    give_back(room, t->room);
    give_back(copy, t->room);
}

static void rescue(struct taken *t) {
    struct hookbarley_memory memory;
    uint8_t *room = lent(t->room, 4), *marks = lent(t->blocks, 4);
    size_t kept = 0, whole = 0;
    hookbarley_lend(&t->tile, room, &memory);
    CHECK(!hookbarley_rescue_picture(t->bytes, t->length, t->header, &t->tile, &memory, marks, &kept));
    while (whole < t->blocks && marks[whole] == HOOKBARLEY_MARK_WHOLE) whole++;
    CHECK(whole == t->finished && kept >= whole && kept <= t->blocks);
    CHECK(t->number != HOOKBARLEY_WHOLE || !memcmp(room, t->decoded, t->room));
    give_back(room, t->room);
    give_back(marks, t->blocks);
}

static void survey(struct taken *t) {
    struct hookbarley_memory memory;
    uint64_t record[HOOKBARLEY_SURVEY_COUNTS] = {0}, finished = 0;
    uint8_t *room = lent(t->room, 5);
    hookbarley_lend(&t->tile, room, &memory);
    CHECK(hookbarley_survey_picture(t->bytes, t->length, t->header, &t->tile, &memory, record) == t->number);
    for (int i = 0; i < 4; i++) finished += record[HOOKBARLEY_SURVEY_SEGMENTS + i];
    CHECK(finished == t->finished && record[HOOKBARLEY_SURVEY_ANSWERS + t->number] == 1);
    CHECK(record[HOOKBARLEY_SURVEY_FIRST_READS] == t->first_reads && record[HOOKBARLEY_SURVEY_TOKEN_READS] == t->token_reads);
    CHECK(!memcmp(room, t->decoded, t->room));
    give_back(room, t->room);
}

static void profile(struct taken *t) {
    struct hookbarley_memory memory;
    uint8_t *room = lent(t->room, 6);
    uint32_t rule;
    size_t macroblock;
    hookbarley_lend(&t->tile, room, &memory);
    CHECK(!hookbarley_profile_picture(t->bytes, t->length, t->header, &t->tile, &memory, &rule, &macroblock));
    CHECK(rule >= HOOKBARLEY_PROFILE_SIZE); /* no tile of so few macroblocks fits */
    give_back(room, t->room);
}

/* The recoded tile decodes to the same memory. */
static void recode(struct taken *t) {
    struct hookbarley_memory memory, again;
    struct hookbarley_tile result;
    size_t most = 4 * t->length + 1000, finished;
    uint64_t first_reads, token_reads;
    uint8_t *room = lent(t->room, 7), *other = lent(t->room, 8), *out = lent(most, 9);
    hookbarley_lend(&t->tile, room, &memory);
    uint32_t number = hookbarley_recode_picture(t->bytes, t->length, t->header, &t->tile, &memory, out, most, &result);
    CHECK(number == t->number || number == HOOKBARLEY_ROOM);
    CHECK(!memcmp(room, t->decoded, t->room));
    if (!number) {
        hookbarley_lend(&result, other, &again);
        CHECK(result.count == 1 && hookbarley_room(&result) == t->room);
        CHECK(!hookbarley_picture(out, most, t->header, &result, &again, &finished, &first_reads, &token_reads));
        CHECK(!memcmp(other, t->decoded, t->room));
    }
    give_back(room, t->room);
    give_back(other, t->room);
    give_back(out, most);
}

/* The recoded frame has one token partition and decodes to the same memory. */
static void recode_frame(struct taken *t) {
    static int32_t header[HOOKBARLEY_ENTRIES];
    struct hookbarley_memory memory, again;
    struct hookbarley_tile tile;
    size_t most = 4 * t->length + 1000, written, finished;
    uint64_t first_reads, token_reads;
    uint8_t *room = lent(t->room, 11), *other = lent(t->room, 12), *out = lent(most, 13);
    hookbarley_lend(&t->tile, room, &memory);
    uint32_t number = hookbarley_recode_bytes(t->bytes, t->length, &t->tile, &memory, out, most, &written);
    CHECK(number == t->number || number == HOOKBARLEY_ROOM);
    CHECK(!memcmp(room, t->decoded, t->room) && (number ? !written : written <= most));
    if (!number) {
        CHECK(!hookbarley_take(out, written, header, &tile) && tile.count == 1 && hookbarley_room(&tile) == t->room);
        CHECK(!memcmp(header, t->header, sizeof header));
        hookbarley_lend(&tile, other, &again);
        CHECK(!hookbarley_picture(out, written, header, &tile, &again, &finished, &first_reads, &token_reads));
        CHECK(!memcmp(other, t->decoded, t->room));
    }
    give_back(room, t->room);
    give_back(other, t->room);
    give_back(out, most);
}

/* The WebP file around a frame holds that frame. */
static void wrap(const uint8_t *bytes, size_t length) {
    size_t room = length + 21, written, start, found;
    uint8_t *out = lent(room, 10);
    CHECK(!hookbarley_webp_wrap(bytes, length, out, room, &written) && written <= room);
    CHECK(!hookbarley_webp_find(out, written, &start, &found) && found == length);
    CHECK(!length || !memcmp(out + start, bytes, length));
    give_back(out, room);
}

static void one(const uint8_t *bytes, size_t length) {
    struct taken t = {.bytes = bytes, .length = length};
    size_t start, found;
    if (!hookbarley_webp_find(bytes, length, &start, &found)) {
        CHECK(start <= length && found <= length - start);
        t.bytes = bytes + start, t.length = found;
    }
    wrap(t.bytes, t.length);
    if (hookbarley_take(t.bytes, t.length, t.header, &t.tile)) return;
    t.blocks = hookbarley_blocks(&t.tile), t.room = hookbarley_room(&t.tile);
    CHECK(t.blocks && t.tile.true_width <= t.tile.width && t.tile.true_height <= t.tile.height);
    if (t.blocks > BLOCKS_MOST) return; /* for speed */
    decode(&t);
    show(&t);
    rescue(&t);
    survey(&t);
    profile(&t);
    recode(&t);
    recode_frame(&t);
    give_back(t.decoded, t.room);
}
