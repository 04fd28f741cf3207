/* The recode call from outside, with damaged input, between guard pages (guard.h) and beside the picture call: recode DIR N SEED.
 *
 * DIR holds NNNN.case (tests/outside/README.md). What holds of every call, at both guards and over two poisons:
 *   lent    memory is the picture call's, and so is the number where it is not 0; else it is 0 or 16;
 *   refused after any number but 0 the room is as it was, and the result is 0 (as it was after 9);
 *   room    16 exactly where the room is shorter than what a long one is filled with; what lies behind that is as it was;
 *   again   the picture call on what was written leaves the same memory, and the recode call writes the same bytes.
 * Run here:
 *   rooms   every tile; the smallest with rooms of every length up to what is needed, the others with forty and those around the end;
 *   cut     every tile, every partition, some lengths;
 *   random  N inputs made from SEED, valid, damaged and absurd;
 *   refused every set of reasons to refuse, a result of another length among them: the number is that of the first check. */
#include "drawn_calls.h"

enum { SMALLEST = 1200 }; /* bytes needed, up to which every length is tried */

static size_t calls, refusals, written, short_rooms;

/* What the picture call leaves, what the recode call does, and the same of what it wrote. */
struct tried { struct result picture, after; struct recoded r, again; };

static struct tried new_tried(void) { return (struct tried){new_result(), new_result(), new_recoded(), new_recoded()}; }

static void lent_as(const struct call *c, const struct result *want, const struct result *got, const char *whose) {
    for (int b = 0; b < LENT; b++)
        if (memcmp(want->mem[b], got->mem[b], c->lent[b])) fail("%s: other %s than the picture call leaves", whose, buffers[b].name);
}

/* After a refusal the room is as it was, and the result 0 where it has 28 numbers. */
static void room_left(const struct recoded *r, int poison) {
    int held = r->left.number == HOOKBARLEY_ARGUMENT ? poison : 0;
    if (!all(r->out, r->room, poison)) fail("refused with %u, and the room was written", r->left.number);
    if (!all((const uint8_t *)r->numbers, r->result_len * sizeof *r->numbers, held))
        fail("refused with %u, and there is a result", r->left.number);
}

/* The result is the tile with the two partitions at the start of the room, and the rest of the tile. */
static void result_sound(const struct call *c, const struct recoded *r) {
    struct hookbarley_tile want = c->tile;
    want.count = 1;
    want.first_start = 0;
    memset(want.token_starts, 0, sizeof want.token_starts);
    memset(want.token_lengths, 0, sizeof want.token_lengths);
    want.token_starts[0] = want.first_length;
    want.token_lengths[0] = r->tile.token_lengths[0];
    if (memcmp(&want, &r->tile, sizeof want)) fail("the result has other numbers");
    if (memcmp(r->out, c->bytes + c->tile.first_start, want.first_length)) fail("the first partition was changed");
}

/* One call at one guard; `needed` is what it writes, 0 where the picture call refuses. Returns its number. */
static uint32_t one(const struct call *c, struct tried *t, size_t needed, int end, int poison) {
    struct recoded *r = &t->r;
    run(c, end, poison, &t->picture);
    run_recode(c, end, poison, r);
    uint32_t want = r->result_len != HOOKBARLEY_TILE_NUMBERS ? HOOKBARLEY_ARGUMENT : t->picture.number;
    if (!want && needed > r->room) want = HOOKBARLEY_ROOM;
    calls++;
    if (r->left.number != want) fail("room %zu: answer %u, should be %u", r->room, r->left.number, want);
    if (want == HOOKBARLEY_ARGUMENT) {
        for (int b = 0; b < LENT; b++)
            if (!all(r->left.mem[b], c->lent[b], poison)) fail("refused with 9, and %s was written", buffers[b].name);
    } else {
        lent_as(c, &t->picture, &r->left, "recoded");
    }
    if (want) {
        room_left(r, poison);
        return want;
    }
    result_sound(c, r);
    if (!all(r->out + needed, r->room - needed, poison)) fail("the room was written behind what is needed");
    return want;
}

/* What was written is decoded to the same, and recoded to the same bytes. */
static void decoded_again(const struct call *c, struct tried *t, size_t needed) {
    static struct call next;
    copy(&next, c);
    memcpy(next.bytes, t->r.out, next.n = t->r.room < sizeof next.bytes ? t->r.room : sizeof next.bytes);
    next.tile = t->r.tile;
    run(&next, 1, 0x5A, &t->after);
    if (t->after.number || t->after.k != t->picture.k) fail("what was written is answered %u %zu", t->after.number, t->after.k);
    if (t->after.first != t->picture.first || t->after.tokens != t->picture.tokens) fail("what was written has other symbols");
    lent_as(c, &t->picture, &t->after, "decoded again");
    t->again.room = needed;
    run_recode(&next, 1, 0x5A, &t->again);
    if (t->again.left.number || memcmp(&t->again.tile, &t->r.tile, sizeof t->r.tile)) fail("recoded again, and the result differs");
    if (memcmp(t->again.out, t->r.out, needed)) fail("recoded again, and the bytes differ");
}

/* What a call writes into a long room: its number, and how many bytes. */
static uint32_t measured(const struct call *c, struct tried *t, size_t *needed) {
    *needed = 0;
    run(c, 1, 0xA5, &t->picture);
    t->r.room = buffers[OUT].capacity;
    t->r.result_len = HOOKBARLEY_TILE_NUMBERS;
    run_recode(c, 1, 0xA5, &t->r);
    if (t->r.left.number != t->picture.number) fail("answer %u, the picture call's is %u", t->r.left.number, t->picture.number);
    if (t->r.left.number) { refusals++; return t->r.left.number; }
    *needed = t->r.tile.first_length + t->r.tile.token_lengths[0];
    if (t->r.tile.token_lengths[0] > 4 + t->picture.tokens)
        fail("%zu bytes for %zu symbols", t->r.tile.token_lengths[0], (size_t)t->picture.tokens);
    if (!all(t->r.out + *needed, t->r.room - *needed, 0xA5)) fail("a long room was written behind what is needed");
    written++;
    return HOOKBARLEY_WHOLE;
}

/* A room of so many bytes, at both guards. */
static uint32_t in_room(const struct call *c, struct tried *t, size_t room, size_t needed) {
    t->r.room = room;
    one(c, t, needed, 1, 0xA5);
    uint32_t number = one(c, t, needed, 0, 0x5A);
    short_rooms += number == HOOKBARLEY_ROOM;
    return number;
}

/* Everything that holds of a call; some rooms too short, one that is just enough, one that is longer. */
static uint32_t recoded(const struct call *c, struct tried *t) {
    size_t needed;
    if (measured(c, t, &needed)) {
        in_room(c, t, below(600), 0);
        return t->picture.number;
    }
    in_room(c, t, below(needed), needed);
    in_room(c, t, needed - 1, needed);
    in_room(c, t, needed + 1 + below(100), needed);
    in_room(c, t, needed, needed);
    decoded_again(c, t, needed);
    return HOOKBARLEY_WHOLE;
}

static void rooms(struct tried *t) {
    size_t tried = 0, every = 0, needed;
    for (size_t i = 0; i < tiles_len; i++) {
        trying("rooms, tile %04zu", i);
        if (recoded(&tiles[i], t) || measured(&tiles[i], t, &needed)) continue;
        size_t step = needed <= SMALLEST ? 1 : 1 + needed / 40;
        every += step == 1;
        for (size_t n = 0; n < needed; n += step, tried++) {
            trying("rooms, tile %04zu, %zu of %zu bytes", i, n, needed);
            in_room(&tiles[i], t, n, needed);
        }
    }
    printf("rooms: %zu rooms, of %zu tiles every length\n", tried, every);
}

static void cut(struct tried *t) {
    static struct call c;
    size_t cuts = 0;
    for (size_t i = 0; i < tiles_len; i++) {
        copy(&c, &tiles[i]);
        for (size_t p = 0; p <= c.tile.count; p++) {
            size_t *length = length_of(&c, p), from = *length, step = 1 + from / 8;
            for (size_t n = below(step); n < from; n += step, cuts++) {
                trying("cut, tile %04zu, partition %zu, length %zu", i, p, n);
                *length = n;
                recoded(&c, t);
            }
            *length = from;
        }
    }
    printf("cut: %zu cuts of %zu tiles\n", cuts, tiles_len);
}

static void random_calls(size_t times, struct tried *t) {
    static struct call c;
    size_t before = written;
    for (size_t i = 0; i < times; i++) {
        trying("random %zu", i);
        draw_call(&c, LENT);
        recoded(&c, t);
    }
    printf("random: %zu inputs, %zu recoded\n", times, written - before);
}

/* Every set of reasons to refuse, a result of another length the eighth of them. */
static void refused(size_t times, struct tried *t) {
    static struct call c;
    static const size_t lengths[] = {0, HOOKBARLEY_TILE_NUMBERS - 1, HOOKBARLEY_TILE_NUMBERS + 1, HOOKBARLEY_TILE_NUMBERS + 12};
    for (size_t i = 0; i < times; i++) {
        size_t why = i % 256;
        trying("refused %zu", i);
        spoil_arguments(&c, why);
        uint32_t want = refusal(&c);
        run(&c, 1, 0xA5, &t->picture);
        t->r.result_len = why & 128 ? lengths[below(4)] : HOOKBARLEY_TILE_NUMBERS;
        if (why & 128) want = HOOKBARLEY_ARGUMENT;
        uint32_t number = in_room(&c, t, 0, 1); /* a tile needs four bytes at least */
        if (number != (want ? want : t->picture.number ? t->picture.number : HOOKBARLEY_ROOM)) fail("answer %u", number);
        refusals++;
    }
    t->r.result_len = HOOKBARLEY_TILE_NUMBERS;
    printf("refused: %zu inputs with every set of eight reasons\n", times);
}

int main(int argc, char **argv) {
    if (argc != 4) { fprintf(stderr, "usage: %s DIR N SEED\n", argv[0]); return 2; }
    size_t times = strtoull(argv[2], NULL, 10);
    begin(argv[3], buffers, BUFFERS);
    printf("seed: %s\n", argv[3]);
    load_all(argv[1]);
    struct tried t = new_tried();
    rooms(&t);
    cut(&t);
    random_calls(times, &t);
    refused(1280, &t);
    printf("written: %zu tiles, %zu rooms too short\n", written, short_rooms);
    printf("ok: %zu calls of the recode call, %zu inputs refused, nothing touched outside\n", calls, refusals);
    return 0;
}
