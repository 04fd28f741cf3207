/* A key frame recoded whole, between guard pages (guard.h) and beside the header's and the picture call: recode_frame N SEED FILE..
 * (.webp, or .ivf, of which the first frame counts).
 *
 * What holds of every call, at both guards and over two poisons:
 *   number  that of hookbarley_frame, then 4 for another length, then that of hookbarley_decode, then 16 exactly if the room is too small;
 *   lent    memory is as hookbarley_decode leaves it, and as it was after 4 and 12 to 14;
 *   refused after any number but 0 the room is as it was, and nothing is written;
 *   frame   the tag keeps its five low bits and tells the new size, start code and sizes stay, what lies behind the frame is as it was;
 *   again   the frame has one token partition and the same entries, shows the same picture with as many symbols, and recoding it writes the
 *           same bytes.
 * Run here:
 *   files   each frame: its bytes before and after, printed;
 *   rooms   each frame: rooms of every length where it is short, else forty and those around the end;
 *   cut     each frame, some hundred lengths;
 *   lengths every set of wrong lengths, of whole frames and refused ones;
 *   random  N frames made from SEED: bytes damaged, cut, or the ten bytes before random ones. */
#include "frame_calls.h"

enum { EVERY = 400 }; /* bytes, up to which every length of the room is tried */

/* What a call is given. */
struct call { const uint8_t *bytes; size_t n, lent[LENT], room; };

/* What a picture is: the header's call and the picture call one after the other. */
struct picture {
    uint32_t number;
    size_t finished;
    uint64_t first, tokens;
    int32_t header[HOOKBARLEY_ENTRIES];
    struct hookbarley_tile tile;
    uint8_t *mem[LENT];
};

static size_t calls, answers[20], short_rooms;

static struct picture new_picture(void) {
    struct picture p = {0};
    for (int b = 0; b < LENT; b++) p.mem[b] = malloc(buffers[b].capacity);
    return p;
}

static void in_two(const struct call *c, struct picture *p) {
    size_t lent[LENT];
    p->number = hookbarley_take(c->bytes, c->n, p->header, &p->tile);
    if (p->number) return;
    p->number = HOOKBARLEY_LENGTH;
    if (!lengths_for(&p->tile, lent) || memcmp(lent, c->lent, sizeof lent)) return;
    struct hookbarley_memory m = {p->mem[Y], p->mem[U], p->mem[V], p->mem[COLUMNS], p->mem[MODES], p->mem[STRENGTHS]};
    p->number = hookbarley_picture(c->bytes, c->n, p->header, &p->tile, &m, &p->finished, &p->first, &p->tokens);
}

static int has_picture(uint32_t number) {
    return number == HOOKBARLEY_WHOLE || number == HOOKBARLEY_NO_MODES || number == HOOKBARLEY_NO_TOKENS;
}

/* What one call leaves: the room, and how many bytes are written. */
struct left { uint32_t number; size_t written; uint8_t *out; };

/* One call, its buffers ending (end = 1) or starting at a guard. */
static void one(const struct call *c, const struct picture *want, int end, int poison, struct left *l) {
    size_t sizes[BUFFERS] = {[OUT] = c->room, [WRITTEN] = sizeof(size_t)};
    uint8_t *p[BUFFERS];
    memcpy(sizes, c->lent, sizeof c->lent);
    for (int b = 0; b < BUFFERS; b++)
        if (b != BYTES) p[b] = poisoned(&buffers[b], sizes[b], end, poison, SLACK);
    const uint8_t *in = lay(&buffers[BYTES], c->bytes, c->n, end);
    l->number = hookbarley_recode_frame(in, c->n, p[Y], sizes[Y], p[U], sizes[U], p[V], sizes[V], p[COLUMNS], sizes[COLUMNS], p[MODES],
                                        sizes[MODES], p[STRENGTHS], sizes[STRENGTHS], p[OUT], c->room, (size_t *)p[WRITTEN]);
    memcpy(&l->written, p[WRITTEN], sizeof l->written);
    memcpy(l->out, p[OUT], c->room);
    if (memcmp(in, c->bytes, c->n)) fail("the frame is written to");
    for (int b = 0; b < LENT; b++)
        if (has_picture(want->number) ? memcmp(p[b], want->mem[b], sizes[b]) != 0 : !all(p[b], sizes[b], poison))
            fail("answer %u, and %s %s", l->number, buffers[b].name, has_picture(want->number) ? "is not the picture call's" : "changed");
    for (int b = 0; b < BUFFERS; b++)
        if (b != BYTES) untouched(&buffers[b], sizes[b], end, poison, SLACK);
    if (l->number && (l->written || !all(l->out, c->room, poison))) fail("answer %u, and something is written", l->number);
    if (!l->number && l->written > c->room) fail("%zu bytes in a room of %zu", l->written, c->room);
    if (!l->number && !all(l->out + l->written, c->room - l->written, poison)) fail("the room is written behind the frame");
    calls++;
    answers[l->number]++;
}

/* A room of so many bytes at both guards; `needed` is what the frame takes. */
static void in_room(const struct call *c, const struct picture *want, size_t room, size_t needed, struct left *l) {
    struct call d = *c;
    uint32_t number = want->number ? want->number : room < needed ? HOOKBARLEY_ROOM : HOOKBARLEY_WHOLE;
    d.room = room;
    for (int end = 0; end < 2; end++) {
        one(&d, want, end, end ? 0xA5 : 0x5A, l);
        if (l->number != number) fail("room %zu of %zu: answer %u, should be %u", room, needed, l->number, number);
        if (!number && l->written != needed) fail("%zu bytes, not %zu", l->written, needed);
    }
    short_rooms += number == HOOKBARLEY_ROOM;
}

/* The ten bytes before the first partition. */
static void head_kept(const struct call *c, const uint8_t *out) {
    static int32_t header[HOOKBARLEY_ENTRIES];
    struct hookbarley_tile t;
    if (hookbarley_take(out, c->n, header, &t) == HOOKBARLEY_NO_KEY_FRAME) fail("what is written is no key frame");
    if ((out[0] ^ c->bytes[0]) & 31) fail("the tag's low bits changed");
    if (memcmp(out + 3, c->bytes + 3, 7)) fail("start code or sizes changed");
}

/* The new frame: one partition that ends where it ends, the same entries, the same picture, and the same bytes when recoded. */
static void again(const struct call *c, const struct picture *old, const struct left *l, struct picture *p, struct left *m) {
    struct call d = *c;
    struct hookbarley_tile want = old->tile;
    d.bytes = l->out;
    d.n = l->written;
    in_two(&d, p);
    if (p->number || p->finished != old->finished) fail("what is written is answered %u %zu", p->number, p->finished);
    if (p->first != old->first || p->tokens != old->tokens) fail("what is written has other symbols");
    if (memcmp(p->header, old->header, sizeof p->header)) fail("what is written has another header");
    memset(want.token_starts, 0, sizeof want.token_starts);
    memset(want.token_lengths, 0, sizeof want.token_lengths);
    want.count = 1;
    want.first_length = p->tile.first_length;
    want.token_starts[0] = want.first_start + want.first_length;
    want.token_lengths[0] = l->written - want.token_starts[0];
    want.at = p->tile.at;
    want.window = p->tile.window;
    want.range = p->tile.range;
    want.shifts = p->tile.shifts;
    if (memcmp(&want, &p->tile, sizeof want)) fail("what is written has another tile");
    for (int b = 0; b < LENT; b++)
        if (memcmp(p->mem[b], old->mem[b], c->lent[b])) fail("what is written leaves other %s", buffers[b].name);
    in_room(&d, p, l->written, l->written, m);
    if (memcmp(m->out, l->out, l->written)) fail("recoded again, and the bytes differ");
}

struct tried { struct picture old, new; struct left left, more; };

/* Everything that holds of a call; how many bytes the new frame has, 0 after a refusal. */
static size_t recoded(const struct call *c, struct tried *t) {
    struct call d = *c;
    in_two(c, &t->old);
    d.room = buffers[OUT].capacity;
    one(&d, &t->old, 1, 0xA5, &t->left);
    if (t->left.number != t->old.number) fail("answer %u, should be %u", t->left.number, t->old.number);
    if (t->old.number) {
        in_room(c, &t->old, below(600), 0, &t->left);
        return 0;
    }
    size_t needed = t->left.written;
    head_kept(c, t->left.out);
    again(c, &t->old, &t->left, &t->new, &t->more);
    in_room(c, &t->old, below(needed), needed, &t->more);
    in_room(c, &t->old, needed - 1, needed, &t->more);
    in_room(c, &t->old, needed + 1 + below(100), needed, &t->more);
    return needed;
}

/* A call on these bytes, lent what their own size asks; where they have none, or too large a one, what the file's asks. */
static struct call call_on(const struct file *f, const uint8_t *bytes, size_t n) {
    static int32_t header[HOOKBARLEY_ENTRIES];
    struct hookbarley_tile tile;
    struct call c = {.bytes = bytes, .n = n};
    if (hookbarley_take(bytes, n, header, &tile) || !lengths_for(&tile, c.lent)) lengths_for(&f->tile, c.lent);
    return c;
}

static void each_file(struct tried *t) {
    size_t rooms = 0;
    for (size_t i = 0; i < files_len; i++) {
        trying("%s", files[i].name);
        struct call c = call_on(&files[i], files[i].bytes, files[i].n);
        size_t needed = recoded(&c, t), step = needed <= EVERY ? 1 : 1 + needed / 40;
        printf("file %s, a frame of %zu bytes and %zu partitions: %zu bytes\n", files[i].name, files[i].n, files[i].tile.count, needed);
        for (size_t n = 0; n < needed + 3; n += step, rooms++) {
            trying("%s, room %zu of %zu", files[i].name, n, needed);
            in_room(&c, &t->old, n, needed, &t->more);
        }
    }
    printf("rooms: %zu rooms of %zu frames\n", rooms, files_len);
}

static void cut(struct tried *t) {
    size_t cuts = 0;
    for (size_t i = 0; i < files_len; i++)
        for (size_t n = 0, step = 1 + files[i].n / 100; n < files[i].n; n += step, cuts++) {
            trying("%s cut to %zu", files[i].name, n);
            struct call c = call_on(&files[i], files[i].bytes, n);
            recoded(&c, t);
        }
    printf("cut: %zu cuts of %zu frames\n", cuts, files_len);
}

/* Every set of the six lengths, on a frame that is taken and on frames that are not. */
static void lengths(struct tried *t) {
    static uint8_t s[MOST];
    for (size_t i = 0; i < 4 * 4 * 64; i++) {
        const struct file *f = &files[0];
        size_t spoilt = i / 64 % 4;
        memcpy(s, f->bytes, f->n);
        struct call c = call_on(f, s, f->n);
        trying("lengths, set %zu, frame %zu", i % 64, spoilt);
        for (int b = 0; b < LENT; b++) {
            size_t others[] = {0, c.lent[b] - 1, c.lent[b] + 1, 2 * c.lent[b]};
            if (i >> b & 1) c.lent[b] = others[(i / 256 + (size_t)b) % 4];
        }
        if (spoilt == 1) s[0] |= 1;
        if (spoilt == 2) c.n = 20;
        if (spoilt == 3) s[0] = 0x30, s[1] = s[2] = 0;
        static const uint32_t by_frame[] = {HOOKBARLEY_WHOLE, HOOKBARLEY_NO_KEY_FRAME, HOOKBARLEY_PAST_END, HOOKBARLEY_NO_HEADER};
        uint32_t want = by_frame[spoilt] ? by_frame[spoilt] : i % 64 ? HOOKBARLEY_LENGTH : HOOKBARLEY_WHOLE;
        recoded(&c, t);
        if (t->old.number != want) fail("answer %u, should be %u", t->old.number, want);
    }
    printf("lengths: 1024 inputs with every set of six wrong lengths\n");
}

static void random_calls(size_t times, struct tried *t) {
    static uint8_t s[MOST];
    size_t whole = 0;
    for (size_t i = 0; i < times; i++) {
        trying("random %zu", i);
        size_t n;
        const struct file *f = draw_frame(s, &n);
        struct call c = call_on(f, s, n);
        whole += recoded(&c, t) > 0;
    }
    printf("random: %zu inputs, %zu recoded\n", times, whole);
}

int main(int argc, char **argv) {
    if (argc < 4) { fprintf(stderr, "usage: %s N SEED FILE..\n", argv[0]); return 2; }
    begin(argv[2], buffers, BUFFERS);
    load_frames(argv + 3);
    struct tried t = {new_picture(), new_picture(), {0, 0, malloc(buffers[OUT].capacity)}, {0, 0, malloc(buffers[OUT].capacity)}};
    each_file(&t);
    cut(&t);
    lengths(&t);
    random_calls(strtoull(argv[1], NULL, 10), &t);
    printf("answers 0, 4, 6, 7, 12, 13, 14, 16: %zu %zu %zu %zu %zu %zu %zu %zu\n", answers[0], answers[4], answers[6], answers[7],
           answers[12], answers[13], answers[14], answers[16]);
    printf("ok: %zu calls that recode a frame, %zu rooms too short, nothing touched outside\n", calls, short_rooms);
    return 0;
}
