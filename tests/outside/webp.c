/* The WebP calls from outside, between guard pages (guard.h): webp N SEED FILE.. [big].
 *
 * `reading` and `writing` below say what must come out; they were written from RFC 9649 and the order of the refusals, apart from the
 * library. Run here:
 *   files   each FILE: its answer; where it holds a frame, the frame written into rooms of every length up to 40 more than the file
 *           needs, which gives the file byte for byte, and only the file;
 *   cut     each FILE, every shorter length;
 *   longer  each FILE with one to three bytes behind it, counted by the RIFF size, by the chunk's size too, or not;
 *   flipped each FILE, every bit of its first 40 bytes and of its last two;
 *   random  N inputs made from SEED: fields damaged, cut, exchanged, or random from the start; frames of random lengths;
 *   huge    lengths of 2^32 and around, over pages of zeros, and lengths claimed near 2^64.
 * With `big` the longest frame that can be written is written too, which takes 4 GiB. */
#include "guard.h"

enum { BYTES, ROOM, FIRST, SECOND, BUFFERS };
enum { CAPACITY = 1 << 17, MOST = 1 << 16 };
static struct guarded buffers[BUFFERS] = {
    [BYTES] = {.name = "bytes", .capacity = CAPACITY, .input = 1},
    [ROOM] = {.name = "room", .capacity = CAPACITY},
    [FIRST] = {.name = "first", .capacity = 1 << 12},
    [SECOND] = {.name = "second", .capacity = 1 << 12},
};

/* ---- what must come out */
static uint64_t little(const uint8_t *p) {
    uint64_t x = 0;
    for (int i = 3; i >= 0; i--) x = x << 8 | p[i];
    return x;
}

static void put_little(uint8_t *p, uint64_t x) {
    for (int i = 0; i < 4; i++, x >>= 8) p[i] = (uint8_t)x;
}

struct frame_at { uint32_t number; size_t start, len; };

static struct frame_at refused(uint32_t number) { return (struct frame_at){number, 0, 0}; }

static struct frame_at reading(const uint8_t *s, size_t n) {
    if (n < 4 || memcmp(s, "RIFF", 4)) return refused(HOOKBARLEY_MARKS);
    if (n < 12 || memcmp(s + 8, "WEBP", 4)) return refused(HOOKBARLEY_MARKS);
    if (n - 8 != little(s + 4)) return refused(HOOKBARLEY_SIZES);
    if (n < 16 || memcmp(s + 12, "VP8 ", 4)) return refused(HOOKBARLEY_KIND);
    if (n < 20) return refused(HOOKBARLEY_SIZES);
    uint64_t size = little(s + 16), rest = n - 20;
    if (size % 2 == 0 ? rest != size : rest != size + 1 || s[n - 1]) return refused(HOOKBARLEY_SIZES);
    return (struct frame_at){HOOKBARLEY_WHOLE, 20, size};
}

static void put_head(uint8_t *s, uint64_t riff, uint64_t chunk) {
    memcpy(s, "RIFF", 4);
    put_little(s + 4, riff);
    memcpy(s + 8, "WEBPVP8 ", 8);
    put_little(s + 16, chunk);
}

/* The length of the file around n bytes, and 0 or the number; `file` may be NULL. */
static uint32_t writing(const uint8_t *frame, size_t n, size_t room, uint8_t *file, size_t *written) {
    *written = 0;
    if (n > ((uint64_t)1 << 32) - 22) return HOOKBARLEY_SIZES; /* 4 + 8 + n and the pad byte, at most 2^32 - 10 */
    size_t whole = (20 + n + 1) / 2 * 2;
    if (room < whole) return HOOKBARLEY_ROOM;
    if (file) {
        memset(file, 0, whole);
        put_head(file, whole - 8, n);
        memcpy(file + 20, frame, n);
    }
    *written = whole;
    return 0;
}

/* ---- one call, its buffers ending and starting at a guard */
static size_t calls, answers[20];

static void count(uint32_t n) {
    calls++;
    if (n >= 20) fail("number %u", n);
    answers[n]++;
}

static void found(uint32_t got, size_t start, size_t len, const struct frame_at *want) {
    if (got != want->number || start != want->start || len != want->len)
        fail("find gives %u %zu %zu, should be %u %zu %zu", got, start, len, want->number, want->start, want->len);
    count(got);
}

static struct frame_at find(const uint8_t *s, size_t n) {
    struct frame_at want = reading(s, n);
    for (int end = 0; end < 2; end++) {
        const uint8_t *seen = lay(&buffers[BYTES], s, n, end);
        size_t *start = poisoned(&buffers[FIRST], sizeof *start, end, 0xA5, REST);
        size_t *len = poisoned(&buffers[SECOND], sizeof *len, end, 0x5A, REST);
        uint32_t got = hookbarley_webp_find(seen, n, start, len);
        found(got, *start, *len, &want);
        if (memcmp(seen, s, n)) fail("find writes");
        untouched(&buffers[FIRST], sizeof *start, end, 0xA5, REST);
        untouched(&buffers[SECOND], sizeof *len, end, 0x5A, REST);
    }
    return want;
}

/* `file`, where it is not NULL, is what must stand in the room. */
static void wrap(const uint8_t *frame, size_t n, size_t room, const uint8_t *file) {
    static uint8_t expected[CAPACITY];
    size_t want_written;
    uint32_t want = writing(frame, n, room, expected, &want_written);
    if (file && want == 0 && memcmp(expected, file, want_written)) fail("the file is not laid out as the test lays it out");
    for (int end = 0; end < 2; end++) {
        int poison = (int)below(256);
        const uint8_t *in = lay(&buffers[BYTES], frame, n, end);
        uint8_t *out = poisoned(&buffers[ROOM], room, end, poison, REST);
        size_t *w = poisoned(&buffers[FIRST], sizeof *w, end, 0xA5, REST);
        uint32_t got = hookbarley_webp_wrap(in, n, out, room, w);
        if (got != want || *w != want_written)
            fail("wrap of %zu bytes into %zu gives %u %zu, should be %u %zu", n, room, got, *w, want, want_written);
        if (memcmp(out, expected, want_written)) fail("wrap of %zu bytes writes another file", n);
        if (!all(out + want_written, room - want_written, poison)) fail("wrap of %zu bytes into %zu writes behind its file", n, room);
        untouched(&buffers[ROOM], room, end, poison, REST);
        untouched(&buffers[FIRST], sizeof *w, end, 0xA5, REST);
        count(got);
    }
}

/* ---- the files */
struct file { const char *name; uint8_t *bytes; size_t n; } *files;
static size_t files_len;

static void load(const char *name) {
    FILE *f = fopen(name, "rb");
    if (!f) { perror(name); exit(2); }
    struct file *g = &files[files_len++];
    g->name = name;
    g->bytes = calloc(1, MOST + 64);
    g->n = fread(g->bytes, 1, MOST, f);
    if (g->n == 0 || g->n == MOST) { fprintf(stderr, "%s: empty or over 64 KiB\n", name); exit(2); }
    fclose(f);
}

static void whole(const struct file *f) {
    trying("%s", f->name);
    struct frame_at a = find(f->bytes, f->n);
    if (a.number == HOOKBARLEY_WHOLE)
        for (size_t room = f->n > 40 ? f->n - 40 : 0; room <= f->n + 40; room++) wrap(f->bytes + a.start, a.len, room, f->bytes);
    printf("file %s, %zu bytes: %u %zu %zu\n", f->name, f->n, a.number, a.start, a.len);
}

static void damage_all(const struct file *f) {
    static uint8_t s[MOST + 64];
    for (size_t n = 0; n < f->n; n++) {
        trying("%s cut to %zu", f->name, n);
        if (find(f->bytes, n).number == HOOKBARLEY_WHOLE) fail("a cut file is taken");
    }
    for (size_t more = 1; more <= 3; more++)
        for (int counted = 0; counted < 3; counted++) {
            trying("%s with %zu more, counted %d", f->name, more, counted);
            memcpy(s, f->bytes, f->n);
            for (size_t i = 0; i < more; i++) s[f->n + i] = (uint8_t)below(2);
            if (counted) put_little(s + 4, little(s + 4) + more);
            if (counted == 2) put_little(s + 16, little(s + 16) + more);
            find(s, f->n + more);
        }
    for (size_t bit = 0; bit < 8 * f->n; bit++) {
        if (bit >= 320 && bit < 8 * f->n - 16) continue;
        trying("%s with bit %zu flipped", f->name, bit);
        memcpy(s, f->bytes, f->n);
        s[bit / 8] ^= (uint8_t)(1 << bit % 8);
        find(s, f->n);
    }
}

/* ---- random inputs */
static uint64_t odd_size(size_t n) {
    static const uint64_t ends[] = {0, 4, 12, 0x7FFFFFFF, 0x80000000, 0xFFFFFFEC, 0xFFFFFFF6, 0xFFFFFFF7, 0xFFFFFFF8, 0xFFFFFFFF};
    switch (below(4)) {
    case 0: return ends[below(10)];
    case 1: return n - 8 + below(5) - 2;
    case 2: return n - 20 - below(2) + below(3) - 1;
    default: return draw();
    }
}

/* Random bytes, most often with a head that fits them. */
static size_t invent(uint8_t *s) {
    size_t n = below(below(8) ? 48 : 600);
    for (size_t i = 0; i < n; i++) s[i] = (uint8_t)draw();
    if (below(16) && n >= 20) {
        put_head(s, n - 8, n - 20 - below(2));
        if (n > 20) s[n - 1] = (uint8_t)below(3);
    }
    return n;
}

static size_t damage(uint8_t *s, size_t n) {
    static const char *const marks[] = {"RIFF", "WEBP", "VP8 ", "VP8L", "VP8X", "RIFX", "riff"};
    if (below(3) == 0 && n) s[below(n < 24 ? n : 24)] = (uint8_t)draw();
    else if (below(2) && n >= 20) memcpy(s + (size_t[]){0, 8, 12}[below(3)], marks[below(7)], 4);
    else if (below(2) && n >= 20) put_little(s + (below(2) ? 4 : 16), odd_size(n));
    else n = below(n + 1);
    return n;
}

static void random_calls(size_t times) {
    static uint8_t s[MOST + 64];
    size_t taken = 0;
    for (size_t t = 0; t < times; t++) {
        trying("random %zu", t);
        size_t n = invent(s);
        for (size_t d = below(3); d--;) n = damage(s, n);
        struct frame_at a = find(s, n);
        if (a.number == HOOKBARLEY_WHOLE) {
            taken++;
            wrap(s + a.start, a.len, n + below(40), s);
        }
        wrap(s, n, n + below(44), NULL);
    }
    printf("random: %zu inputs, %zu of them files\n", times, taken);
}

/* ---- lengths around 2^32 and 2^64; `end` is where 4 GiB of zeros end */
static const uint64_t four = (uint64_t)1 << 32;

static uint32_t wrap_huge(const uint8_t *frame, size_t n, uint8_t *out, size_t room, size_t *written) {
    size_t want_written;
    uint32_t want = writing(frame, n, room, NULL, &want_written), got = hookbarley_webp_wrap(frame, n, out, room, written);
    if (got != want || *written != want_written) fail("wrap of %zu gives %u %zu, should be %u %zu", n, got, *written, want, want_written);
    count(got);
    return got;
}

/* A head that says a size or two beside the truth, over n bytes. */
static int huge_file(uint8_t *end, size_t n, int64_t riff, int64_t chunk) {
    uint8_t *s = end - n, out[64] = {0xA5};
    size_t start, len, written;
    put_head(s, n - 8 + (uint64_t)riff, n - 20 + (uint64_t)chunk);
    struct frame_at want = reading(s, n);
    uint32_t got = hookbarley_webp_find(s, n, &start, &len);
    found(got, start, len, &want);
    if (got == HOOKBARLEY_WHOLE && (wrap_huge(s + start, len, out, sizeof out, &written), out[0] != 0xA5)) fail("a refusal writes");
    memset(s, 0, 20);
    return got == HOOKBARLEY_WHOLE;
}

/* Claimed, and not there: nothing behind the first 20 bytes may be looked at. */
static void claimed(uint8_t *s) {
    for (uint64_t d = 0; d < 64; d++)
        for (int top = 0; top < 3; top++) {
            size_t n = (top == 0 ? 0 : top == 1 ? (uint64_t)1 << 63 : four) - 1 - d, start, len, written;
            uint8_t out[1];
            trying("claimed %zu", n);
            put_head(s, n - 8, n - 19 + (d & 1));
            uint32_t got = hookbarley_webp_find(s, n, &start, &len);
            found(got, start, len, &(struct frame_at){HOOKBARLEY_SIZES, 0, 0});
            wrap_huge(s, n, out, 0, &written);
        }
    memset(s, 0, 20);
}

/* The longest frame that can be written, and one byte more. */
static void longest(const uint8_t *end) {
    size_t n = four - 22, whole_file = four - 2, written, start, len;
    uint8_t *out = mmap(NULL, whole_file, PROT_READ | PROT_WRITE, MAP_PRIVATE | MAP_ANONYMOUS | MAP_NORESERVE, -1, 0);
    if (out == MAP_FAILED) fail("no room for 4 GiB");
    trying("big");
    if (wrap_huge(end - n, n, out, whole_file - 1, &written) != HOOKBARLEY_ROOM || out[0]) fail("a room one byte too small is taken");
    if (wrap_huge(end - n, n, out, whole_file, &written)) fail("the longest frame is refused");
    if (little(out + 4) != four - 10 || little(out + 16) != n) fail("the longest frame has other sizes");
    uint32_t got = hookbarley_webp_find(out, written, &start, &len);
    found(got, start, len, &(struct frame_at){HOOKBARLEY_WHOLE, 20, n});
    if (wrap_huge(end - n - 1, n + 1, out, whole_file, &written) != HOOKBARLEY_SIZES) fail("a frame one byte too long is taken");
    munmap(out, whole_file);
    printf("big: a frame of 2^32 - 22 bytes written and found, one byte more refused\n");
}

static void huge(int big) {
    static const int64_t riff[] = {0, -1, 1, 8, -8}, chunk[] = {0, -1, 1, -2};
    size_t extent = four + 65536;
    int taken = 0;
    uint8_t *p = mmap(NULL, extent + 2 * GUARD, PROT_NONE, MAP_PRIVATE | MAP_ANONYMOUS | MAP_NORESERVE, -1, 0);
    if (p == MAP_FAILED) { printf("huge: left out, no room for 4 GiB of addresses\n"); return; }
    uint8_t *end = p + GUARD + extent;
    if (mprotect(p + GUARD, extent, PROT_READ | PROT_WRITE)) { printf("huge: left out\n"); return; }
    for (int64_t d = -24; d <= 24; d++)
        for (int r = 0; r < 5; r++)
            for (int c = 0; c < 4; c++) {
                trying("huge 2^32 %+d, %d, %d", (int)d, r, c);
                taken += huge_file(end, four + (uint64_t)d, riff[r], chunk[c]);
            }
    claimed(end - 20);
    if (big) longest(end);
    munmap(p, extent + 2 * GUARD);
    printf("huge: %d files around 2^32 taken\n", taken);
}

int main(int argc, char **argv) {
    if (argc < 4) { fprintf(stderr, "usage: %s N SEED FILE.. [big]\n", argv[0]); return 2; }
    int big = strcmp(argv[argc - 1], "big") == 0;
    begin(argv[2], buffers, BUFFERS);
    files = calloc((size_t)argc, sizeof *files);
    for (int i = 3; i < argc - big; i++) load(argv[i]);
    for (size_t i = 0; i < files_len; i++) whole(&files[i]);
    for (size_t i = 0; i < files_len; i++) damage_all(&files[i]);
    random_calls(strtoull(argv[1], NULL, 10));
    huge(big);
    printf("answers 0, 16 to 19: %zu", answers[HOOKBARLEY_WHOLE]);
    for (int i = HOOKBARLEY_ROOM; i <= HOOKBARLEY_KIND; i++) printf(" %zu", answers[i]);
    printf("\nok: %zu calls of the WebP calls, nothing touched outside\n", calls);
    return 0;
}
