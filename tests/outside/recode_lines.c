/* What the recode call writes, told as tests/model/recode.py tells it: recode_lines FILE..
 *
 * A line a case file: number, the first partition's length, the token partition's length and its FNV-1a 64; `10 0 0 0` for a file that the
 * case program does not take: malformed, over 64 KiB, or a side above 64. Each call is made at both guards (guard.h) with a room that is
 * just long enough, and leaves the same at either. What it wrote is decoded: all memory is as the picture call leaves it. */
#include "tile_calls.h"
#include <sys/stat.h>

enum { LENT_BYTE = 0xA5, LONGEST = 65536, WIDEST = 64 };

/* The same tile in the bytes that were written, as a call. */
static void again(const struct call *c, const struct recoded *r, struct call *next) {
    memcpy(next, c, sizeof *next);
    memcpy(next->bytes, r->out, next->n = r->room);
    next->tile = r->tile;
}

static void print_line(const struct call *c) {
    static struct call next;
    static struct recoded r;
    static struct result before, after;
    if (!r.out) r = new_recoded(), before = new_result(), after = new_result();
    r.room = buffers[OUT].capacity;
    run_recode(c, 1, LENT_BYTE, &r);
    if (r.left.number) {
        printf("%u %zu %zu 0\n", r.left.number, r.tile.first_length, r.tile.token_lengths[0]);
        return;
    }
    r.room = r.tile.first_length + r.tile.token_lengths[0];
    unsigned long long hash = fnv(r.out + r.tile.token_starts[0], r.tile.token_lengths[0]);
    for (int end = 0; end < 2; end++) {
        run_recode(c, end, LENT_BYTE, &r);
        if (r.left.number || hash != fnv(r.out + r.tile.token_starts[0], r.tile.token_lengths[0]))
            fail("other bytes in a room that is just enough");
    }
    again(c, &r, &next);
    run(c, 1, LENT_BYTE, &before);
    run(&next, 1, LENT_BYTE, &after);
    if (after.number != before.number || after.k != before.k) fail("what was written is answered %u %zu", after.number, after.k);
    for (int b = 0; b < LENT; b++)
        if (memcmp(before.mem[b], after.mem[b], c->lent[b])) fail("what was written leaves other %s", buffers[b].name);
    printf("0 %zu %zu %016llx\n", r.tile.first_length, r.tile.token_lengths[0], hash);
}

/* Whether the case program takes the file. */
static int take(const char *path, struct call *c) {
    struct stat is;
    trying("%s", path);
    if (stat(path, &is)) { perror(path); exit(2); }
    return is.st_size <= LONGEST && load(path, c) && c->tile.width <= WIDEST && c->tile.height <= WIDEST;
}

int main(int argc, char **argv) {
    static struct call c;
    begin("0", buffers, BUFFERS);
    for (int i = 1; i < argc; i++) {
        if (take(argv[i], &c)) print_line(&c);
        else puts("10 0 0 0");
    }
    return 0;
}
