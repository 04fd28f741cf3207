/* What the rescue call leaves, told as tests/model/picture.py tells it:
 *
 *     rescue_lines FILE..                       a line a case file: number, macroblocks kept, FNV-1a 64 of Y, U, V, columns, modes and
 *                                               strengths, the marks (`-`: not touched)
 *     rescue_lines --cuts PARTITION FILE [STEP] the length and such a line for every STEPth length of a token partition (the first is 0)
 *
 * Every lent byte is 0xA5 before. `10 0` stands for a file that the case program does not take: malformed, over 64 KiB, or a side above 64.
 * Each call is made at both guards (guard.h), and leaves the same at either. */
#include "tile_calls.h"
#include <sys/stat.h>

enum { LENT_BYTE = 0xA5, LONGEST = 65536, WIDEST = 64, LINE = 512 };

static void tell(const struct call *c, const struct result *r, char *line) {
    line += sprintf(line, "%u %zu", r->number, r->k);
    for (int b = 0; b < LENT; b++) line += sprintf(line, " %016llx", fnv(r->mem[b], c->lent[b]));
    *line++ = ' ';
    for (size_t i = 0; i < c->lent[MARKS]; i++) {
        uint8_t mark = r->mem[MARKS][i];
        *line++ = mark == LENT_BYTE ? '-' : mark <= HOOKBARLEY_MARK_GREY ? (char)('0' + mark) : '?';
    }
    *line = 0;
}

static void print_line(const struct call *c) {
    static struct result r;
    static char lines[2][LINE];
    if (!r.mem[0]) r = new_result();
    for (int end = 0; end < 2; end++) {
        run_rescue(c, end, LENT_BYTE, &r);
        tell(c, &r, lines[end]);
    }
    if (strcmp(lines[0], lines[1])) fail("%s at one guard, %s at the other", lines[0], lines[1]);
    puts(lines[0]);
}

/* Whether the case program takes the file. */
static int take(const char *path, struct call *c) {
    struct stat is;
    trying("%s", path);
    if (stat(path, &is)) { perror(path); exit(2); }
    return is.st_size <= LONGEST && load(path, c) && c->tile.width <= WIDEST && c->tile.height <= WIDEST;
}

static void print_cuts(size_t partition, const char *path, size_t step) {
    static struct call c;
    if (!take(path, &c) || partition >= c.tile.count || !step) fail("no such partition or step");
    size_t *length = &c.tile.token_lengths[partition], from = *length;
    for (size_t n = 0; n <= from; n += step) {
        *length = n;
        printf("%zu ", n);
        print_line(&c);
    }
}

int main(int argc, char **argv) {
    static struct call c;
    begin("0", buffers, BUFFERS);
    if (argc > 3 && !strcmp(argv[1], "--cuts")) {
        print_cuts(strtoull(argv[2], NULL, 10), argv[3], argc > 4 ? strtoull(argv[4], NULL, 10) : 1);
        return 0;
    }
    for (int i = 1; i < argc; i++) {
        if (take(argv[i], &c)) print_line(&c);
        else puts("10 0");
    }
    return 0;
}
