/* Decodes a case file again and again into the same lent memory: bench FILE TIMES [deblock]; with `deblock` each picture is deblocked
 * (the normal kind). For counting instructions (docs/SPEED.md): count TIMES and TIMES + 10, and take the difference. */
#include "case_file.h"

static unsigned long sum(const uint8_t *p, size_t n) {
    unsigned long s = 0;
    while (n--) s += *p++;
    return s;
}

int main(int argc, char **argv) {
    static struct case_file c;
    struct hookbarley_memory m;
    size_t finished = 0;
    uint64_t first_reads, token_reads;
    uint32_t number = 0;
    if (argc < 3 || !case_read(argv[1], &c) || !case_side(c.tile.width) || !case_side(c.tile.height)) return 2;
    hookbarley_lend(&c.tile, malloc(hookbarley_room(&c.tile)), &m);
    if (!m.y) return 2;
    for (int i = 0; i < atoi(argv[2]); i++) {
        number = hookbarley_picture(c.bytes, c.length, c.header, &c.tile, &m, &finished, &first_reads, &token_reads);
        if (argc > 3 && hookbarley_deblock_picture(&c.tile, &m)) return 2;
    }
    struct hookbarley_lengths n = hookbarley_lengths_of(&c.tile);
    printf("%u %zu %lu %lu %lu\n", number, finished, sum(m.y, n.y), sum(m.u, n.u), sum(m.v, n.v));
    return 0;
}
