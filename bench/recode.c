/* recode FILE TIMES: recodes a case file again and again into the same lent memory and room, as examples/c/bench.c decodes it. Prints the
 * answer's number and the lengths of the two partitions that were written. */
#include "../examples/c/case_file.h"

int main(int argc, char **argv) {
    static struct case_file c;
    static uint8_t out[1 << 22];
    struct hookbarley_memory m;
    struct hookbarley_tile result = {0};
    uint32_t number = 0;
    if (argc != 3 || !case_read(argv[1], &c) || !case_side(c.tile.width) || !case_side(c.tile.height)) return 2;
    hookbarley_lend(&c.tile, malloc(hookbarley_room(&c.tile)), &m);
    if (!m.y) return 2;
    for (int i = 0; i < atoi(argv[2]); i++) {
        number = hookbarley_recode_picture(c.bytes, c.length, c.header, &c.tile, &m, out, sizeof out, &result);
    }
    printf("%u %zu %zu\n", number, result.first_length, result.token_lengths[0]);
    return 0;
}
