/* rescue FILE TIMES: rescues a case file again and again into the same lent memory, as examples/c/bench.c decodes it. Prints the answer's
 * number and the macroblocks kept. */
#include "../examples/c/case_file.h"

int main(int argc, char **argv) {
    static struct case_file c;
    struct hookbarley_memory m;
    size_t kept = 0;
    uint32_t number = 0;
    if (argc != 3 || !case_read(argv[1], &c) || !case_side(c.tile.width) || !case_side(c.tile.height)) return 2;
    uint8_t *room = malloc(hookbarley_room(&c.tile) + hookbarley_blocks(&c.tile)), *marks = room + hookbarley_room(&c.tile);
    if (!room) return 2;
    hookbarley_lend(&c.tile, room, &m);
    for (int i = 0; i < atoi(argv[2]); i++) number = hookbarley_rescue_picture(c.bytes, c.length, c.header, &c.tile, &m, marks, &kept);
    printf("%u %zu\n", number, kept);
    return 0;
}
