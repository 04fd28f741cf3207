/* survey FILE TIMES: surveys a case file again and again into the same lent memory and record, as examples/c/bench.c decodes it. Prints the
 * answer's number and the macroblocks counted by each call. */
#include "../examples/c/case_file.h"

int main(int argc, char **argv) {
    static struct case_file c;
    static uint64_t record[HOOKBARLEY_SURVEY_COUNTS];
    struct hookbarley_memory m;
    uint32_t number = 0;
    if (argc != 3 || !case_read(argv[1], &c) || !case_side(c.tile.width) || !case_side(c.tile.height)) return 2;
    uint8_t *room = malloc(hookbarley_room(&c.tile));
    uint64_t times = (uint64_t)atoi(argv[2]), counted = 0;
    if (!room || !times) return 2;
    hookbarley_lend(&c.tile, room, &m);
    for (uint64_t i = 0; i < times; i++) number = hookbarley_survey_picture(c.bytes, c.length, c.header, &c.tile, &m, record);
    for (int i = 0; i < 4; i++) counted += record[HOOKBARLEY_SURVEY_SEGMENTS + i];
    printf("%u %llu\n", number, (unsigned long long)(counted / times));
    return 0;
}
