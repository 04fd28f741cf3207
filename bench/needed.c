/* needed FILE: macroblocks of a case file of one token partition, and the bytes that decoding it asks for: the smallest lengths of
 * its two partitions with which every macroblock is finished, found by halving. */
#include "../examples/c/case_file.h"

static struct case_file c;
static struct hookbarley_memory memory;

static int whole(void) {
    size_t finished;
    uint64_t first_reads, token_reads;
    return hookbarley_picture(c.bytes, c.length, c.header, &c.tile, &memory, &finished, &first_reads, &token_reads) == HOOKBARLEY_WHOLE;
}

/* The least that this partition's length can be; the length stays as it was. */
static size_t least(size_t *length) {
    size_t from = *length, low = 2, high = from;
    while (low < high) {
        *length = (low + high) / 2;
        if (whole()) high = *length; else low = *length + 1;
    }
    *length = from;
    return low;
}

int main(int argc, char **argv) {
    if (argc != 2) return 2;
    if (!case_read(argv[1], &c) || c.tile.count != 1 || !case_side(c.tile.width) || !case_side(c.tile.height)) return 1;
    hookbarley_lend(&c.tile, malloc(hookbarley_room(&c.tile)), &memory);
    if (!memory.y || !whole()) return 1;
    printf("%zu %zu\n", hookbarley_blocks(&c.tile), least(&c.tile.first_length) + least(&c.tile.token_lengths[0]));
    return 0;
}
