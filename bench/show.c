/* Decodes the frame of a .webp again and again by the one call, header to filtered planes, into the same lent memory: show FILE TIMES. */
#include "planes.h"
#include "hookbarley.h"

int main(int argc, char **argv) {
    static struct frame f;
    static int32_t header[HOOKBARLEY_ENTRIES];
    struct hookbarley_tile tile;
    struct hookbarley_memory m;
    size_t finished;
    if (argc < 3 || !frame_read(argv[1], &f) || hookbarley_take(f.bytes, f.length, header, &tile)) return 2;
    hookbarley_lend(&tile, malloc(hookbarley_room(&tile)), &m);
    if (!m.y) return 2;
    for (int i = 0, times = atoi(argv[2]); i < times; i++)
        if (hookbarley_show(f.bytes, f.length, header, &tile, &m, &finished)) return 3;
    planes_print((uint8_t *const[]){m.y, m.u, m.v}, (const int[]){(int)tile.width, (int)tile.width / 2, (int)tile.width / 2}, (int)tile.width, (int)tile.height);
    return 0;
}
