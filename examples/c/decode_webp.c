/* From a WebP file (simple lossy) to its luma plane: decode_webp FILE writes the deblocked picture, cut to its true size, as a PGM picture
 * on standard output, and the answer's number, the macroblocks finished and the true sizes on standard error. With the library installed
 * (tools/install.sh):
 *   cc $(pkg-config --cflags hookbarley) decode_webp.c $(pkg-config --libs hookbarley) -o decode_webp */
#include "hookbarley.h"
#include <stdio.h>
#include <stdlib.h>

static int refused(uint32_t number) {
    fprintf(stderr, "%u 0 0 0\n", number);
    return 1;
}

/* What a loader has: before it stands reading the file, behind it drawing the picture. A loader that decodes many frames of one size lends
 * once and shows each. */
static int decode(const uint8_t *frame, size_t length) {
    int32_t header[HOOKBARLEY_ENTRIES];
    struct hookbarley_tile tile;
    struct hookbarley_memory memory;
    size_t finished;
    uint32_t number = hookbarley_take(frame, length, header, &tile);
    if (number) return refused(number);
    hookbarley_lend(&tile, malloc(hookbarley_room(&tile)), &memory);
    if (!memory.y) return 2;
    number = hookbarley_show(frame, length, header, &tile, &memory, &finished);
    fprintf(stderr, "%u %zu %zu %zu\n", number, finished, tile.true_width, tile.true_height);
    printf("P5\n%zu %zu\n255\n", tile.true_width, tile.true_height);
    for (size_t row = 0; row < tile.true_height; row++) fwrite(memory.y + row * tile.width, 1, tile.true_width, stdout);
    free(memory.y);
    return number != 0;
}

int main(int argc, char **argv) {
    FILE *f = argc == 2 ? fopen(argv[1], "rb") : NULL;
    if (!f) { fprintf(stderr, "usage: decode_webp FILE >PICTURE.pgm\n"); return 2; }
    static uint8_t file[1 << 24];
    size_t n = fread(file, 1, sizeof file, f), start, length;
    fclose(f);
    uint32_t number = hookbarley_webp_find(file, n, &start, &length);
    return number ? refused(number) : decode(file + start, length);
}
