/* What the bench programs over other decoders share: the frame inside a .webp file, and the line that examples/c/bench.c prints too. */
#include <stdint.h>
#include <stdio.h>
#include <stdlib.h>
#include <string.h>

struct frame {
    uint8_t bytes[1 << 22];
    size_t length;
};

/* The 'VP8 ' chunk of a simple .webp file. */
static int frame_read(const char *name, struct frame *f) {
    uint8_t head[20];
    FILE *in = fopen(name, "rb");
    if (!in) { perror(name); return 0; }
    size_t n = fread(head, 1, sizeof head, in);
    f->length = n < 20 ? 0 : head[16] | (size_t)head[17] << 8 | (size_t)head[18] << 16;
    if (n == 20 && !memcmp(head + 12, "VP8 ", 4)) n = fread(f->bytes, 1, f->length, in);
    fclose(in);
    return n == f->length;
}

static unsigned long plane_sum(const uint8_t *p, int stride, int width, int height) {
    unsigned long sum = 0;
    for (int y = 0; y < height; y++)
        for (int x = 0; x < width; x++) sum += p[y * stride + x];
    return sum;
}

static void planes_print(uint8_t *const *plane, const int *stride, int width, int height) {
    int across = (width + 15) / 16, down = (height + 15) / 16, w = (width + 1) / 2, h = (height + 1) / 2;
    printf("0 %d %lu %lu %lu\n", across * down, plane_sum(plane[0], stride[0], width, height), plane_sum(plane[1], stride[1], w, h), plane_sum(plane[2], stride[2], w, h));
}
