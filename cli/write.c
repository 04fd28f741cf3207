#include "write.h"
#include <stdlib.h>
#include <string.h>

static const char *const endings[] = {[FORM_YUV] = "yuv", [FORM_PGM] = "pgm", [FORM_PPM] = "ppm"};

enum form form_of(const char *ending) {
    for (enum form form = FORM_YUV; form <= FORM_PPM; form++)
        if (!strcmp(ending, endings[form])) return form;
    return FORM_NONE;
}

const char *ending_of(enum form form) {
    return endings[form];
}

static int plane(FILE *out, const uint8_t *samples, size_t stride, size_t width, size_t height) {
    for (size_t row = 0; row < height; row++)
        if (fwrite(samples + row * stride, 1, width, out) != width) return 0;
    return 1;
}

/* A number of 14 bits, of which 6 are below the point, as a byte. */
static uint8_t byte(int x) {
    return x < 0 ? 0 : x >= 256 << 6 ? 255 : (uint8_t)(x >> 6);
}

/* BT.601, Y of 16 to 235, as libwebp works it out. */
static void colour(uint8_t *rgb, int y, int u, int v) {
    int light = y * 19077 >> 8;
    rgb[0] = byte(light + (v * 26149 >> 8) - 14234);
    rgb[1] = byte(light - (u * 6419 >> 8) - (v * 13320 >> 8) + 8708);
    rgb[2] = byte(light + (u * 33050 >> 8) - 17685);
}

/* Each U and V serves a square of four samples. */
void write_colours(uint8_t *row, const struct picture *p, size_t y) {
    size_t stride = p->tile.width;
    const uint8_t *u = p->memory.u + y / 2 * (stride / 2), *v = p->memory.v + y / 2 * (stride / 2);
    for (size_t x = 0; x < p->tile.true_width; x++) colour(row + 3 * x, p->memory.y[y * stride + x], u[x / 2], v[x / 2]);
}

static int colours(FILE *out, const struct picture *p) {
    size_t width = p->tile.true_width;
    uint8_t *row = memory(3 * width);
    int good = 1;
    for (size_t y = 0; good && y < p->tile.true_height; y++) {
        write_colours(row, p, y);
        good = fwrite(row, 3, width, out) == width;
    }
    free(row);
    return good;
}

int write_picture(FILE *out, enum form form, const struct picture *p) {
    size_t width = p->tile.true_width, height = p->tile.true_height, stride = p->tile.width;
    if (form != FORM_YUV && fprintf(out, "P%c\n%zu %zu\n255\n", form == FORM_PGM ? '5' : '6', width, height) < 0) return 0;
    if (form == FORM_PPM) return colours(out, p);
    if (!plane(out, p->memory.y, stride, width, height)) return 0;
    if (form == FORM_PGM) return 1;
    width = (width + 1) / 2, height = (height + 1) / 2, stride /= 2;
    return plane(out, p->memory.u, stride, width, height) && plane(out, p->memory.v, stride, width, height);
}
