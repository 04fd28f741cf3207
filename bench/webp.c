/* Decodes a .webp again and again with libwebp into YUV planes: webp FILE TIMES [deblock]; without `deblock` its loop filter is bypassed.
 * The whole file is parsed each time, as libwebp's users do. */
#include "planes.h"
#include "src/webp/decode.h"

int main(int argc, char **argv) {
    static uint8_t file[1 << 22];
    FILE *f = argc < 3 ? NULL : fopen(argv[1], "rb");
    if (!f) return 2;
    size_t n = fread(file, 1, sizeof file, f);
    fclose(f);
    for (int i = 0, times = atoi(argv[2]); i < times; i++) {
        WebPDecoderConfig c;
        if (!WebPInitDecoderConfig(&c)) return 2;
        c.options.bypass_filtering = argc < 4;
        c.output.colorspace = MODE_YUV;
        if (WebPDecode(file, n, &c)) return 3;
        const WebPYUVABuffer *b = &c.output.u.YUVA;
        if (i == times - 1) planes_print((uint8_t *const[]){b->y, b->u, b->v}, (const int[]){b->y_stride, b->u_stride, b->v_stride}, c.output.width, c.output.height);
        WebPFreeDecBuffer(&c.output);
    }
    return 0;
}
