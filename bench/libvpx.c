/* Decodes a .webp again and again with libvpx, one thread: libvpx FILE TIMES. It filters by the frame's own level: without the loop filter it is
 * given the frame that tests/second/level_zero.py makes. */
#include "planes.h"
#include <vpx/vp8dx.h>
#include <vpx/vpx_decoder.h>

int main(int argc, char **argv) {
    static struct frame f;
    if (argc < 3 || !frame_read(argv[1], &f)) return 2;
    vpx_codec_ctx_t c;
    vpx_codec_dec_cfg_t config = {1, 0, 0};
    if (vpx_codec_dec_init(&c, vpx_codec_vp8_dx(), &config, 0)) return 2;
    for (int i = 0, times = atoi(argv[2]); i < times; i++) {
        vpx_codec_iter_t at = NULL;
        if (vpx_codec_decode(&c, f.bytes, (unsigned)f.length, NULL, 0)) return 3;
        vpx_image_t *out = vpx_codec_get_frame(&c, &at);
        if (!out) return 3;
        if (i == times - 1) planes_print(out->planes, out->stride, (int)out->d_w, (int)out->d_h);
    }
    return 0;
}
