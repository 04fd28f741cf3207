/* rfc-decode [--unfiltered] [--rule NAME].. IN.. FOLDER: key frames (each file a frame's own bytes) by RFC 6386's decoder, as I420 cropped to
 * the true size: FOLDER/NAME.yuv for NAME.vp8. A refusal is said on standard error in the decoder's own words, no file is written, and the
 * status is 1. decoder.py builds it together with the RFC's files, which are not kept here.
 *
 * --rule puts one of the project's rules (docs/DIFFERENCES.md) in the place of the RFC's, to tell which rule a difference comes from:
 *   clamp   the quantizer index is clamped to 0..127 after the segment, too
 *   wide    sums between the passes of the transforms are not cut to 16 bits
 *   empty   whether a macroblock is empty goes by its luma and chroma blocks, not by the tokens of Y2
 *
 * The RFC's files are not changed for any of it: the linker leads their calls from one file to another through the functions here (--wrap). */
#include "dixie.h"
#include "idct_add.h"
#include "predict.h"
#include "tokens.h"
#include <stdio.h>
#include <stdlib.h>
#include <string.h>

/* A refusal leaves the decoder's memory behind. */
const char *__asan_default_options(void) { return "detect_leaks=0"; }

static int unfiltered, rule_clamp, rule_wide, rule_empty;

void __real_vp8_dixie_loopfilter_process_row(struct vp8_decoder_ctx *, unsigned int, unsigned int, unsigned int);

void __wrap_vp8_dixie_loopfilter_process_row(struct vp8_decoder_ctx *ctx, unsigned int row, unsigned int start, unsigned int count) {
    if (!unfiltered) __real_vp8_dixie_loopfilter_process_row(ctx, row, start, count);
}

void __real_vp8_dixie_predict_init(struct vp8_decoder_ctx *);

/* The last call between the header's fields and the quantizers made of them. */
void __wrap_vp8_dixie_predict_init(struct vp8_decoder_ctx *ctx) {
    __real_vp8_dixie_predict_init(ctx);
    struct vp8_segment_hdr *s = &ctx->segment_hdr;
    int base = s->abs ? 0 : (int)ctx->quant_hdr.q_index;
    for (int i = 0; rule_clamp && s->enabled && i < MAX_MB_SEGMENTS; i++) {
        int q = base + s->quant_idx[i];
        s->quant_idx[i] = (q < 0 ? 0 : q > 127 ? 127 : q) - base;
    }
}

void __real_vp8_dixie_walsh(const short *, short *);
void __real_vp8_dixie_idct_add(unsigned char *, const unsigned char *, int, const short *);

/* A line of four through the Walsh-Hadamard transform, in int. */
static void walsh_line(const int *in, int step, int *out) {
    int a = in[0] + in[3 * step], b = in[step] + in[2 * step], c = in[step] - in[2 * step], d = in[0] - in[3 * step];
    out[0] = a + b, out[step] = c + d, out[2 * step] = a - b, out[3 * step] = d - c;
}

void __wrap_vp8_dixie_walsh(const short *in, short *out) {
    int t[16];
    if (!rule_wide) { __real_vp8_dixie_walsh(in, out); return; }
    for (int i = 0; i < 16; i++) t[i] = in[i];
    for (int i = 0; i < 4; i++) walsh_line(t + i, 4, t + i);
    for (int i = 0; i < 16; i += 4) walsh_line(t + i, 1, t + i);
    for (int i = 0; i < 16; i++) out[i] = (t[i] + 3) >> 3;
}

static long sine(long x) { return x * 35468 >> 16; }

static long cosine(long x) { return x + (x * 20091 >> 16); }

/* A line of four through the inverse DCT, in long. */
static void dct_line(const long *in, int step, long *out) {
    long a = in[0] + in[2 * step], b = in[0] - in[2 * step];
    long c = sine(in[step]) - cosine(in[3 * step]), d = cosine(in[step]) + sine(in[3 * step]);
    out[0] = a + d, out[step] = b + c, out[2 * step] = b - c, out[3 * step] = a - d;
}

void __wrap_vp8_dixie_idct_add(unsigned char *to, const unsigned char *from, int stride, const short *in) {
    long t[16];
    if (!rule_wide) { __real_vp8_dixie_idct_add(to, from, stride, in); return; }
    for (int i = 0; i < 16; i++) t[i] = in[i];
    for (int i = 0; i < 4; i++) dct_line(t + i, 4, t + i);
    for (int y = 0; y < 4; y++) {
        dct_line(t + 4 * y, 1, t + 4 * y);
        for (int x = 0; x < 4; x++) {
            long v = from[stride * y + x] + ((t[4 * y + x] + 4) >> 3);
            to[stride * y + x] = v < 0 ? 0 : v > 255 ? 255 : v;
        }
    }
}

void __real_vp8_dixie_tokens_process_row(struct vp8_decoder_ctx *, unsigned int, unsigned int, unsigned int, unsigned int);

/* eob_mask has a bit for each block that ends past 1; the loop filter asks only whether it is 0. */
void __wrap_vp8_dixie_tokens_process_row(struct vp8_decoder_ctx *ctx, unsigned int partition, unsigned int row, unsigned int start, unsigned int count) {
    __real_vp8_dixie_tokens_process_row(ctx, partition, row, start, count);
    for (unsigned int col = start; rule_empty && col < start + count; col++) {
        struct mb_info *mb = ctx->mb_info_rows[row] + col;
        const short *coeffs = ctx->tokens[partition].coeffs + 25 * 16 * col;
        short dc[16];
        if (mb->base.y_mode == B_PRED || mb->base.skip_coeff) continue;
        int any = (mb->base.eob_mask & 0xffffff) != 0;
        __wrap_vp8_dixie_walsh(coeffs + 24 * 16, dc);
        for (int i = 0; i < 24; i++) any |= i < 16 ? dc[i] != 0 : coeffs[16 * i] != 0;
        mb->base.eob_mask = any;
    }
}

static int plane(FILE *to, const unsigned char *from, int stride, size_t width, size_t height) {
    for (size_t y = 0; y < height; y++)
        if (fwrite(from + (ptrdiff_t)stride * (ptrdiff_t)y, 1, width, to) != width) return 0;
    return 1;
}

static int written(const char *name, struct vp8_decoder_ctx *ctx) {
    vpx_image_t *img = &ctx->ref_frames[CURRENT_FRAME]->img;
    size_t w = ctx->frame_hdr.kf.w, h = ctx->frame_hdr.kf.h;
    FILE *to = fopen(name, "wb");
    if (!to) return perror(name), 0;
    int good = plane(to, img->planes[PLANE_Y], img->stride[PLANE_Y], w, h)
        && plane(to, img->planes[PLANE_U], img->stride[PLANE_U], (w + 1) / 2, (h + 1) / 2)
        && plane(to, img->planes[PLANE_V], img->stride[PLANE_V], (w + 1) / 2, (h + 1) / 2);
    if (fclose(to) || !good) return fprintf(stderr, "%s: not written\n", name), 0;
    return 1;
}

/* 0 decoded, 1 refused, 2 a file that cannot be read or written */
static int decoded(const char *name, const char *folder) {
    FILE *from = fopen(name, "rb");
    if (!from) return perror(name), 2;
    size_t room = 1 << 24;
    unsigned char *bytes = malloc(room);
    size_t length = bytes ? fread(bytes, 1, room, from) : 0;
    fclose(from);
    bytes = realloc(bytes, length ? length : 1); /* so that the checked build finds a read past the end */
    if (length > 0 && (bytes[0] & 1)) return free(bytes), fprintf(stderr, "%s: not a key frame\n", name), 1;

    struct vp8_decoder_ctx *ctx = calloc(1, sizeof *ctx);
    vp8_dixie_decode_init(ctx);
    ctx->error.setjmp = 1; /* else the decoder goes on after an error: nothing printed in the RFC sets it */
    vpx_codec_err_t answer = vp8_dixie_decode_frame(ctx, bytes, (unsigned int)length);
    if (answer) return fprintf(stderr, "%s: refused, %d, %s\n", name, answer, ctx->error.has_detail ? ctx->error.detail : ""), 1;
    const char *base = strrchr(name, '/') ? strrchr(name, '/') + 1 : name, *end = strrchr(base, '.');
    size_t size = strlen(folder) + strlen(base) + 8;
    char *out = malloc(size);
    snprintf(out, size, "%s/%.*s.yuv", folder, end ? (int)(end - base) : (int)strlen(base), base);
    int good = written(out, ctx);
    vp8_dixie_decode_destroy(ctx);
    free(ctx);
    free(bytes);
    free(out);
    return good ? 0 : 2;
}

int main(int count, char **words) {
    int at = 1, status = 0;
    for (; at < count && !strncmp(words[at], "--", 2); at++) {
        if (!strcmp(words[at], "--unfiltered")) unfiltered = 1;
        else if (!strcmp(words[at], "--rule") && at + 1 < count && !strcmp(words[at + 1], "clamp")) rule_clamp = 1, at++;
        else if (!strcmp(words[at], "--rule") && at + 1 < count && !strcmp(words[at + 1], "wide")) rule_wide = 1, at++;
        else if (!strcmp(words[at], "--rule") && at + 1 < count && !strcmp(words[at + 1], "empty")) rule_empty = 1, at++;
        else at = count;
    }
    if (count - at < 2) return fprintf(stderr, "rfc-decode [--unfiltered] [--rule clamp|wide|empty].. IN.. FOLDER\n"), 2;
    for (; at < count - 1; at++) {
        int answer = decoded(words[at], words[count - 1]);
        if (answer > status) status = answer;
    }
    return status;
}
