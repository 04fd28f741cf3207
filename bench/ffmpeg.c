/* Decodes a .webp again and again with ffmpeg's VP8 decoder, one thread: ffmpeg FILE TIMES [deblock]; without `deblock` its loop filter is skipped. */
#include "planes.h"
#include <libavcodec/avcodec.h>

int main(int argc, char **argv) {
    static struct frame f;
    if (argc < 3 || !frame_read(argv[1], &f)) return 2;
    AVCodecContext *c = avcodec_alloc_context3(avcodec_find_decoder(AV_CODEC_ID_VP8));
    AVPacket *packet = av_packet_alloc();
    AVFrame *out = av_frame_alloc();
    c->thread_count = 1;
    if (argc < 4) c->skip_loop_filter = AVDISCARD_ALL;
    if (avcodec_open2(c, NULL, NULL) || av_new_packet(packet, (int)f.length)) return 2;
    memcpy(packet->data, f.bytes, f.length);
    packet->flags |= AV_PKT_FLAG_KEY;
    for (int i = 0, times = atoi(argv[2]); i < times; i++) {
        if (avcodec_send_packet(c, packet) || avcodec_receive_frame(c, out)) return 3;
        if (i == times - 1) planes_print(out->data, out->linesize, c->width, c->height);
        av_frame_unref(out);
    }
    return 0;
}
