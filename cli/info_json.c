/* The members that a frame has in JSON, in the order of info's lines. */
#include "info_json.h"
#include "json_file.h"

static void write_size(struct json *j, const struct hookbarley_tile *t) {
    json_number(j, "width", (intmax_t)t->true_width);
    json_number(j, "height", (intmax_t)t->true_height);
    json_number(j, "coded_width", (intmax_t)t->width);
    json_number(j, "coded_height", (intmax_t)t->height);
    json_number(j, "first_partition", (intmax_t)t->first_length);
    uint64_t lengths[HOOKBARLEY_PARTITIONS];
    for (size_t i = 0; i < t->count; i++) lengths[i] = t->token_lengths[i];
    json_counts(j, "token_partitions", lengths, t->count);
}

static void write_segments(struct json *j, const int32_t *h) {
    if (!h[HOOKBARLEY_HEADER_SEGMENTS]) {
        json_nothing(j, "segments");
        return;
    }
    json_begin(j, "segments", '{');
    json_numbers(j, "quantizers", h + HOOKBARLEY_HEADER_SEGMENT_QUANTIZER, 4);
    json_numbers(j, "levels", h + HOOKBARLEY_HEADER_SEGMENT_LEVEL, 4);
    json_truth(j, "absolute", h[HOOKBARLEY_HEADER_ABSOLUTE]);
    json_truth(j, "map", h[HOOKBARLEY_HEADER_MAP]);
    json_end(j, '}');
}

static void write_filter(struct json *j, const struct picture *p) {
    const int32_t *h = p->header;
    json_begin(j, "filter", '{');
    json_text(j, "kind", p->tile.simple ? "simple" : "normal");
    json_number(j, "level", p->level);
    json_number(j, "sharpness", h[HOOKBARLEY_HEADER_SHARPNESS]);
    if (h[HOOKBARLEY_HEADER_DELTAS]) {
        json_number(j, "intra_delta", h[HOOKBARLEY_HEADER_INTRA_DELTA]);
        json_number(j, "small_delta", h[HOOKBARLEY_HEADER_SMALL_DELTA]);
    }
    json_end(j, '}');
}

static void write_header(struct json *j, const struct picture *p) {
    const int32_t *h = p->header;
    write_size(j, &p->tile);
    json_number(j, "quantizer", h[HOOKBARLEY_HEADER_QUANTIZER]);
    json_numbers(j, "quantizer_deltas", h + HOOKBARLEY_HEADER_QUANTIZER_DELTA, 5);
    write_segments(j, h);
    write_filter(j, p);
    json_truth(j, "skipping", h[HOOKBARLEY_HEADER_SKIPPING]);
}

static void write_counts(struct json *j, const struct picture *p, const uint64_t *record) {
    uint64_t asked = p->finished + (p->number != HOOKBARLEY_WHOLE);
    const uint64_t most[] = {asked * HOOKBARLEY_FIRST_MOST, asked * HOOKBARLEY_TOKEN_MOST};
    json_number(j, "finished", (intmax_t)p->finished);
    json_number(j, "macroblocks", (intmax_t)p->blocks);
    json_counts(j, "symbols", record + HOOKBARLEY_SURVEY_FIRST_READS, 2);
    json_counts(j, "symbols_most", most, 2);
    json_counts(j, "luma", record + HOOKBARLEY_SURVEY_LUMA, 5);
    json_counts(j, "chroma", record + HOOKBARLEY_SURVEY_CHROMA, 4);
    json_counts(j, "by_segment", record + HOOKBARLEY_SURVEY_SEGMENTS, 4);
    json_number(j, "skipped", (intmax_t)record[HOOKBARLEY_SURVEY_SKIP + 1]);
}

void info_json(struct json *j, struct frame frame, const struct picture *p, const uint64_t *record) {
    json_begin(j, NULL, '{');
    json_number(j, "bytes", (intmax_t)frame.length);
    if (has_picture(p->number)) {
        json_number(j, "version", frame.bytes[0] >> 1 & 7);
        write_header(j, p);
    }
    json_answer(j, p->number);
    if (has_picture(p->number)) write_counts(j, p, record);
    json_end(j, '}');
}
