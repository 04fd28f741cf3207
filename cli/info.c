/* hookbarley info: what a frame's header says, and what decoding it gave. */
#include "answers.h"
#include "commands.h"
#include "info_json.h"
#include "json_file.h"
#include "walk.h"
#include <errno.h>
#include <inttypes.h>

static void print_numbers(const char *name, const int32_t *numbers, int count) {
    printf("%s", name);
    for (int i = 0; i < count; i++) printf(" %d", (int)numbers[i]);
}

static void print_header(const struct picture *p) {
    const int32_t *h = p->header;
    const struct hookbarley_tile *t = &p->tile;
    printf("  size        %zu x %zu, coded as %zu x %zu", t->true_width, t->true_height, t->width, t->height);
    printf(", macroblocks %zu x %zu\n", t->width / 16, t->height / 16);
    printf("  partitions  the first of %zu bytes; %zu of tokens:", t->first_length, t->count);
    for (size_t i = 0; i < t->count; i++) printf(" %zu", t->token_lengths[i]);
    print_numbers("\n  quantizer  ", h + HOOKBARLEY_HEADER_QUANTIZER, 1);
    print_numbers("; added for Y DC, Y2 DC, Y2 AC, UV DC, UV AC:", h + HOOKBARLEY_HEADER_QUANTIZER_DELTA, 5);
    printf("\n  segments    ");
    if (h[HOOKBARLEY_HEADER_SEGMENTS]) {
        print_numbers("quantizers", h + HOOKBARLEY_HEADER_SEGMENT_QUANTIZER, 4);
        print_numbers(", levels", h + HOOKBARLEY_HEADER_SEGMENT_LEVEL, 4);
        printf(", %s", h[HOOKBARLEY_HEADER_ABSOLUTE] ? "absolute" : "added to the frame's");
        printf("; %s map\n", h[HOOKBARLEY_HEADER_MAP] ? "with a" : "without a");
    } else
        printf("none\n");
    printf("  filter      %s, level %d%s", t->simple ? "simple" : "normal", p->level, p->level ? "" : " (nothing is filtered)");
    printf(", sharpness %d; ", (int)h[HOOKBARLEY_HEADER_SHARPNESS]);
    if (h[HOOKBARLEY_HEADER_DELTAS])
        printf("deltas: intra %d, small %d\n", (int)h[HOOKBARLEY_HEADER_INTRA_DELTA], (int)h[HOOKBARLEY_HEADER_SMALL_DELTA]);
    else
        printf("no deltas\n");
    printf("  skipping    %s\n", h[HOOKBARLEY_HEADER_SKIPPING] ? "macroblocks may be skipped" : "no macroblock is skipped");
}

/* A table of the record: "DC 3, TM 0". */
static void print_counts(const char *name, const uint64_t *counts, int count, const char *const *words) {
    printf("  %-12s", name);
    for (int i = 0; i < count; i++) printf("%s%s%s%" PRIu64, i ? ", " : "", words ? words[i] : "", words ? " " : "", counts[i]);
}

/* The finished macroblocks, as the library counted them. */
static void print_modes(const uint64_t *record) {
    static const char *const words[] = {"DC", "TM", "V", "H", "small"};
    print_counts("luma", record + HOOKBARLEY_SURVEY_LUMA, 5, words);
    printf("\n");
    print_counts("chroma", record + HOOKBARLEY_SURVEY_CHROMA, 4, words);
    printf("\n");
    print_counts("by segment", record + HOOKBARLEY_SURVEY_SEGMENTS, 4, NULL);
    printf("; skipped %" PRIu64 "\n", record[HOOKBARLEY_SURVEY_SKIP + 1]);
}

/* The symbols read, beside the most that as many macroblocks can read: those finished and, where it was cut, one more. */
static void print_cost(const struct picture *p, const uint64_t *record) {
    uint64_t asked = p->finished + (p->number != HOOKBARLEY_WHOLE);
    printf("  symbols     %" PRIu64 " of at most %" PRIu64 " from the first partition", record[HOOKBARLEY_SURVEY_FIRST_READS],
           asked * HOOKBARLEY_FIRST_MOST);
    printf(", %" PRIu64 " of at most %" PRIu64 " of tokens\n", record[HOOKBARLEY_SURVEY_TOKEN_READS], asked * HOOKBARLEY_TOKEN_MOST);
}

static void print_frame(struct frame frame, const struct picture *p, const uint64_t *record) {
    printf("  frame       %zu bytes", frame.length);
    if (has_picture(p->number)) {
        printf(", version %d\n", frame.bytes[0] >> 1 & 7);
        print_header(p);
    } else
        printf("\n");
    printf("  answer      ");
    print_answer(stdout, p->number, p);
    printf("\n");
    if (!has_picture(p->number)) return;
    print_cost(p, record);
    print_modes(record);
}

/* The pictures told of so far. */
struct told {
    struct tally tally;
    struct json *json; /* NULL: in words */
};

static void info_frame(struct told *told, const char *path, const struct file *file, struct frame frame) {
    struct picture picture;
    uint64_t record[HOOKBARLEY_SURVEY_COUNTS];
    picture_survey(&picture, frame, record);
    if (told->json) info_json(told->json, frame, &picture, record);
    else print_frame(frame, &picture, record);
    fflush(stdout);
    take_answer(&told->tally, path, file, picture.number, &picture);
    picture_free(&picture);
}

static void print_end(uint32_t number) {
    printf("  answer      ");
    print_answer(stdout, number, NULL);
    printf("\n");
    fflush(stdout);
}

static void info_file(void *with, const char *path, const char *name) {
    struct told *told = with;
    struct file file;
    struct frame frame;
    uint32_t number;
    (void)name;
    told->tally.files++;
    if (!json_file(told->json, &told->tally, path, &file)) return;
    if (!told->json) printf("%s: %s, %zu bytes\n", path, kind_name(file.kind), file.length);
    while (file_next(&file, &frame, &number)) info_frame(told, path, &file, frame);
    if (number && !told->json) print_end(number);
    json_file_end(told->json, &file, number);
    take_end(&told->tally, path, &file, number);
    file_close(&file);
}

static void folder_unread(void *with, const char *path, int why) {
    errno = why;
    json_unread(((struct told *)with)->json, &((struct told *)with)->tally, path);
}

static void json_totals(struct json *j, const struct tally *tally) {
    json_end(j, ']');
    json_number(j, "whole", (intmax_t)tally->by[HOOKBARLEY_WHOLE]);
    json_number(j, "cut", (intmax_t)(tally->by[HOOKBARLEY_NO_MODES] + tally->by[HOOKBARLEY_NO_TOKENS]));
    json_number(j, "refused", (intmax_t)tally_refused(tally));
    json_number(j, "unread", (intmax_t)tally->unread);
    json_end(j, '}');
}

int info(const struct options *o) {
    struct json json = {.out = stdout};
    struct told told = {.json = o->json ? &json : NULL};
    const struct walk files = {info_file, folder_unread, &told};
    if (o->count < 1) return usage("info takes an IN", "");
    if (o->json) json_begin(&json, NULL, '{'), json_begin(&json, "files", '[');
    walk(&files, o->names, o->count);
    if (o->json) json_totals(&json, &told.tally);
    else if (o->count > 1 || told.tally.files > 1) print_tally(&told.tally);
    return tally_status(&told.tally);
}
