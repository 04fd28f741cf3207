#include "answers.h"
#include <errno.h>
#include <string.h>

static const char *const words[ANSWERS] = {
    [HOOKBARLEY_WHOLE] = "every macroblock is finished",
    [HOOKBARLEY_SIZE] = "width or height is not a multiple of 16 in 16 to 16384",
    [HOOKBARLEY_COUNT] = "the count of token partitions is not 1 to 8",
    [HOOKBARLEY_ENTRY] = "a header entry is outside -255 to 255",
    [HOOKBARLEY_LENGTH] = "a lent length is not what the size asks",
    [HOOKBARLEY_PARTITION] = "a partition lies outside the bytes, or the starting reader is out of range",
    [HOOKBARLEY_NO_MODES] = "the first partition, which holds the modes, ran out",
    [HOOKBARLEY_NO_TOKENS] = "a token partition ran out",
    [8] = "a coefficient is outside 16 bits",
    [HOOKBARLEY_ARGUMENT] = "an argument is out of range",
    [10] = "the case file is malformed",
    [HOOKBARLEY_LIMIT] = "a strength record's limit is above 189",
    [HOOKBARLEY_NO_KEY_FRAME] =
        "not a VP8 key frame (under 10 bytes, an inter frame, a wrong start code, a version above 3 or a size of 0)",
    [HOOKBARLEY_PAST_END] = "a partition lies past the end of the frame",
    [HOOKBARLEY_NO_HEADER] = "the frame's header ran out",
    [HOOKBARLEY_FULL] = "a count would pass 2^63 - 1",
    [HOOKBARLEY_ROOM] = "the room to write into is too small",
    [HOOKBARLEY_MARKS] = "not a WebP file ('RIFF' or 'WEBP' is missing)",
    [HOOKBARLEY_SIZES] = "a size in the WebP file is at odds with its bytes",
    [HOOKBARLEY_KIND] = "the WebP file's first chunk is not 'VP8 ' (lossless, or the extended layout)",
    [ANSWER_IVF] = "the IVF file ends in a frame's head, holds no frame or is not of VP8",
};

const char *words_of(uint32_t number) {
    return number < ANSWERS ? words[number] : "an answer that no call gives";
}

const char *outcome_of(uint32_t number, int rescue) {
    if (number == HOOKBARLEY_WHOLE) return "whole";
    if (number == HOOKBARLEY_NO_TOKENS && rescue) return "rescued";
    return has_picture(number) ? "cut" : "refused";
}

void print_answer(FILE *out, uint32_t number, const struct picture *p) {
    if (number != ANSWER_IVF) fprintf(out, "%u, ", (unsigned)number);
    fprintf(out, "%s", words_of(number));
    if (!p || !has_picture(number)) return;
    if (number == HOOKBARLEY_WHOLE) {
        fprintf(out, " (%zu)", p->finished);
        return;
    }
    size_t columns = p->tile.width / 16;
    fprintf(out, " in macroblock %zu (column %zu, row %zu)", p->finished, p->finished % columns, p->finished / columns);
    fprintf(out, ", %zu of %zu finished", p->finished, p->blocks);
}

/* What follows the finished macroblocks. */
static void print_rest(FILE *out, const struct picture *p) {
    size_t soft = p->kept - p->finished, grey = p->blocks - p->kept;
    if (soft && grey)
        fprintf(out, "; then %zu soft, %zu grey", soft, grey);
    else
        fprintf(out, "; the rest is %s", soft ? "soft" : "grey");
}

static FILE *said_of(const struct tally *tally) { return tally->said ? tally->said : stderr; }

int take_answer(struct tally *tally, const char *path, const struct file *file, uint32_t number, const struct picture *p) {
    if (number < ANSWERS) tally->by[number]++;
    if (has_picture(number)) tally->pictures++;
    if (!number) return STATUS_WHOLE;
    FILE *out = said_of(tally);
    fprintf(out, "%s: ", path);
    if (p && file->kind == KIND_IVF) fprintf(out, "frame %zu: ", file->frames - 1);
    fprintf(out, "%s: ", outcome_of(number, tally->rescue));
    print_answer(out, number, p);
    if (p && has_picture(number)) print_rest(out, p);
    fprintf(out, "\n");
    return STATUS_REFUSED;
}

int take_end(struct tally *tally, const char *path, const struct file *file, uint32_t number) {
    if (!number && file->frames) return STATUS_WHOLE;
    return take_answer(tally, path, file, number ? number : ANSWER_IVF, NULL);
}

void take_unread(struct tally *tally, const char *path) {
    fprintf(said_of(tally), "hookbarley: %s: %s\n", path, strerror(errno));
    tally->unread++;
}

void take_unwritten(struct tally *tally, const char *path) {
    fprintf(said_of(tally), "hookbarley: %s: %s\n", path, strerror(errno));
    tally->unwritten++;
}

void tally_add(struct tally *sum, const struct tally *part) {
    sum->files += part->files, sum->pictures += part->pictures;
    sum->unread += part->unread, sum->unwritten += part->unwritten, sum->lost += part->lost;
    for (int n = 0; n < ANSWERS; n++) sum->by[n] += part->by[n];
}

int tally_status(const struct tally *tally) {
    if (tally->unread || tally->unwritten || tally->lost) return STATUS_USAGE;
    for (int n = 1; n < ANSWERS; n++)
        if (tally->by[n]) return STATUS_REFUSED;
    return STATUS_WHOLE;
}

size_t tally_refused(const struct tally *tally) {
    size_t refused = 0;
    for (uint32_t n = 0; n < ANSWERS; n++)
        if (!has_picture(n)) refused += tally->by[n];
    return refused;
}

static void print_count(size_t count, const char *what) {
    if (count) printf("%8zu  %s\n", count, what);
}

void print_tally(const struct tally *tally) {
    printf("%zu file%s, %zu picture%s\n", tally->files, tally->files == 1 ? "" : "s", tally->pictures, tally->pictures == 1 ? "" : "s");
    for (uint32_t n = 0; n < ANSWERS; n++) {
        if (!tally->by[n]) continue;
        printf("%8zu  %s: ", tally->by[n], outcome_of(n, tally->rescue));
        print_answer(stdout, n, NULL);
        printf("\n");
    }
    print_count(tally->unread, "could not be read");
    print_count(tally->unwritten, "could not be written");
    print_count(tally->lost, "lost: their process ended");
}

int usage(const char *why, const char *what) {
    fprintf(stderr, "hookbarley: %s%s; hookbarley --help says how\n", why, what);
    return STATUS_USAGE;
}

int cannot_write(const char *path) {
    fprintf(stderr, "hookbarley: %s: %s\n", path, strerror(errno));
    return STATUS_USAGE;
}

int worse(int status, int other) {
    return status > other ? status : other;
}
