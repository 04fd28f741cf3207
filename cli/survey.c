/* One file surveyed, surveys joined, and the table to read. */
#include "survey.h"
#include "stop.h"
#include <errno.h>
#include <inttypes.h>
#include <string.h>

#define MODES "DC", "TM", "V", "H"
const struct survey_table survey_tables[SURVEY_TABLES] = {
    [TABLE_ANSWERS] =
        {"answers", "pictures by answer", "pictures", HOOKBARLEY_SURVEY_ANSWERS, 8,
         {"0 whole", "1 bad size", "2 bad count", "3 bad entry", "4 bad length", "5 bad partition", "6 modes ran out", "7 tokens ran out"}},
    [TABLE_SEGMENTS] =
        {"segments", "macroblocks by segment", "macroblocks", HOOKBARLEY_SURVEY_SEGMENTS, 4,
         {"segment 0", "segment 1", "segment 2", "segment 3"}},
    [TABLE_LUMA] =
        {"luma", "macroblocks by luma mode", "macroblocks", HOOKBARLEY_SURVEY_LUMA, 5, {MODES, "small (B_PRED)"}},
    [TABLE_CHROMA] =
        {"chroma", "macroblocks by chroma mode", "macroblocks", HOOKBARLEY_SURVEY_CHROMA, 4, {MODES}},
    [TABLE_SKIP] =
        {"skip", "macroblocks by skip", "macroblocks", HOOKBARLEY_SURVEY_SKIP, 2, {"not skipped", "skipped"}},
    [TABLE_INSIDE] =
        {"inside", "macroblocks by inner edges", "macroblocks", HOOKBARLEY_SURVEY_INSIDE, 2, {"not filtered", "filtered"}},
    [TABLE_SUBBLOCKS] =
        {"subblocks", "sub-blocks of small ones by mode", "sub-blocks", HOOKBARLEY_SURVEY_SUBBLOCKS, 10,
         {"DC", "TM", "VE", "HE", "RD", "VR", "LD", "VL", "HD", "HU"}},
    [TABLE_SYMBOLS] =
        {"symbols", "symbols by partition", "symbols", HOOKBARLEY_SURVEY_FIRST_READS, 2, {"first partition", "token partitions"}},
};

const struct survey_answer survey_apart[SURVEY_APART] = {
    {HOOKBARLEY_NO_KEY_FRAME, "12"}, {HOOKBARLEY_PAST_END, "13"}, {HOOKBARLEY_NO_HEADER, "14"}, {HOOKBARLEY_FULL, "15"},
    {HOOKBARLEY_MARKS, "17"}, {HOOKBARLEY_SIZES, "18"}, {HOOKBARLEY_KIND, "19"}, {ANSWER_IVF, "ivf"},
};

/* What the record does not count: answers of before the picture call. */
static void count_apart(struct survey *survey, const struct tally *tally) {
    for (uint32_t n = 8; n < ANSWERS; n++) survey->apart[n] += tally->by[n];
}

int survey_file(const char *path, struct survey *survey, FILE *said) {
    struct file file;
    struct frame frame;
    struct picture picture;
    struct tally tally = {.said = said};
    uint64_t record[HOOKBARLEY_SURVEY_COUNTS];
    uint32_t number;
    memset(survey, 0, sizeof *survey);
    survey->files = 1;
    if (!file_read(path, &file)) {
        int stopped = errno == EINTR && stop_asked();
        take_unread(&tally, path);
        survey->unread = 1;
        return !stopped;
    }
    while (file_next(&file, &frame, &number)) {
        if (stop_asked()) {
            file_close(&file);
            return 0;
        }
        picture_survey(&picture, frame, record);
        number = hookbarley_survey_add(survey->record, HOOKBARLEY_SURVEY_COUNTS, record, HOOKBARLEY_SURVEY_COUNTS);
        if (number) picture.number = number;
        take_answer(&tally, path, &file, picture.number, &picture);
        picture_free(&picture);
    }
    take_end(&tally, path, &file, number);
    count_apart(survey, &tally);
    file_close(&file);
    return 1;
}

/* The same limit for what the record does not hold. */
static int fits(uint64_t a, uint64_t b) { return a <= INT64_MAX && b <= INT64_MAX - a; }

uint32_t survey_join(struct survey *survey, const struct survey *part) {
    if (!fits(survey->files, part->files) || !fits(survey->unread, part->unread) || !fits(survey->lost, part->lost)) return HOOKBARLEY_FULL;
    for (int n = 0; n < ANSWERS; n++)
        if (!fits(survey->apart[n], part->apart[n])) return HOOKBARLEY_FULL;
    uint32_t number = hookbarley_survey_add(survey->record, HOOKBARLEY_SURVEY_COUNTS, part->record, HOOKBARLEY_SURVEY_COUNTS);
    if (number) return number;
    survey->files += part->files, survey->unread += part->unread, survey->lost += part->lost;
    for (int n = 0; n < ANSWERS; n++) survey->apart[n] += part->apart[n];
    return 0;
}

uint64_t survey_counted_apart(const struct survey *survey) {
    uint64_t n = survey->unread + survey->lost;
    for (int i = 0; i < ANSWERS; i++) n += survey->apart[i];
    return n;
}

uint64_t survey_total(const struct survey *survey, const struct survey_table *table) {
    uint64_t total = 0;
    for (int i = 0; i < table->rows; i++) total += survey->record[table->from + i];
    return total;
}

int survey_status(const struct survey *survey) {
    if (survey->unread || survey->lost) return STATUS_USAGE;
    uint64_t whole = survey->record[HOOKBARLEY_SURVEY_ANSWERS + HOOKBARLEY_WHOLE];
    return whole == survey_total(survey, &survey_tables[TABLE_ANSWERS]) && !survey_counted_apart(survey) ? STATUS_WHOLE : STATUS_REFUSED;
}

const char *survey_share(char room[16], uint64_t count, uint64_t total) {
    double share = total ? 100.0 * (double)count / (double)total : 0;
    if (count && share < 0.05)
        snprintf(room, 16, "<0.1 %%");
    else if (count < total && share >= 99.95)
        snprintf(room, 16, ">99.9 %%");
    else
        snprintf(room, 16, "%.1f %%", share);
    return room;
}

void survey_headline(FILE *out, const struct survey *survey) {
    uint64_t pictures = survey_total(survey, &survey_tables[TABLE_ANSWERS]), apart = survey_counted_apart(survey);
    fprintf(out, "%" PRIu64 " file%s: ", survey->files, survey->files == 1 ? "" : "s");
    fprintf(out, "%" PRIu64 " picture%s, ", pictures, pictures == 1 ? "" : "s");
    fprintf(out, "%" PRIu64 " of them whole", survey->record[HOOKBARLEY_SURVEY_ANSWERS + HOOKBARLEY_WHOLE]);
    if (apart) fprintf(out, "; %" PRIu64 " apart", apart);
}

enum { BAR = 22 };

/* As long as the share of the total, and at least one where there is any. */
static void print_bar(FILE *out, uint64_t count, uint64_t total) {
    int length = total ? (int)(BAR * (double)count / (double)total + 0.5) : 0;
    if (count && !length) length = 1;
    fputs(length ? "  " : "", out);
    while (length--) fputc('#', out);
    fputc('\n', out);
}

/* The digits of the largest count. */
static int width_of(const struct survey *survey) {
    uint64_t most = 0;
    for (int i = 0; i < HOOKBARLEY_SURVEY_COUNTS; i++)
        if (survey->record[i] > most) most = survey->record[i];
    return snprintf(NULL, 0, "%" PRIu64, most);
}

static void print_table(FILE *out, const struct survey *survey, const struct survey_table *table) {
    uint64_t total = survey_total(survey, table);
    int width = width_of(survey);
    char share[16];
    fprintf(out, "\n%s, of %" PRIu64 "\n", table->title, total);
    for (int i = 0; i < table->rows; i++) {
        uint64_t count = survey->record[table->from + i];
        fprintf(out, "  %-18s%*" PRIu64 "%9s", table->names[i], width, count, survey_share(share, count, total));
        print_bar(out, count, total);
    }
}

static void print_apart(FILE *out, const struct survey *survey) {
    if (!survey_counted_apart(survey)) return;
    fprintf(out, "\napart: %" PRIu64 " without a picture\n", survey_counted_apart(survey));
    for (uint32_t n = 0; n < ANSWERS; n++) {
        if (!survey->apart[n]) continue;
        fprintf(out, "%10" PRIu64 "  ", survey->apart[n]);
        print_answer(out, n, NULL);
        fputc('\n', out);
    }
    if (survey->unread) fprintf(out, "%10" PRIu64 "  could not be read\n", survey->unread);
    if (survey->lost) fprintf(out, "%10" PRIu64 "  lost: their process ended\n", survey->lost);
}

void survey_print(FILE *out, const struct survey *survey) {
    survey_headline(out, survey);
    fputc('\n', out);
    for (int i = 0; i < SURVEY_TABLES; i++) print_table(out, survey, &survey_tables[i]);
    print_apart(out, survey);
}
