/* hookbarley fits: whether each frame fits the cockpit profile, and if not by which rule. */
#include "answers.h"
#include "commands.h"
#include "json_file.h"
#include "walk.h"
#include <errno.h>

enum { WORDS = 120 };

/* The frames judged so far. */
struct judged {
    struct tally tally; /* those that are refused */
    size_t fit, fail;
    struct json *json; /* NULL: in words */
};

/* What is told of a verdict, in a room of WORDS bytes. */
static void words_for(char *room, const struct picture *p, uint32_t rule, size_t macroblock) {
    const struct hookbarley_tile *t = &p->tile;
    size_t columns = t->width / 16;
    switch (rule) {
    case HOOKBARLEY_PROFILE_FITS: snprintf(room, WORDS, "fits"); break;
    case HOOKBARLEY_PROFILE_SIZE: snprintf(room, WORDS, "coded as %zu x %zu and not 256 x 256", t->width, t->height); break;
    case HOOKBARLEY_PROFILE_PARTITIONS: snprintf(room, WORDS, "%zu token partitions and not 1, 2 or 4", t->count); break;
    case HOOKBARLEY_PROFILE_SEGMENTS: snprintf(room, WORDS, "segments are on"); break;
    case HOOKBARLEY_PROFILE_SHARPNESS:
        snprintf(room, WORDS, "sharpness is %d and not 0", (int)p->header[HOOKBARLEY_HEADER_SHARPNESS]);
        break;
    case HOOKBARLEY_PROFILE_WHOLE: snprintf(room, WORDS, "a partition runs out before every macroblock is finished"); break;
    default:
        snprintf(room, WORDS, "macroblock %zu (column %zu, row %zu) is both skipped and small", macroblock, macroblock % columns,
                 macroblock / columns);
    }
}

static void print_verdict(const char *path, const struct file *file, uint32_t rule, const char *words) {
    printf("%s: ", path);
    if (file->kind == KIND_IVF) printf("frame %zu: ", file->frames - 1);
    if (rule) printf("rule %u fails: ", (unsigned)rule);
    printf("%s\n", words);
    fflush(stdout);
}

static void json_verdict(struct json *j, uint32_t rule, size_t macroblock, const char *words) {
    json_begin(j, NULL, '{');
    json_truth(j, "fits", !rule);
    json_number(j, "rule", rule);
    if (rule == HOOKBARLEY_PROFILE_SKIPPED) json_number(j, "macroblock", (intmax_t)macroblock);
    json_text(j, "words", words);
    json_end(j, '}');
}

static void judge(struct judged *judged, const char *path, const struct file *file, struct frame frame) {
    struct picture picture;
    uint32_t rule;
    size_t macroblock;
    char words[WORDS];
    picture_profile(&picture, frame, &rule, &macroblock);
    if (picture.number == HOOKBARLEY_WHOLE) {
        words_for(words, &picture, rule, macroblock);
        if (judged->json) json_verdict(judged->json, rule, macroblock, words);
        else print_verdict(path, file, rule, words);
        if (rule) judged->fail++;
        else judged->fit++;
    } else {
        if (judged->json) json_refused(judged->json, picture.number);
        take_answer(&judged->tally, path, file, picture.number, &picture);
    }
    picture_free(&picture);
}

static void fits_file(void *with, const char *path, const char *name) {
    struct judged *judged = with;
    struct file file;
    struct frame frame;
    uint32_t number;
    (void)name;
    judged->tally.files++;
    if (!json_file(judged->json, &judged->tally, path, &file)) return;
    while (file_next(&file, &frame, &number)) judge(judged, path, &file, frame);
    json_file_end(judged->json, &file, number);
    take_end(&judged->tally, path, &file, number);
    file_close(&file);
}

static void folder_unread(void *with, const char *path, int why) {
    errno = why;
    json_unread(((struct judged *)with)->json, &((struct judged *)with)->tally, path);
}

static void json_totals(struct json *j, const struct judged *judged) {
    json_end(j, ']');
    json_number(j, "fit", (intmax_t)judged->fit);
    json_number(j, "fail", (intmax_t)judged->fail);
    json_number(j, "refused", (intmax_t)tally_refused(&judged->tally));
    json_number(j, "unread", (intmax_t)judged->tally.unread);
    json_end(j, '}');
}

int fits(const struct options *o) {
    struct json json = {.out = stdout};
    struct judged judged = {.json = o->json ? &json : NULL};
    const struct walk files = {fits_file, folder_unread, &judged};
    if (o->count < 1) return usage("fits takes an IN", "");
    if (o->json) json_begin(&json, NULL, '{'), json_begin(&json, "files", '[');
    walk(&files, o->names, o->count);
    if (o->json) json_totals(&json, &judged);
    return worse(judged.fail ? STATUS_REFUSED : STATUS_WHOLE, tally_status(&judged.tally));
}
