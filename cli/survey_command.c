/* hookbarley survey: files and folders counted into one table, or records joined. */
#include "commands.h"
#include "page.h"
#include "progress.h"
#include "record.h"
#include "save.h"
#include "stop.h"
#include "survey.h"
#include "walk.h"
#include "workers.h"
#include <inttypes.h>
#include <stdlib.h>
#include <string.h>

enum { LINE = 5000 };

/* A survey under way. */
struct delivery {
    struct survey survey;
    struct page_lines said;
    struct workers *workers;
    struct progress progress;
    char *last;         /* the file that was told of last, or NULL */
    char stopped[LINE]; /* what is said where a signal stopped it; else empty */
};

/* ---- files */
static void say(struct delivery *d, const char *text) {
    progress_say(&d->progress, text);
    page_keep(&d->said, text);
}

static void take_part(struct delivery *d, const char *path, const struct survey *part, const char *said) {
    say(d, said);
    if (!survey_join(&d->survey, part)) return;
    char text[LINE];
    snprintf(text, sizeof text, "%s: refused: 15, %s\n", path, words_of(HOOKBARLEY_FULL));
    say(d, text);
    d->survey.files++, d->survey.apart[HOOKBARLEY_FULL]++;
}

static int run(const void *with, size_t which, const char *path, void *result, FILE *said) {
    (void)with, (void)which;
    return survey_file(path, result, said);
}

static void lost(void *result) {
    struct survey *part = result;
    part->files = part->lost = 1;
}

static void told(void *with, size_t which, const char *path, const void *result, const char *said) {
    struct delivery *d = with;
    if (which != d->progress.done) return; /* it was stopped, and one before this file is not done */
    take_part(d, path, result, said);
    d->last = strcpy(more_memory(d->last, strlen(path) + 1), path);
    progress_step(&d->progress);
}

static void take_file(void *with, const char *path, const char *name) {
    struct delivery *d = with;
    (void)name;
    workers_give(d->workers, path);
}

static void folder_unread(void *with, const char *path, int why) {
    struct delivery *d = with;
    struct survey part = {.unread = 1};
    char text[LINE];
    snprintf(text, sizeof text, "hookbarley: %s: %s\n", path, strerror(why));
    workers_settle(d->workers); /* what comes before it is said before it */
    take_part(d, path, &part, text);
}

/* What is done stands: the survey of all files up to the last that was told of. */
static void say_stopped(struct delivery *d) {
    if (!stop_asked()) return;
    snprintf(d->stopped, sizeof d->stopped, "stopped by signal %d after %" PRIu64 " file%s%s%s", stop_asked(), d->survey.files,
             d->survey.files == 1 ? "" : "s", d->last ? ", the last " : "", d->last ? d->last : "");
    fprintf(stderr, "hookbarley: %s\n", d->stopped);
}

static void survey_names(struct delivery *d, const struct options *o) {
    const struct walk files = {take_file, folder_unread, d};
    const struct task task = {sizeof(struct survey), run, lost, told, d};
    stop_patiently();
    progress_start(&d->progress, progress_shows() ? walk_count(o->names, o->count) : 0);
    d->workers = workers_start(o->jobs, &task);
    walk(&files, o->names, o->count);
    workers_end(d->workers);
    progress_end(&d->progress);
    say_stopped(d);
}

/* ---- records */
static int add_records(struct delivery *d, const char *path, const struct file *file) {
    struct survey part;
    const char *why = NULL;
    size_t at = 0, records = 0;
    int found;
    while ((found = record_next((const char *)file->bytes, file->length, &at, &part, &why)) > 0) {
        records++;
        if (!survey_join(&d->survey, &part)) continue;
        fprintf(stderr, "%s: refused: 15, %s\n", path, words_of(HOOKBARLEY_FULL));
        return STATUS_REFUSED;
    }
    if (!found && records) return STATUS_WHOLE;
    fprintf(stderr, "hookbarley: %s: %s\n", path, found ? why : "no record in it");
    return STATUS_USAGE;
}

/* Joins all of them, or says which one does not join: a sum without it would not be that of the delivery. */
static int add_files(struct delivery *d, const struct options *o) {
    struct file file;
    for (int i = 0; i < o->count; i++) {
        if (!file_open(o->names[i], &file)) return STATUS_USAGE;
        int status = add_records(d, o->names[i], &file);
        file_close(&file);
        if (status) return status;
    }
    return STATUS_WHOLE;
}

/* ---- what is told */
static int tell(const struct delivery *d, const struct options *o) {
    int status = survey_status(&d->survey);
    (o->json ? record_write : survey_print)(stdout, &d->survey);
    fflush(stdout); /* before what is said of the page */
    if (o->html) status = worse(status, page_save(o->html, &d->survey, &d->said, d->stopped));
    return status;
}

int survey(const struct options *o) {
    if (o->count < 1) return usage(o->add ? "survey --add takes records" : "survey takes files and folders", "");
    if (o->html && is_standard(o->html)) return usage("--html takes a file", "");
    if (o->html && save_check(o->html)) return STATUS_USAGE;
    struct delivery *d = memory(sizeof *d);
    memset(d, 0, sizeof *d);
    int status = STATUS_WHOLE;
    if (o->add) status = add_files(d, o);
    else survey_names(d, o);
    if (!status) status = tell(d, o);
    page_free(&d->said);
    free(d->last);
    free(d);
    return status;
}
