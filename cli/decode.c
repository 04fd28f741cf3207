/* hookbarley decode: pictures written as .yuv, .pgm or .ppm. */
#include "answers.h"
#include "commands.h"
#include "progress.h"
#include "save.h"
#include "stop.h"
#include "walk.h"
#include "workers.h"
#include <errno.h>
#include <stdlib.h>
#include <string.h>
#include <sys/stat.h>

/* ---- one file */
static int write_one(FILE *to, const struct options *o, enum form form, const struct picture *p) {
    return o->tint == TINT_NONE ? write_picture(to, form, p) : tint_write(to, o->tint, p);
}

static void print_picture(FILE *lines, const char *out, enum tint tint, const struct picture *p) {
    const char *outcome = outcome_of(p->number, p->marks != NULL);
    fprintf(lines, "%s: %zu x %zu, %s, %s\n", out, p->tile.true_width, p->tile.true_height, outcome, p->filtered);
    if (tint != TINT_NONE) tint_print(lines, tint, p);
    if (p->marks && tint != TINT_MARKS) /* whose legend has these numbers */
        fprintf(lines, "  whole %zu, soft %zu, grey %zu\n", p->finished, p->kept - p->finished, p->blocks - p->kept);
}

static void decode_frame(const struct options *o, struct frame frame, struct picture *p) {
    if (o->rescue) picture_rescue(p, frame, o->filter);
    else if (o->filter == FILTER_CODED) picture_show(p, frame);
    else picture_decode(p, frame, o->filter);
}

/* Where the pictures of a file go. */
struct target {
    const char *out;
    size_t folder; /* so many bytes of it are the folder, which is there; those inside of it are made */
    enum form form;
    FILE *lines; /* where a line for each picture goes; NULL: nowhere */
    struct save save;
};

static int open_target(struct target *to) {
    char *path = strcpy(memory(strlen(to->out) + 1), to->out);
    for (char *slash = to->folder ? strchr(path + to->folder + 1, '/') : NULL; slash; slash = strchr(slash + 1, '/')) {
        *slash = 0;
        mkdir(path, 0777); /* where it fails opening the file tells why */
        *slash = '/';
    }
    free(path);
    return save_open(&to->save, to->out);
}

/* Writes a picture; the file is made when the first one is there. */
static int add_picture(const struct options *o, struct target *to, const struct picture *p) {
    if (!to->save.out && !open_target(to)) return 0;
    if (!write_one(to->save.out, o, to->form, p)) return 0;
    if (to->lines) print_picture(to->lines, to->out, o->tint, p);
    return 1;
}

/* Decodes every frame of a file. Returns 0 where it was stopped on the way: then nothing is written. */
static int decode_file(const struct options *o, const char *path, struct target *to, struct tally *tally) {
    struct file file;
    struct frame frame;
    struct picture picture;
    uint32_t number = 0;
    int good = 1, stopped = 0;
    tally->files++;
    if (!file_read(path, &file)) {
        stopped = errno == EINTR && stop_asked();
        take_unread(tally, path);
        return !stopped;
    }
    file.rescue = o->rescue;
    while (good && file_next(&file, &frame, &number)) {
        if ((stopped = stop_asked())) break;
        decode_frame(o, frame, &picture);
        take_answer(tally, path, &file, picture.number, &picture);
        if (has_picture(picture.number)) good = add_picture(o, to, &picture);
        picture_free(&picture);
    }
    if (good && !stopped) take_end(tally, path, &file, number);
    if (to->save.out) good = save_close(&to->save, good && !stopped) || stopped;
    if (!good) take_unwritten(tally, to->out);
    file_close(&file);
    return !stopped;
}

static int decode_one(const struct options *o, const char *out, enum form form) {
    struct tally tally = {.rescue = o->rescue};
    struct target to = {.out = out, .form = form, .lines = save_lines(out)};
    if (decode_file(o, o->names[0], &to, &tally)) return tally_status(&tally);
    fprintf(stderr, "hookbarley: stopped by signal %d; nothing is written\n", stop_asked());
    return STATUS_USAGE;
}

/* ---- many files: the names are gathered first, so that no two are written to one */
struct decoding {
    const struct options *o;
    const char *folder;
    enum form form;
    char **paths, **outs;
    size_t count, room;
    struct tally tally;
    struct progress progress;
};

/* FOLDER/NAME.ENDING for NAME.webp, which may have folders in it */
static char *name_in(const char *folder, const char *name, const char *ending) {
    const char *slash = strrchr(name, '/'), *dot = strrchr(name, '.');
    size_t length = dot && dot > (slash ? slash + 1 : name) ? (size_t)(dot - name) : strlen(name);
    size_t room = strlen(folder) + length + strlen(ending) + 3;
    char *out = memory(room);
    snprintf(out, room, "%s/%.*s.%s", folder, (int)length, name, ending);
    return out;
}

static void gather(void *with, const char *path, const char *name) {
    struct decoding *d = with;
    if (d->count == d->room) {
        d->room = 2 * d->room + 64;
        d->paths = more_memory(d->paths, d->room * sizeof *d->paths);
        d->outs = more_memory(d->outs, d->room * sizeof *d->outs);
    }
    d->paths[d->count] = strcpy(memory(strlen(path) + 1), path);
    d->outs[d->count++] = name_in(d->folder, name, ending_of(d->form));
}

static void folder_unread(void *with, const char *path, int why) {
    struct decoding *d = with;
    errno = why;
    take_unread(&d->tally, path);
}

static int by_name(const void *a, const void *b) { return strcmp(*(char *const *)a, *(char *const *)b); }

/* Two files of one name, but for its ending or in different folders, would be written to one. */
static int differ(const struct decoding *d) {
    char **sorted = memory(d->count * sizeof *sorted);
    int status = STATUS_WHOLE;
    if (d->count) memcpy(sorted, d->outs, d->count * sizeof *sorted);
    qsort(sorted, d->count, sizeof *sorted, by_name);
    for (size_t i = 1; i < d->count && !status; i++)
        if (!strcmp(sorted[i - 1], sorted[i])) status = usage("two files would both be written to ", sorted[i]);
    free(sorted);
    return status;
}

static int run(const void *with, size_t which, const char *path, void *result, FILE *said) {
    const struct decoding *d = with;
    struct tally *tally = result;
    struct target to = {.out = d->outs[which], .folder = strlen(d->folder), .form = d->form};
    tally->rescue = d->o->rescue;
    tally->said = said;
    return decode_file(d->o, path, &to, tally);
}

static void lost(void *result) {
    struct tally *tally = result;
    tally->files = tally->lost = 1;
}

static void told(void *with, size_t which, const char *path, const void *result, const char *said) {
    struct decoding *d = with;
    (void)which, (void)path;
    progress_say(&d->progress, said);
    tally_add(&d->tally, result);
    progress_step(&d->progress);
}

static int decode_each(struct decoding *d) {
    const struct task task = {sizeof(struct tally), run, lost, told, d};
    progress_start(&d->progress, d->count);
    struct workers *workers = workers_start(d->o->jobs, &task);
    for (size_t i = 0; i < d->count; i++) workers_give(workers, d->paths[i]);
    workers_end(workers);
    progress_end(&d->progress);
    print_tally(&d->tally);
    if (stop_asked()) {
        fflush(stdout);
        fprintf(stderr, "hookbarley: stopped by signal %d after %zu of %zu files\n", stop_asked(), d->tally.files, d->count);
    }
    return tally_status(&d->tally);
}

static int decode_to_folder(const struct options *o, const char *folder, enum form form) {
    struct decoding d = {.o = o, .folder = folder, .form = form, .tally = {.rescue = o->rescue}};
    const struct walk files = {gather, folder_unread, &d};
    walk(&files, o->names, o->count - 1);
    int status = differ(&d);
    if (!status && mkdir(folder, 0777) && !is_folder(folder)) status = cannot_write(folder);
    if (!status) status = decode_each(&d);
    for (size_t i = 0; i < d.count; i++) free(d.paths[i]), free(d.outs[i]);
    free(d.paths);
    free(d.outs);
    return status;
}

int decode(const struct options *o) {
    if (o->count < 2) return usage("decode takes an IN and an OUT", "");
    const char *out = o->names[o->count - 1], *dot = strrchr(out, '.');
    int standard = is_standard(out), folder = o->count > 2 || is_folder(out) || is_folder(o->names[0]);
    enum form form = o->to != FORM_NONE ? o->to : folder || standard ? FORM_PPM : form_of(dot ? dot + 1 : "");
    if (standard && folder) return usage("one file alone is decoded to standard output", "");
    if (o->tint == TINT_MARKS && !o->rescue) return usage("--tint marks goes with --rescue", "");
    if (o->tint != TINT_NONE && form != FORM_PPM) return usage("--tint makes a .ppm and no other form", "");
    if (form == FORM_NONE) return usage("OUT is a folder or ends in .yuv, .pgm or .ppm: ", out);
    stop_patiently();
    return folder ? decode_to_folder(o, out, form) : decode_one(o, out, form);
}
