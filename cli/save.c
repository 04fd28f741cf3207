/* A file is written beside its place and then moved there. */
#define _XOPEN_SOURCE 700 /* realpath */
#include "save.h"
#include "answers.h"
#include "stop.h"
#include <errno.h>
#include <fcntl.h>
#include <stdlib.h>
#include <string.h>
#include <sys/stat.h>
#include <unistd.h>

FILE *save_lines(const char *path) { return is_standard(path) ? stderr : stdout; }

static int is_plain(const char *path) {
    struct stat s;
    return stat(path, &s) || S_ISREG(s.st_mode);
}

/* Where the file really stands, links followed; to be freed. */
static char *target_of(const char *path) {
    char *real = realpath(path, NULL);
    return real ? real : strcpy(memory(strlen(path) + 1), path);
}

static char *beside(const char *path) {
    size_t room = strlen(path) + 32;
    char *name = memory(room);
    snprintf(name, room, "%s.%ld.part", path, (long)getpid());
    return name;
}

static void forget(struct save *s) {
    stop_removes(NULL);
    free(s->name);
    free(s->target);
}

int save_open(struct save *s, const char *path) {
    *s = (struct save){.out = stdout, .path = path};
    if (is_standard(path)) return 1;
    s->target = target_of(path);
    if (is_plain(path)) s->name = beside(s->target);
    stop_removes(s->name);
    int to = open(s->name ? s->name : path, s->name ? O_WRONLY | O_CREAT | O_EXCL : O_WRONLY, 0666);
    s->out = to < 0 ? NULL : fdopen(to, "wb");
    if (s->out) return 1;
    int why = errno;
    if (to >= 0) close(to);
    if (to >= 0 && s->name) remove(s->name);
    forget(s);
    errno = why;
    return 0;
}

int save_close(struct save *s, int good) {
    int why = errno;
    if (good && (fflush(s->out) || ferror(s->out))) good = 0, why = errno;
    if (s->out != stdout && fclose(s->out) && good) good = 0, why = errno;
    if (good && s->name && rename(s->name, s->target)) good = 0, why = errno;
    if (!good && s->name) remove(s->name);
    forget(s);
    errno = why;
    return good;
}

int save_check(const char *path) {
    struct save s;
    if (!is_standard(path) && !is_plain(path)) return access(path, W_OK) ? cannot_write(path) : STATUS_WHOLE;
    if (!save_open(&s, path)) return cannot_write(path);
    save_close(&s, 0);
    return STATUS_WHOLE;
}

int save(const char *path, save_writer *write, const void *of) {
    struct save s;
    if (!save_open(&s, path)) return cannot_write(path);
    write(s.out, of);
    return save_close(&s, 1) ? STATUS_WHOLE : cannot_write(path);
}
