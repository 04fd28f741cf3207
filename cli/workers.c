/* The processes, and what goes through their pipes. */
#include "workers.h"
#include "answers.h"
#include "stop.h"
#include <errno.h>
#include <signal.h>
#include <stdlib.h>
#include <string.h>
#include <sys/wait.h>
#include <unistd.h>

/* So many files are in a process's hands at most, so that it never waits for the next; and no path is longer than this. So what is under
 * way to a process fits into its pipe, and giving a file never blocks. */
enum { AHEAD = 8, PATH_MOST = 4096 };

struct worker {
    pid_t pid; /* 0: it has gone */
    int to, from;
};

struct workers {
    int count; /* 0: all in this process */
    struct task task;
    struct worker *worker; /* file i is in the hands of process i mod count */
    char **paths;          /* of those given and not told of yet, file i at i mod (count * AHEAD) */
    void *result;
    size_t given, taken;
};

/* ---- whole messages through a pipe: 0 where the other side has gone */
static int send_all(int to, const void *bytes, size_t length) {
    const char *p = bytes;
    while (length) {
        ssize_t n = write(to, p, length);
        if (n < 0 && errno == EINTR) continue;
        if (n <= 0) return 0;
        p += n, length -= (size_t)n;
    }
    return 1;
}

static int get_all(int from, void *bytes, size_t length) {
    char *p = bytes;
    while (length) {
        ssize_t n = read(from, p, length);
        if (n < 0 && errno == EINTR) continue;
        if (n <= 0) return 0;
        p += n, length -= (size_t)n;
    }
    return 1;
}

/* ---- the work on one file: what was said, to be freed, or NULL where it was stopped */
static char *work_on(const struct workers *w, size_t which, const char *path) {
    char *text = NULL;
    size_t length = 0;
    FILE *said = open_memstream(&text, &length);
    if (!said) exit(cannot_write("memory"));
    memset(w->result, 0, w->task.size);
    int done = w->task.run(w->task.with, which, path, w->result, said);
    if (fclose(said)) exit(cannot_write("memory"));
    if (done) return text;
    free(text);
    return NULL;
}

/* ---- in the process: a number and a path come in, the result and what was said go out */
struct order {
    size_t which, length;
};

static void work(const struct workers *w, int from, int to) {
    struct order order;
    char path[PATH_MOST];
    while (!stop_asked() && get_all(from, &order, sizeof order)) {
        if (!get_all(from, path, order.length)) _exit(STATUS_USAGE);
        path[order.length] = 0;
        char *text = work_on(w, order.which, path);
        if (!text) break;
        size_t length = strlen(text);
        if (!send_all(to, w->result, w->task.size) || !send_all(to, &length, sizeof length) || !send_all(to, text, length)) _exit(STATUS_USAGE);
        free(text);
    }
    _exit(STATUS_WHOLE);
}

static void no_process(void) {
    fprintf(stderr, "hookbarley: no process: %s\n", strerror(errno));
    exit(STATUS_USAGE);
}

/* What the process has of the program's and does not need. */
static void become_process(const struct workers *w) {
    stop_in_process();
    signal(SIGPIPE, SIG_DFL);
    for (int i = 0; i < w->count; i++)
        if (w->worker[i].pid) close(w->worker[i].to), close(w->worker[i].from);
}

static void start(struct workers *w, int which) {
    int to[2], from[2];
    if (pipe(to) || pipe(from)) no_process();
    fflush(NULL);
    pid_t pid = fork();
    if (pid < 0) no_process();
    if (!pid) {
        become_process(w);
        close(to[1]), close(from[0]);
        work(w, to[0], from[1]);
    }
    close(to[0]), close(from[1]);
    w->worker[which] = (struct worker){pid, to[1], from[0]};
    stop_passes_to(which, pid);
    if (stop_asked()) kill(pid, SIGTERM); /* the signal came before it was known */
}

/* ---- in the program */
static char **place_of(const struct workers *w, size_t file) { return &w->paths[file % ((size_t)w->count * AHEAD)]; }

static void hand(const struct workers *w, size_t file) {
    const struct worker *worker = &w->worker[file % (size_t)w->count];
    const char *path = *place_of(w, file);
    struct order order = {file, strlen(path)};
    if (send_all(worker->to, &order, sizeof order)) send_all(worker->to, path, order.length); /* else it is missed when it is taken */
}

/* The process has ended: its wait status. */
static int end_of(struct workers *w, int which) {
    struct worker *worker = &w->worker[which];
    int status = 0;
    stop_passes_to(which, 0);
    close(worker->to), close(worker->from);
    while (waitpid(worker->pid, &status, 0) < 0 && errno == EINTR) continue;
    worker->pid = 0;
    return status;
}

/* A process ended by itself: says how, and lets another go on with what else it had in its hands. */
static void lose(struct workers *w, size_t file, char *said, size_t room) {
    int which = (int)(file % (size_t)w->count), status = end_of(w, which);
    memset(w->result, 0, w->task.size);
    w->task.lost(w->result);
    snprintf(said, room, "%s: lost: its process ended with %s %d\n", *place_of(w, file), WIFSIGNALED(status) ? "signal" : "status",
             WIFSIGNALED(status) ? WTERMSIG(status) : WEXITSTATUS(status));
    start(w, which);
    for (size_t next = file + (size_t)w->count; next < w->given; next += (size_t)w->count) hand(w, next);
}

/* What a process said of the file that it has done, to be freed; NULL where it has gone. */
static char *get_result(const struct workers *w, const struct worker *worker) {
    size_t length = 0;
    if (!worker->pid || !get_all(worker->from, w->result, w->task.size) || !get_all(worker->from, &length, sizeof length)) return NULL;
    char *said = memory(length + 1);
    said[length] = 0;
    if (get_all(worker->from, said, length)) return said;
    free(said);
    return NULL;
}

/* Tells of the next file in order. */
static void take(struct workers *w) {
    size_t file = w->taken;
    struct worker *worker = &w->worker[file % (size_t)w->count];
    char lost[PATH_MOST + 100], *path = *place_of(w, file), *said = get_result(w, worker);
    if (!said && !stop_asked()) lose(w, file, lost, sizeof lost), w->task.told(w->task.with, file, path, w->result, lost);
    else if (!said && worker->pid) end_of(w, (int)(file % (size_t)w->count));
    else if (said) w->task.told(w->task.with, file, path, w->result, said);
    free(said);
    free(path);
    w->taken++;
}

struct workers *workers_start(int count, const struct task *task) {
    struct workers *w = memory(sizeof *w);
    *w = (struct workers){.count = count > 1 ? count : 0, .task = *task, .result = memory(task->size)};
    if (!w->count) return w;
    size_t room = (size_t)count * sizeof *w->worker;
    w->worker = memset(memory(room), 0, room);
    w->paths = memory((size_t)count * AHEAD * sizeof *w->paths);
    signal(SIGPIPE, SIG_IGN); /* a process that has gone is found when its file is taken */
    for (int i = 0; i < count; i++) start(w, i);
    return w;
}

void workers_settle(struct workers *w) {
    while (w->taken < w->given) take(w);
}

/* A file that this process does itself. */
static void do_here(struct workers *w, const char *path) {
    size_t file = w->given++;
    char *said = work_on(w, file, path);
    if (said) w->task.told(w->task.with, file, path, w->result, said);
    free(said);
    w->taken++;
}

void workers_give(struct workers *w, const char *path) {
    if (stop_asked()) return;
    if (!w->count || strlen(path) >= PATH_MOST) { /* a path too long, which cannot be opened, is told of in its turn */
        workers_settle(w);
        do_here(w, path);
        return;
    }
    if (w->given - w->taken == (size_t)w->count * AHEAD) take(w);
    *place_of(w, w->given) = strcpy(memory(strlen(path) + 1), path);
    hand(w, w->given++);
}

void workers_end(struct workers *w) {
    workers_settle(w);
    for (int i = 0; i < w->count; i++)
        if (w->worker[i].pid) end_of(w, i);
    free(w->worker);
    free(w->paths);
    free(w->result);
    free(w);
}
