/* The bar: [####......] 12 of 40, 20 a second, 2 s left */
#include "progress.h"
#include <inttypes.h>
#include <stdio.h>
#include <time.h>
#include <unistd.h>

enum { BAR = 30 };

static double now(void) {
    struct timespec t;
    clock_gettime(CLOCK_MONOTONIC, &t);
    return (double)t.tv_sec + (double)t.tv_nsec / 1e9;
}

int progress_shows(void) { return isatty(STDERR_FILENO); }

void progress_start(struct progress *p, uint64_t files) {
    *p = (struct progress){.files = progress_shows() ? files : 0, .started = now()};
}

static void draw_left(double seconds) {
    unsigned long s = (unsigned long)(seconds + 0.5);
    if (s < 100) fprintf(stderr, ", %lu s left", s);
    else if (s < 6000) fprintf(stderr, ", %lu min left", (s + 30) / 60);
    else fprintf(stderr, ", %lu h %lu min left", s / 3600, s % 3600 / 60);
}

static void draw(const struct progress *p, double seconds) {
    uint64_t all = p->files > p->done ? p->files : p->done; /* there may be more by now */
    int full = (int)((double)BAR * (double)p->done / (double)all);
    double rate = seconds > 0 ? (double)p->done / seconds : 0;
    fputs("\033[K[", stderr);
    for (int i = 0; i < BAR; i++) fputc(i < full ? '#' : '.', stderr);
    fprintf(stderr, "] %" PRIu64 " of %" PRIu64 ", %.*f a second", p->done, all, rate < 10, rate);
    if (rate > 0) draw_left((double)(all - p->done) / rate);
    fputc('\r', stderr);
    fflush(stderr);
}

void progress_step(struct progress *p) {
    double time = now();
    p->done++;
    if (!p->files || (time - p->drawn < 0.1 && p->done < p->files)) return;
    draw(p, time - p->started);
    p->drawn = time;
}

void progress_say(const struct progress *p, const char *text) {
    if (*text) fprintf(stderr, "%s%s", p->files ? "\033[K" : "", text);
}

void progress_end(const struct progress *p) {
    if (p->files) fputs("\033[K", stderr);
}
