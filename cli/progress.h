/* How far a long command is, on a terminal; elsewhere nothing is drawn. */
#ifndef CLI_PROGRESS_H
#define CLI_PROGRESS_H

#include <stdint.h>

struct progress {
    uint64_t files;        /* there are so many; 0: there is no bar to draw */
    uint64_t done;
    double started, drawn; /* seconds */
};

/* Whether standard error is a terminal. */
int progress_shows(void);

void progress_start(struct progress *progress, uint64_t files);

/* One more file is done: files, rate and time left, drawn ten times a second at most. */
void progress_step(struct progress *progress);

/* A line on standard error, which takes the bar's place. */
void progress_say(const struct progress *progress, const char *text);

/* Wipes the bar. */
void progress_end(const struct progress *progress);

#endif
