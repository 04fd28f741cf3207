/* Files gone through by several processes, or by this one alone. Each is told of in the order in which they were given, whoever was faster. */
#ifndef CLI_WORKERS_H
#define CLI_WORKERS_H

#include <stddef.h>
#include <stdio.h>

enum { WORKERS_MOST = 256 };

/* What is done with a file, and with its result. */
struct task {
    size_t size; /* of a result */
    /* The work on a file, the `which`th from 0; what is to be said of it goes to `said`. Returns 0 where it was stopped on the way. */
    int (*run)(const void *with, size_t which, const char *path, void *result, FILE *said);
    /* The result of a file whose process ended. */
    void (*lost)(void *result);
    /* Told of each file: its result and what was said. */
    void (*told)(void *with, size_t which, const char *path, const void *result, const char *said);
    void *with;
};

struct workers;

/* Starts so many processes, or ends the program with status 2. 1: there is none, and each file is done when it is given. */
struct workers *workers_start(int count, const struct task *task);

/* Gives a file to one of them; may tell of earlier ones. A process that ends with a file in its hands is said, the file counts as lost, and
 * another process takes its place. Once the program was asked to stop nothing is given, and what is not done by then is not told of. */
void workers_give(struct workers *workers, const char *path);

/* Tells of all that were given. */
void workers_settle(struct workers *workers);

/* The same, and ends the processes. */
void workers_end(struct workers *workers);

#endif
