/* A file that comes to its place whole or not at all; "-" is standard output, which is written as it is. */
#ifndef CLI_SAVE_H
#define CLI_SAVE_H

#include "file.h"
#include <stdio.h>

/* A file under way: written beside its place, then moved there. What is no plain file (a pipe) is written as it is. */
struct save {
    FILE *out;
    const char *path; /* as it was asked for */
    char *target;     /* where it really stands, links followed */
    char *name;       /* where it is written; NULL where it is not moved */
};

/* Begins: 1, or 0 with the reason in errno. Also where the program is ended by a signal no part of the file is left. */
int save_open(struct save *save, const char *path);

/* Ends. The file comes to its place where `good` is not 0 and all of it could be written: 1; else 0, with the reason in errno. */
int save_close(struct save *save, int good);

/* Whether a file can be written there: 0, or STATUS_USAGE and why on standard error. */
int save_check(const char *path);

/* Writes it, by what `write` writes: 0 or STATUS_USAGE and why on standard error. */
typedef void save_writer(FILE *out, const void *of);
int save(const char *path, save_writer *write, const void *of);

/* Where a line about the file goes: standard output, where that is not the file itself, else standard error. */
FILE *save_lines(const char *path);

#endif
