/* The answers in words, how often each was given, and the program's exit status. */
#ifndef CLI_ANSWERS_H
#define CLI_ANSWERS_H

#include "file.h"
#include "picture.h"
#include <stdio.h>

/* Exit statuses; the greatest that occurred is the program's. */
enum { STATUS_WHOLE = 0, STATUS_REFUSED = 1, STATUS_USAGE = 2 };

/* An answer of the program's own, beside the library's 0 to 19. */
enum {
    ANSWER_IVF = 20, /* an IVF file that ends in a frame's head, holds no frame or is not of VP8 */
    ANSWERS = 21
};

/* How often each answer was given. */
struct tally {
    int rescue; /* the pictures go through picture_rescue */
    FILE *said; /* where answers that are not 0 are said; NULL: standard error */
    size_t files, pictures, by[ANSWERS];
    size_t unread, unwritten; /* files that could not be */
    size_t lost;              /* files whose process ended before it was through */
};

/* What an answer says. */
const char *words_of(uint32_t number);

/* "whole", "rescued", "cut" or "refused": whether there is a picture, and all of it. With `rescue` one whose tokens ran out is rescued. */
const char *outcome_of(uint32_t number, int rescue);

/* "7, a token partition ran out in macroblock 7 (column 3, row 0), 7 of 256 finished"; `picture` may be NULL. */
void print_answer(FILE *out, uint32_t number, const struct picture *picture);

/* Counts an answer and, where it is not 0, says it. Returns the exit status that it asks for. */
int take_answer(struct tally *tally, const char *path, const struct file *file, uint32_t number, const struct picture *picture);

/* The same for the end of a file's frames: what file_next gave, or that there was none. */
int take_end(struct tally *tally, const char *path, const struct file *file, uint32_t number);

/* Counts a file that could not be read, or not be written, and says why: errno. */
void take_unread(struct tally *tally, const char *path);
void take_unwritten(struct tally *tally, const char *path);

void tally_add(struct tally *sum, const struct tally *part);

/* The exit status that all of it asks for. */
int tally_status(const struct tally *tally);

/* The files and frames without a picture. */
size_t tally_refused(const struct tally *tally);

void print_tally(const struct tally *tally);

/* Says on standard error what is wrong and returns STATUS_USAGE. */
int usage(const char *why, const char *what);
int cannot_write(const char *path);

int worse(int status, int other);

#endif
