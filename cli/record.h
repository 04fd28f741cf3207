/* A survey as JSON, written and read back. */
#ifndef CLI_RECORD_H
#define CLI_RECORD_H

#include "survey.h"

void record_write(FILE *out, const struct survey *survey);

/* Records one after the other in the same text. `at` starts at 0. Returns 1 with the next one, 0 at the end, -1 where the text is not what
 * record_write writes (keys in any order, space anywhere), or where a record's tables are at odds with each other: *why says so then. */
int record_next(const char *text, size_t length, size_t *at, struct survey *survey, const char **why);

#endif
