/* What `explain` and `page` share. */
#ifndef CLI_EXPLAIN_COMMAND_H
#define CLI_EXPLAIN_COMMAND_H

#include "commands.h"
#include "explain.h"

/* The file's first picture before the loop filter, which `tell` tells of; the greater of both statuses. */
int explain_first(const struct options *options, int (*tell)(const struct options *, const struct picture *));

/* The picture as explain.h takes it; where its level is 0 nothing is filtered, and there is nothing to explain. */
struct explain_tile explain_tile_of(const struct picture *picture);

/* Says on standard error what an explain_answer says and returns STATUS_USAGE. */
int explain_complain(int answer, const char *of);

#endif
