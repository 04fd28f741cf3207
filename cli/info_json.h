/* A frame as `info --json` tells of it. */
#ifndef CLI_INFO_JSON_H
#define CLI_INFO_JSON_H

#include "json.h"
#include "picture.h"

/* What info says in words: the frame, what its header says, and what decoding it gave; `record` counts this picture alone. */
void info_json(struct json *json, struct frame frame, const struct picture *picture, const uint64_t *record);

#endif
