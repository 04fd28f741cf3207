/* From a frame to its planes, by the library's calls. */
#ifndef CLI_PICTURE_H
#define CLI_PICTURE_H

#include "file.h"
#include "hookbarley.h"

/* Which loop filter: as the frame says, none, or one of the two kinds all the same. */
enum filter { FILTER_CODED, FILTER_NONE, FILTER_SIMPLE, FILTER_NORMAL };

struct picture {
    uint32_t number;                    /* the picture call's answer; where it is 0, 6 or 7 all below stands */
    int32_t header[HOOKBARLEY_ENTRIES]; /* places in it: HOOKBARLEY_HEADER_.. */
    struct hookbarley_tile tile;        /* its `simple` is the kind of filter that is asked for */
    struct hookbarley_memory memory;
    uint8_t *room;           /* what the memory is cut from */
    uint8_t *marks;          /* HOOKBARLEY_MARK_.. of each macroblock after picture_rescue, else NULL */
    size_t blocks, finished; /* macroblocks, and those finished */
    size_t kept;             /* those finished or rebuilt from their modes: the others are grey */
    int level;               /* the frame's filter level; where it is 0 nothing is filtered */
    const char *filtered;    /* "unfiltered", "simple filter" or "normal filter" */
};

/* Whether an answer leaves a picture: 0, 6 and 7. */
int has_picture(uint32_t number);

/* The frame's header alone: entries and tile, or the number of the refusal. */
uint32_t picture_header(struct picture *picture, struct frame frame);

/* From a frame's bytes to the picture on the screen, by the one call that is proved to do all of it. */
void picture_show(struct picture *picture, struct frame frame);

/* The same call by call, for another filter than the frame's or none. */
void picture_decode(struct picture *picture, struct frame frame, enum filter filter);

/* Decodes a frame and counts it, by the library's record: `record` has the counts of this picture alone. Nothing is deblocked. */
void picture_survey(struct picture *picture, struct frame frame, uint64_t record[HOOKBARLEY_SURVEY_COUNTS]);

/* As picture_decode, where tokens run out going on from the modes alone. */
void picture_rescue(struct picture *picture, struct frame frame, enum filter filter);

/* By one of these two, before any filter; the tile's `simple` is the kind that would follow. */
void picture_unfiltered(struct picture *picture, struct frame frame, enum filter filter, int rescue);

/* Whether a frame fits the cockpit profile: the rule that fails and the macroblock that it names. Only number, header and tile stand. */
void picture_profile(struct picture *picture, struct frame frame, uint32_t *rule, size_t *macroblock);

void picture_free(struct picture *picture);

#endif
