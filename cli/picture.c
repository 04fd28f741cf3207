#include "picture.h"
#include <stdlib.h>
#include <string.h>

int has_picture(uint32_t number) {
    return number == HOOKBARLEY_WHOLE || number == HOOKBARLEY_NO_MODES || number == HOOKBARLEY_NO_TOKENS;
}

uint32_t picture_header(struct picture *p, struct frame frame) {
    memset(p, 0, sizeof *p);
    p->number = hookbarley_take(frame.bytes, frame.length, p->header, &p->tile);
    p->level = p->header[HOOKBARLEY_HEADER_LEVEL];
    return p->number;
}

/* Takes the header and lends what it asks for. Returns the number of a refusal. */
static uint32_t prepare(struct picture *p, struct frame frame, enum filter filter) {
    if (picture_header(p, frame)) return p->number;
    if (filter == FILTER_SIMPLE || filter == FILTER_NORMAL) p->tile.simple = filter == FILTER_SIMPLE;
    p->blocks = hookbarley_blocks(&p->tile);
    p->room = memory(hookbarley_room(&p->tile));
    hookbarley_lend(&p->tile, p->room, &p->memory);
    return 0;
}

static const char *kind_of(const struct picture *p) {
    return !p->level ? "unfiltered" : p->tile.simple ? "simple filter" : "normal filter";
}

/* What was decoded without the call that deblocks by itself. */
static void deblock(struct picture *p, enum filter filter) {
    p->filtered = "unfiltered";
    if (!has_picture(p->number) || filter == FILTER_NONE || !p->level) return;
    uint32_t refused = hookbarley_deblock_picture(&p->tile, &p->memory);
    if (refused) p->number = refused; /* never: that is proved of what both calls leave */
    p->filtered = kind_of(p);
}

void picture_show(struct picture *p, struct frame frame) {
    if (prepare(p, frame, FILTER_CODED)) return;
    p->number = hookbarley_show(frame.bytes, frame.length, p->header, &p->tile, &p->memory, &p->finished);
    p->kept = p->finished;
    p->filtered = kind_of(p);
}

void picture_decode(struct picture *p, struct frame frame, enum filter filter) {
    if (prepare(p, frame, filter)) return;
    uint64_t first_reads, token_reads;
    p->number = hookbarley_picture(frame.bytes, frame.length, p->header, &p->tile, &p->memory, &p->finished, &first_reads, &token_reads);
    p->kept = p->finished;
    deblock(p, filter);
}

void picture_survey(struct picture *p, struct frame frame, uint64_t record[HOOKBARLEY_SURVEY_COUNTS]) {
    memset(record, 0, HOOKBARLEY_SURVEY_COUNTS * sizeof *record);
    if (prepare(p, frame, FILTER_NONE)) return;
    p->number = hookbarley_survey_picture(frame.bytes, frame.length, p->header, &p->tile, &p->memory, record);
    for (int i = 0; i < 4; i++) p->finished += record[HOOKBARLEY_SURVEY_SEGMENTS + i]; /* each finished macroblock has a segment */
    p->kept = p->finished;
}

/* What the picture call would have answered: the rescue call answers 0, and its marks tell what ran out and where. */
static void take_stop(struct picture *p) {
    while (p->finished < p->blocks && p->marks[p->finished] == HOOKBARLEY_MARK_WHOLE) p->finished++;
    if (p->finished == p->blocks) return;
    p->number = p->marks[p->finished] == HOOKBARLEY_MARK_MODES ? HOOKBARLEY_NO_TOKENS : HOOKBARLEY_NO_MODES;
}

void picture_rescue(struct picture *p, struct frame frame, enum filter filter) {
    if (prepare(p, frame, filter)) return;
    p->marks = memory(p->blocks);
    p->number = hookbarley_rescue_picture(frame.bytes, frame.length, p->header, &p->tile, &p->memory, p->marks, &p->kept);
    if (!p->number) take_stop(p);
    deblock(p, filter);
}

void picture_unfiltered(struct picture *p, struct frame frame, enum filter filter, int rescue) {
    if (rescue) picture_rescue(p, frame, FILTER_NONE);
    else picture_decode(p, frame, FILTER_NONE);
    if (filter == FILTER_SIMPLE || filter == FILTER_NORMAL) p->tile.simple = filter == FILTER_SIMPLE;
}

void picture_profile(struct picture *p, struct frame frame, uint32_t *rule, size_t *macroblock) {
    *rule = HOOKBARLEY_PROFILE_FITS, *macroblock = 0;
    if (prepare(p, frame, FILTER_NONE)) return;
    p->number = hookbarley_profile_picture(frame.bytes, frame.length, p->header, &p->tile, &p->memory, rule, macroblock);
}

void picture_free(struct picture *p) {
    free(p->room);
    free(p->marks);
    p->room = p->marks = NULL;
}
