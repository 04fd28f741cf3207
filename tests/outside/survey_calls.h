/* The survey calls as tests make them: the record between guard pages too, beside what it counted by a tally of its own. */
#ifndef SURVEY_CALLS_H
#define SURVEY_CALLS_H

#include "drawn_calls.h"

#define LIMIT INT64_MAX /* no count passes it */
enum { COUNTS = HOOKBARLEY_SURVEY_COUNTS, MOST_COUNTS = 64 };

static struct guarded record_buffer = {.name = "record", .capacity = 1 << 12};
static struct guarded other_buffer = {.name = "other", .capacity = 1 << 12, .input = 1};

/* A record of any length. */
struct record { uint64_t counts[MOST_COUNTS]; size_t length; };

static inline void begin_survey(const char *seed) {
    begin(seed, buffers, BUFFERS);
    make_buffer(&record_buffer);
    make_buffer(&other_buffer);
}

/* The record laid between its guards, and taken back. */
static inline uint64_t *lay_record(const struct record *from, int end, int poison) {
    size_t size = from->length * sizeof *from->counts;
    uint64_t *p = poisoned(&record_buffer, size, end, poison, SLACK);
    if (size) memcpy(p, from->counts, size);
    return p;
}

static inline void take_record(struct record *to, const uint64_t *from, int end, int poison) {
    size_t size = to->length * sizeof *to->counts;
    if (size) memcpy(to->counts, from, size);
    untouched(&record_buffer, size, end, poison, SLACK);
}

/* Runs the survey call. */
static inline void run_survey(const struct call *c, int end, int poison, struct record *record, struct result *r) {
    struct laid a = lay_call(c, LENT, end, poison);
    uint64_t *first = poisoned(&buffers[FIRST_READS], sizeof *first, end, poison, SLACK);
    uint64_t *tokens = poisoned(&buffers[TOKEN_READS], sizeof *tokens, end, poison, SLACK);
    uint64_t *counts = lay_record(record, end, poison);
    r->number = hookbarley_survey(ON_TILE(a, c), a.k, first, tokens, counts, record->length);
    r->first = *first;
    r->tokens = *tokens;
    take_back(c, &a, LENT, end, poison, r);
    take_record(record, counts, end, poison);
    for (int b = FIRST_READS; b <= TOKEN_READS; b++) untouched(&buffers[b], sizeof(uint64_t), end, poison, SLACK);
}

/* Runs the addition. */
static inline uint32_t run_add(struct record *record, const struct record *other, int end, int poison) {
    uint64_t *counts = lay_record(record, end, poison);
    const uint64_t *added = lay(&other_buffer, other->counts, other->length * sizeof *other->counts, end);
    uint32_t number = hookbarley_survey_add(counts, record->length, added, other->length);
    take_record(record, counts, end, poison);
    return number;
}

/* What a picture counts, by what the picture call answers and leaves. */
static inline struct record tallied(const struct result *r) {
    struct record t = {.length = COUNTS};
    t.counts[HOOKBARLEY_SURVEY_ANSWERS + r->number]++;
    for (size_t i = 0; i < r->k; i++) {
        const uint8_t *m = r->mem[MODES] + HOOKBARLEY_MODE_BYTES * i, *s = r->mem[STRENGTHS] + HOOKBARLEY_STRENGTH_BYTES * i;
        const uint8_t *luma = m + HOOKBARLEY_MODE_LUMA;
        int small = m[HOOKBARLEY_MODE_SMALL];
        t.counts[HOOKBARLEY_SURVEY_SEGMENTS + m[HOOKBARLEY_MODE_SEGMENT]]++;
        t.counts[HOOKBARLEY_SURVEY_LUMA + (small ? 4 : luma[0])]++;
        t.counts[HOOKBARLEY_SURVEY_CHROMA + m[HOOKBARLEY_MODE_CHROMA]]++;
        t.counts[HOOKBARLEY_SURVEY_SKIP + m[HOOKBARLEY_MODE_SKIP]]++;
        t.counts[HOOKBARLEY_SURVEY_INSIDE + s[HOOKBARLEY_STRENGTH_INSIDE]]++;
        for (int b = 0; small && b < 16; b++) t.counts[HOOKBARLEY_SURVEY_SUBBLOCKS + luma[b]]++;
    }
    t.counts[HOOKBARLEY_SURVEY_FIRST_READS] = r->first;
    t.counts[HOOKBARLEY_SURVEY_TOKEN_READS] = r->tokens;
    return t;
}

/* Whether no sum of the two passes the limit; and their sum. */
static inline int fits(const struct record *a, const struct record *b) {
    for (int i = 0; i < COUNTS; i++)
        if (a->counts[i] > LIMIT || b->counts[i] > LIMIT - a->counts[i]) return 0;
    return 1;
}

static inline struct record sum(const struct record *a, const struct record *b) {
    struct record s = *a;
    for (int i = 0; i < COUNTS; i++) s.counts[i] += b->counts[i];
    return s;
}

static inline int same_record(const struct record *a, const struct record *b) {
    return a->length == b->length && !memcmp(a->counts, b->counts, a->length * sizeof *a->counts);
}

static inline uint64_t total(const struct record *r, int from, int rows) {
    uint64_t n = 0;
    for (int i = 0; i < rows; i++) n += r->counts[from + i];
    return n;
}

#endif
