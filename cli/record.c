/* A record as JSON: written, and read back strictly. */
#include "record.h"
#include <inttypes.h>
#include <string.h>

enum { FORMAT = 1, FIELDS = 5 + SURVEY_TABLES };

static void write_counts(FILE *out, const char *key, const uint64_t *counts, int count) {
    fprintf(out, ",\n  \"%s\": [", key);
    for (int i = 0; i < count; i++) fprintf(out, "%s%" PRIu64, i ? ", " : "", counts[i]);
    fputc(']', out);
}

void record_write(FILE *out, const struct survey *s) {
    fprintf(out, "{\n  \"hookbarley_survey\": %d,\n  \"files\": %" PRIu64, FORMAT, s->files);
    fprintf(out, ",\n  \"unread\": %" PRIu64 ",\n  \"lost\": %" PRIu64 ",\n  \"apart\": {", s->unread, s->lost);
    for (int i = 0; i < SURVEY_APART; i++)
        fprintf(out, "%s\"%s\": %" PRIu64, i ? ", " : "", survey_apart[i].key, s->apart[survey_apart[i].number]);
    fputc('}', out);
    for (int i = 0; i < SURVEY_TABLES; i++)
        write_counts(out, survey_tables[i].key, s->record + survey_tables[i].from, survey_tables[i].rows);
    fputs("\n}\n", out);
}

/* ---- reading */
struct text {
    const char *at, *end;
};

static void skip_space(struct text *t) {
    while (t->at < t->end && memchr(" \t\r\n", *t->at, 4)) t->at++;
}

/* The sign that is next behind spaces. */
static int take(struct text *t, char sign) {
    skip_space(t);
    if (t->at == t->end || *t->at != sign) return 0;
    t->at++;
    return 1;
}

/* A whole number of at most 64 bits. */
static int take_number(struct text *t, uint64_t *number) {
    skip_space(t);
    const char *start = t->at;
    *number = 0;
    for (; t->at < t->end && *t->at >= '0' && *t->at <= '9'; t->at++) {
        uint64_t digit = (uint64_t)(*t->at - '0');
        if (*number > (UINT64_MAX - digit) / 10) return 0;
        *number = 10 * *number + digit;
    }
    return t->at > start && (*start != '0' || t->at == start + 1);
}

/* What a key stands for: one number, a list of them, or an object of the keys in `inner`. */
struct field {
    const char *key;
    uint64_t *numbers;
    int count; /* 0: one number, not a list */
    struct field *inner;
    int inner_count, seen;
};

static int take_object(struct text *t, struct field *fields, int count);

static int take_value(struct text *t, struct field *f) {
    if (f->inner) return take_object(t, f->inner, f->inner_count);
    if (!f->count) return take_number(t, f->numbers);
    if (!take(t, '[')) return 0;
    for (int i = 0; i < f->count; i++)
        if ((i && !take(t, ',')) || !take_number(t, f->numbers + i)) return 0;
    return take(t, ']');
}

/* The field whose key is next, not seen before. */
static struct field *take_key(struct text *t, struct field *fields, int count) {
    if (!take(t, '"')) return NULL;
    const char *quote = memchr(t->at, '"', (size_t)(t->end - t->at));
    if (!quote) return NULL;
    size_t length = (size_t)(quote - t->at);
    for (int i = 0; i < count; i++)
        if (!fields[i].seen && strlen(fields[i].key) == length && !memcmp(fields[i].key, t->at, length)) {
            t->at = quote + 1;
            return &fields[i];
        }
    return NULL;
}

/* An object of exactly these keys. */
static int take_object(struct text *t, struct field *fields, int count) {
    if (!take(t, '{')) return 0;
    for (int i = 0; i < count; i++) {
        if (i && !take(t, ',')) return 0;
        struct field *f = take_key(t, fields, count);
        if (!f || !take(t, ':') || !take_value(t, f)) return 0;
        f->seen = 1;
    }
    return take(t, '}');
}

/* What is proved of every survey: five tables sum to the same macroblocks, and there are sixteen sub-blocks a small one. */
static int at_odds(const struct survey *s) {
    uint64_t finished = survey_total(s, &survey_tables[TABLE_SEGMENTS]);
    for (int i = TABLE_SEGMENTS; i <= TABLE_INSIDE; i++)
        if (survey_total(s, &survey_tables[i]) != finished) return 1;
    return survey_total(s, &survey_tables[TABLE_SUBBLOCKS]) != 16 * s->record[HOOKBARLEY_SURVEY_SMALL];
}

int record_next(const char *text, size_t length, size_t *at, struct survey *s, const char **why) {
    struct text t = {text + *at, text + length};
    uint64_t format = 0;
    struct field apart[SURVEY_APART] = {{0}}, fields[FIELDS] = {
        {.key = "hookbarley_survey", .numbers = &format}, {.key = "files", .numbers = &s->files}, {.key = "unread", .numbers = &s->unread},
        {.key = "lost", .numbers = &s->lost}, {.key = "apart", .inner = apart, .inner_count = SURVEY_APART}};
    memset(s, 0, sizeof *s);
    for (int i = 0; i < SURVEY_APART; i++)
        apart[i] = (struct field){.key = survey_apart[i].key, .numbers = &s->apart[survey_apart[i].number]};
    for (int i = 0; i < SURVEY_TABLES; i++) {
        const struct survey_table *table = &survey_tables[i];
        fields[FIELDS - SURVEY_TABLES + i] = (struct field){.key = table->key, .numbers = s->record + table->from, .count = table->rows};
    }
    skip_space(&t);
    if (t.at == t.end) return 0;
    *why = "not a record of hookbarley survey --json";
    if (!take_object(&t, fields, FIELDS) || format != FORMAT) return -1;
    *why = "its tables are at odds with each other: no survey counts so";
    if (at_odds(s)) return -1;
    *at = (size_t)(t.at - text);
    return 1;
}
