/* A survey: what a delivery's files were counted into, and how it is shown. */
#ifndef CLI_SURVEY_H
#define CLI_SURVEY_H

#include "answers.h"
#include <stdio.h>

/* What is known of any number of files. Surveys of parts are joined into that of all. */
struct survey {
    uint64_t record[HOOKBARLEY_SURVEY_COUNTS]; /* the pictures, by hookbarley_survey */
    uint64_t files;                            /* all that were looked at */
    uint64_t apart[ANSWERS]; /* files and frames that no picture call was made for, by their answer: from 8 on */
    uint64_t unread;         /* files and folders that could not be read */
    uint64_t lost;           /* files whose process ended before it was through */
};

/* What the counts of a record are called, table by table. */
enum {
    TABLE_ANSWERS,
    TABLE_SEGMENTS,
    TABLE_LUMA,
    TABLE_CHROMA,
    TABLE_SKIP,
    TABLE_INSIDE,
    TABLE_SUBBLOCKS,
    TABLE_SYMBOLS,
    SURVEY_TABLES
};
enum { SURVEY_ROWS = 10 };
struct survey_table {
    const char *key;   /* in JSON */
    const char *title; /* what is counted by what */
    const char *unit;
    int from, rows; /* places in a record */
    const char *names[SURVEY_ROWS];
};
extern const struct survey_table survey_tables[SURVEY_TABLES];

/* The answers that `apart` counts, and how JSON calls them. */
struct survey_answer {
    uint32_t number;
    const char *key;
};
enum { SURVEY_APART = 8 };
extern const struct survey_answer survey_apart[SURVEY_APART];

/* Surveys one file. What is to be said of it goes to `said`. Returns 0 where it was stopped on the way. */
int survey_file(const char *path, struct survey *survey, FILE *said);

/* Adds a part: 0, or 15 where a count would pass 2^63-1; then the survey is as it was. */
uint32_t survey_join(struct survey *survey, const struct survey *part);

/* 0 every picture is whole, 1 one is not or was counted apart, 2 a file was not read or lost. */
int survey_status(const struct survey *survey);

/* The sum of a table's counts, and how much of it one of them is, "12.5 %". */
uint64_t survey_total(const struct survey *survey, const struct survey_table *table);
const char *survey_share(char room[16], uint64_t count, uint64_t total);

/* "4 files: 3 pictures, 2 of them whole; 1 apart" */
void survey_headline(FILE *out, const struct survey *survey);
uint64_t survey_counted_apart(const struct survey *survey);

/* One table to read: counts, shares, a bar each. */
void survey_print(FILE *out, const struct survey *survey);

#endif
