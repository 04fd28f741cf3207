/* A survey as a page: HTML of its own, the tables drawn as SVG bars with their numbers beside them. */
#ifndef CLI_PAGE_H
#define CLI_PAGE_H

#include "survey.h"

/* What was said of single files, the first lines of it. */
enum { PAGE_LINES = 200 };
struct page_lines {
    char *lines[PAGE_LINES];
    size_t count; /* all that were said, those not kept too */
};

/* Keeps what was said, which is lines or nothing. */
void page_keep(struct page_lines *said, const char *text);
void page_free(struct page_lines *said);

/* Writes it, as save() does. `stopped` says why the survey is not of all files, or is empty. */
int page_save(const char *path, const struct survey *survey, const struct page_lines *said, const char *stopped);

#endif
