/* What the program is asked for. Each command returns the exit status. */
#ifndef CLI_COMMANDS_H
#define CLI_COMMANDS_H

#include "picture.h"
#include "tint.h"
#include "write.h"

struct options {
    enum filter filter;
    enum form to;     /* FORM_NONE where not given */
    enum tint tint;   /* TINT_NONE where not given */
    int rescue;       /* go on from the modes where tokens run out */
    int json;         /* info, fits, survey: for machines */
    int add;          /* survey: the names are records */
    int jobs;         /* decode, survey: so many processes */
    const char *html; /* survey: where the page goes; NULL where not given */
    char **names;     /* the arguments that are not options */
    int count;
};

int decode(const struct options *options);
int info(const struct options *options);
int fits(const struct options *options);
int wrap(const struct options *options);
int recode(const struct options *options);
int explain(const struct options *options);
int pixel_page(const struct options *options);
int survey(const struct options *options);

#endif
