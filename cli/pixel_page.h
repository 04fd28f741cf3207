/* The page of a picture's pixels, for `hookbarley page`: one file of HTML that shows the picture before and after the loop filter and
 * beside it, of the pixel that is pointed at, what explain_pixel says. All of it is worked out here and stands in the page's data; its
 * script (pixel_script.c) only looks it up. */
#ifndef CLI_PIXEL_PAGE_H
#define CLI_PIXEL_PAGE_H

#include "explain.h"
#include "picture.h"

/* The most macroblocks: 1024 by 1024 samples make a page of some 40 MB. */
enum { PIXEL_PAGE_BLOCKS = 4096 };

struct pixel_page {
    const char *name;              /* the picture's, for the title */
    const struct picture *picture; /* before the loop filter */
    uint8_t *after[3];             /* the planes after it, by explain_plane */
    uint8_t *lines[3];             /* every line of eight samples; pixel_page.c has the layout */
    uint8_t *rules;                /* of each sample of luma the rule that moved it last, else 0 */
};

/* Works it out: 0, or an explain_answer. What it holds is to be freed, whatever the answer. */
int pixel_page_make(struct pixel_page *page, const struct picture *picture, const char *name);
void pixel_page_free(struct pixel_page *page);

/* Writes it; a save_writer of a struct pixel_page. */
void pixel_page_write(FILE *out, const void *page);

/* The style and the script, line by line; both end with NULL. */
extern const char *const pixel_style[], *const pixel_script[];

#endif
