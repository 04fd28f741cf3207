/* hookbarley page: the page of a picture's pixels. */
#include "answers.h"
#include "explain_command.h"
#include "pixel_page.h"
#include "save.h"
#include <string.h>

/* The name without its folders. */
static const char *last_part(const char *path) {
    const char *slash = strrchr(path, '/');
    return slash ? slash + 1 : path;
}

static int write_page(const struct options *o, const struct picture *p) {
    const char *in = o->names[0], *out = o->names[1];
    struct pixel_page page;
    if (p->blocks > PIXEL_PAGE_BLOCKS) {
        fprintf(stderr, "hookbarley: %s: %zu macroblocks, and page takes at most %d\n", in, p->blocks, PIXEL_PAGE_BLOCKS);
        return STATUS_USAGE;
    }
    int answer = pixel_page_make(&page, p, last_part(in));
    int status = answer ? explain_complain(answer, in) : save(out, pixel_page_write, &page);
    pixel_page_free(&page);
    if (status == STATUS_WHOLE)
        fprintf(save_lines(out), "%s: %zu x %zu, %s\n", out, p->tile.true_width, p->tile.true_height, outcome_of(p->number, p->marks != NULL));
    return status;
}

int pixel_page(const struct options *o) {
    if (o->count != 2) return usage("page takes an IN and an OUT.html", "");
    const char *dot = strrchr(o->names[1], '.');
    if (!is_standard(o->names[1]) && (!dot || strcmp(dot, ".html"))) return usage("OUT ends in .html: ", o->names[1]);
    return explain_first(o, write_page);
}
