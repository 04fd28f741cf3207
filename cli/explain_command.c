/* hookbarley explain: why the loop filter moved a sample, in words for a pixel or in colours for the picture. */
#include "answers.h"
#include "commands.h"
#include "explain_command.h"
#include "explain_words.h"
#include "save.h"
#include <stdlib.h>
#include <string.h>

/* A number written in digits alone. */
static int number_of(const char *word, size_t *number) {
    char *end;
    if (!*word || strspn(word, "0123456789") != strlen(word)) return 0;
    *number = strtoul(word, &end, 10);
    return 1;
}

int explain_complain(int answer, const char *of) {
    static const char *const words[] = {
        [EXPLAIN_OUTSIDE] = "no such pixel",
        [EXPLAIN_REFUSED] = "the planes are refused",
        [EXPLAIN_MEMORY] = "no memory, or it cannot be written",
        [EXPLAIN_DIFFERS] = "the replay differs from what was deblocked: an error in this program",
    };
    fprintf(stderr, "hookbarley: %s: %s\n", of, words[answer]);
    return STATUS_USAGE;
}

/* The picture in colours, as .ppm or .svg. */
static int paint(const struct explain_tile *tile, const char *path, int svg) {
    struct save to;
    if (!save_open(&to, path)) return cannot_write(path);
    int answer = svg ? explain_svg(to.out, tile) : explain_ppm(to.out, tile);
    if (!save_close(&to, !answer) && !answer) return cannot_write(path);
    if (answer) return explain_complain(answer, path);
    fprintf(save_lines(path), "%s: %zu x %zu, coloured by the rule that last moved each sample\n", path, tile->true_width, tile->true_height);
    return STATUS_WHOLE;
}

struct explain_tile explain_tile_of(const struct picture *p) {
    const struct hookbarley_tile *t = &p->tile;
    const struct hookbarley_memory *m = &p->memory;
    return (struct explain_tile){t->width, t->height, t->true_width, t->true_height,
                                 m->y, m->u, m->v, m->strengths, hookbarley_lengths_of(t).strengths, t->simple != 0};
}

static int tell(const struct options *o, const struct picture *p) {
    const struct explain_tile tile = explain_tile_of(p);
    const char *dot = strrchr(o->names[1], '.');
    int svg = dot && !strcmp(dot, ".svg");
    size_t x = 0, y = 0;
    if (o->count == 2 && !svg && !is_standard(o->names[1]) && (!dot || strcmp(dot, ".ppm"))) return usage("OUT ends in .ppm or .svg: ", o->names[1]);
    if (o->count == 3 && (!number_of(o->names[1], &x) || !number_of(o->names[2], &y)))
        return usage("X and Y are a pixel's column and row, from 0", "");
    if (!p->level) {
        fputs(SAY_UNFILTERED, stdout);
        return STATUS_WHOLE;
    }
    if (o->count == 2) return paint(&tile, o->names[1], svg);
    int answer = explain_pixel(stdout, &tile, x, y);
    return answer ? explain_complain(answer, o->names[0]) : STATUS_WHOLE;
}

int explain_first(const struct options *o, int (*tell)(const struct options *, const struct picture *)) {
    struct file file;
    struct frame frame;
    struct picture picture;
    struct tally tally = {.rescue = o->rescue};
    uint32_t number;
    int status;
    if (!file_open(o->names[0], &file)) return STATUS_USAGE;
    file.rescue = o->rescue;
    if (file_next(&file, &frame, &number)) {
        picture_unfiltered(&picture, frame, o->filter, o->rescue);
        status = take_answer(&tally, o->names[0], &file, picture.number, &picture);
        if (has_picture(picture.number)) status = worse(status, tell(o, &picture));
        picture_free(&picture);
    } else
        status = take_end(&tally, o->names[0], &file, number);
    file_close(&file);
    return status;
}

int explain(const struct options *o) {
    if (o->count != 2 && o->count != 3) return usage("explain takes an IN and X Y, or an IN and an OUT.ppm or OUT.svg", "");
    return explain_first(o, tell);
}
