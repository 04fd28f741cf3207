/* The loop filter replayed and told: explain.h. */
#include "explain.h"
#include "colour.h"
#include "explain_words.h"
#include "hookbarley.h"
#include <stdlib.h>
#include <string.h>

/* ---- the replay */

/* A plane being filtered; a macroblock is `side` samples wide and high in it. */
struct replay { uint8_t *p; size_t width, height, side; int simple; explain_seen *tell; void *to; };

/* Filters one line of eight samples, whose p3 lies at (x, y), across the edge `t`. */
static void filter_line(struct replay *r, size_t x, size_t y, struct explain_touch *t) {
    size_t right = t->horizontal ? 0 : 1, down = t->horizontal ? 1 : 0, d = right + down * r->width;
    uint8_t *p = r->p + y * r->width + x, after[8];
    int32_t steps[8];
    for (size_t k = 0; k < 8; k++) t->samples[k] = p[k * d];
    hookbarley_explain(t->samples, 8, (uint8_t)r->simple, t->offset == 0, t->limit, t->inner, t->threshold, after, 8, steps, 8,
                       &t->rule, &t->pair);
    for (size_t k = 0; k < 8; k++) {
        p[k * d] = t->after = after[k];
        t->place = (uint8_t)k;
        t->step = steps[k];
        r->tell(r->to, x + k * right, y + k * down, t);
    }
}

/* The macroblock's edges of one direction: its own unless the picture ends there, then the inner ones where the record says so. */
static void filter_edges(struct replay *r, size_t column, size_t row, uint8_t horizontal, const uint8_t *strength) {
    for (size_t offset = 0; offset < r->side; offset += 4) {
        if (offset ? strength[HOOKBARLEY_STRENGTH_INSIDE] != 1 : (horizontal ? row : column) == 0) continue;
        for (size_t i = 0; i < r->side; i++) {
            struct explain_touch t = {.column = column, .row = row, .horizontal = horizontal, .offset = (uint8_t)offset};
            t.limit = (uint8_t)(strength[HOOKBARLEY_STRENGTH_LIMIT] + (offset ? 0 : 4));
            t.inner = strength[HOOKBARLEY_STRENGTH_INNER], t.threshold = strength[HOOKBARLEY_STRENGTH_THRESHOLD];
            filter_line(r, column * r->side + (horizontal ? i : offset - 4), row * r->side + (horizontal ? offset - 4 : i), &t);
        }
    }
}

static void filter_plane(struct replay *r, const uint8_t *strengths) {
    for (size_t row = 0; row < r->height / r->side; row++)
        for (size_t column = 0; column < r->width / r->side; column++, strengths += HOOKBARLEY_STRENGTH_BYTES) {
            if (strengths[HOOKBARLEY_STRENGTH_LIMIT] == 0) continue;
            filter_edges(r, column, row, 0, strengths);
            filter_edges(r, column, row, 1, strengths);
        }
}

/* The plane as hookbarley_deblock leaves it, NULL where it refuses. `all` has room for the three planes. */
static const uint8_t *deblocked(const struct explain_tile *t, uint8_t *all, enum explain_plane plane) {
    size_t luma = t->width * t->height, chroma = luma / 4;
    uint8_t *y = all, *u = y + luma, *v = u + chroma;
    memcpy(y, t->y, luma);
    memcpy(u, t->u, chroma);
    memcpy(v, t->v, chroma);
    if (hookbarley_deblock(y, luma, u, chroma, v, chroma, t->strengths, t->strengths_len, t->width, t->height, t->simple ? 1 : 0))
        return NULL;
    return plane == EXPLAIN_Y ? y : plane == EXPLAIN_U ? u : v;
}

/* The samples of a plane before the filter, and how wide and high it is. */
static const uint8_t *given(const struct explain_tile *t, enum explain_plane plane, size_t *width, size_t *height) {
    size_t half = plane == EXPLAIN_Y ? 1 : 2;
    *width = t->width / half, *height = t->height / half;
    return plane == EXPLAIN_Y ? t->y : plane == EXPLAIN_U ? t->u : t->v;
}

int explain_each(const struct explain_tile *t, enum explain_plane plane, explain_seen *tell, void *to) {
    size_t width, height;
    const uint8_t *before = given(t, plane, &width, &height), *want;
    uint8_t *p = malloc(width * height + 1), *all = malloc(2 * t->width * t->height + 1);
    int answer = 0;
    if (!p || !all)
        answer = EXPLAIN_MEMORY;
    else if (!(want = deblocked(t, all, plane)))
        answer = EXPLAIN_REFUSED;
    else {
        memcpy(p, before, width * height);
        struct replay r = {p, width, height, plane == EXPLAIN_Y ? 16 : 8, t->simple != 0, tell, to};
        if (plane == EXPLAIN_Y || !t->simple) filter_plane(&r, t->strengths);
        if (memcmp(p, want, width * height)) answer = EXPLAIN_DIFFERS;
    }
    free(p);
    free(all);
    return answer;
}

/* The samples of a rectangle. */
struct rectangle { size_t x, y, w, h; struct explain_sample *out; };

static void keep(void *to, size_t x, size_t y, const struct explain_touch *t) {
    struct rectangle *r = to;
    if (x < r->x || x - r->x >= r->w || y < r->y || y - r->y >= r->h) return;
    struct explain_sample *s = &r->out[(y - r->y) * r->w + (x - r->x)];
    s->after = t->after;
    if (s->touches < EXPLAIN_MOST) s->touch[s->touches++] = *t;
}

int explain_samples(const struct explain_tile *t, enum explain_plane plane, size_t x, size_t y, size_t w, size_t h,
                    struct explain_sample *out) {
    size_t width, height;
    const uint8_t *before = given(t, plane, &width, &height);
    if (x > width || w > width - x || y > height || h > height - y) return EXPLAIN_OUTSIDE;
    for (size_t i = 0; i < w * h; i++) {
        out[i].before = out[i].after = before[(y + i / w) * width + x + i % w];
        out[i].touches = 0;
    }
    struct rectangle r = {x, y, w, h, out};
    return explain_each(t, plane, keep, &r);
}

/* ---- in words */

static int apart(const struct explain_touch *t, int i, int j) { return abs(t->samples[i] - t->samples[j]); }

/* The places of the pair that is not smooth. */
static const unsigned char *pair_of(const struct explain_touch *t) { return explain_pairs[t->pair <= 6 ? t->pair : 0]; }

int explain_counted(const struct explain_touch *t) {
    int before = apart(t, 2, 3), behind = apart(t, 5, 4);
    if (t->rule == HOOKBARLEY_EDGE_FAILED) return 2 * apart(t, 3, 4) + apart(t, 2, 5) / 2;
    if (t->rule == HOOKBARLEY_ROUGH) return apart(t, pair_of(t)[0], pair_of(t)[1]);
    return t->rule != HOOKBARLEY_HIGH_VARIANCE ? 0 : before > behind ? before : behind;
}

static void say_edge(FILE *out, int which, const struct explain_touch *t, size_t side) {
    size_t at = (t->horizontal ? t->row : t->column) * side + t->offset;
    const uint8_t *s = t->samples;
    fprintf(out, SAY_EDGE, which, explain_kinds[2 * (t->offset != 0) + t->horizontal], t->column, t->row, explain_lines[t->horizontal],
            at - 1, at, explain_places[t->place], explain_nths[t->place], explain_sides[2 * t->horizontal + (t->place >= 4)]);
    fprintf(out, SAY_LINE, s[0], s[1], s[2], s[3], s[4], s[5], s[6], s[7], t->limit, t->inner, t->threshold);
}

static void say_rule(FILE *out, const struct explain_touch *t) {
    int counted = explain_counted(t);
    switch (t->rule) {
    case HOOKBARLEY_EDGE_FAILED:
        fprintf(out, SAY_EDGE_FAILED, counted, t->limit);
        break;
    case HOOKBARLEY_ROUGH:
        fprintf(out, SAY_ROUGH, explain_places[pair_of(t)[0]], explain_places[pair_of(t)[1]], counted, t->inner);
        break;
    case HOOKBARLEY_SIMPLE:
        fputs(SAY_SIMPLE, out);
        break;
    case HOOKBARLEY_HIGH_VARIANCE:
        fprintf(out, SAY_HIGH_VARIANCE, counted, t->threshold);
        break;
    case HOOKBARLEY_MACROBLOCK_EDGE:
        fputs(SAY_MACROBLOCK_EDGE, out);
        break;
    default:
        fputs(SAY_INNER_EDGE, out);
    }
}

static void say_move(FILE *out, const struct explain_touch *t) {
    int before = t->samples[t->place], from = t->place < 4 ? 4 - t->place : t->place - 3, reach = t->rule <= 6 ? explain_reach[t->rule] : 0;
    if (reach == 0)
        fprintf(out, SAY_STAYS, before);
    else if (from > reach)
        fprintf(out, SAY_BEYOND, before);
    else if (before + t->step != t->after)
        fprintf(out, SAY_STOPPED, before, t->after, (int)t->step, t->after);
    else
        fprintf(out, SAY_MOVED, before, t->after, (int)t->step);
}

static int say_sample(FILE *out, const struct explain_tile *t, enum explain_plane plane, size_t x, size_t y) {
    struct explain_sample s;
    int answer = explain_samples(t, plane, x, y, 1, 1, &s);
    if (answer) return answer;
    fprintf(out, SAY_SAMPLE, explain_planes[plane], x, y, s.before, s.after);
    if (plane != EXPLAIN_Y && t->simple)
        fputs(SAY_CHROMA_ALONE, out);
    else if (!s.touches)
        fputs(SAY_NO_EDGE, out);
    for (int i = 0; i < s.touches; i++) {
        say_edge(out, i + 1, &s.touch[i], plane == EXPLAIN_Y ? 16 : 8);
        say_rule(out, &s.touch[i]);
        say_move(out, &s.touch[i]);
    }
    return 0;
}

int explain_pixel(FILE *out, const struct explain_tile *t, size_t x, size_t y) {
    if (x >= t->true_width || y >= t->true_height) return EXPLAIN_OUTSIDE;
    int answer = say_sample(out, t, EXPLAIN_Y, x, y);
    if (!answer) answer = say_sample(out, t, EXPLAIN_U, x / 2, y / 2);
    if (!answer) answer = say_sample(out, t, EXPLAIN_V, x / 2, y / 2);
    return answer ? answer : ferror(out) ? EXPLAIN_MEMORY : 0;
}

/* ---- in colours */

/* By hookbarley_rule; 0 is a sample that did not move. */
static const struct colour colours[EXPLAIN_RULES] = {
    {{190, 190, 190}, "did not move"}, {{0, 0, 0}, ""}, {{0, 0, 0}, ""}, {{235, 185, 45}, "simple filter"},
    {{215, 70, 70}, "high variance"},  {{50, 120, 215}, "macroblock edge"}, {{60, 165, 90}, "inner edge"}};

const struct colour *explain_colour(uint32_t rule) { return &colours[rule < EXPLAIN_RULES ? rule : 0]; }

/* The rule that last moved each sample, and the sample after the filter, in the true size. */
struct coloured { size_t w, h; uint8_t *rules, *luma; };

static void colour(void *to, size_t x, size_t y, const struct explain_touch *t) {
    struct coloured *c = to;
    if (x >= c->w || y >= c->h) return;
    if (t->after != t->samples[t->place]) c->rules[y * c->w + x] = (uint8_t)t->rule;
    c->luma[y * c->w + x] = t->after;
}

/* Makes one; what it holds is to be freed, whatever the answer. */
static int colours_of(const struct explain_tile *t, struct coloured *c) {
    c->w = t->true_width, c->h = t->true_height;
    c->rules = calloc(c->w * c->h + 1, 1), c->luma = malloc(c->w * c->h + 1);
    if (c->w > t->width || c->h > t->height) return EXPLAIN_OUTSIDE;
    if (!c->rules || !c->luma) return EXPLAIN_MEMORY;
    for (size_t y = 0; y < c->h; y++) memcpy(c->luma + y * c->w, t->y + y * t->width, c->w);
    return explain_each(t, EXPLAIN_Y, colour, c);
}

static int freed(struct coloured *c, FILE *out, int answer) {
    free(c->rules);
    free(c->luma);
    return answer ? answer : ferror(out) ? EXPLAIN_MEMORY : 0;
}

int explain_ppm(FILE *out, const struct explain_tile *t) {
    struct coloured c;
    int answer = colours_of(t, &c);
    if (answer) return freed(&c, out, answer);
    fprintf(out, "P6\n%zu %zu\n255\n", c.w, c.h);
    for (size_t i = 0; i < c.w * c.h; i++) {
        uint8_t rgb[3];
        colour_over(rgb, c.rules[i] ? &colours[c.rules[i]] : NULL, c.luma[i]);
        fwrite(rgb, 1, sizeof rgb, out);
    }
    return freed(&c, out, 0);
}

/* The samples of one rule as one path: a box for each run of them in a row. */
static void svg_rule(FILE *out, const struct coloured *c, uint32_t rule) {
    const uint8_t *rgb = colours[rule].rgb;
    fprintf(out, "<path fill=\"#%02x%02x%02x\" d=\"", rgb[0], rgb[1], rgb[2]);
    for (size_t y = 0; y < c->h; y++) {
        const uint8_t *row = c->rules + y * c->w;
        for (size_t x = 0, end; x < c->w; x = end) {
            for (end = x + 1; end < c->w && row[end] == row[x]; end++) {}
            if (row[x] == rule) fprintf(out, "M%zu %zuh%zuv1h-%zuz", x, y, end - x, end - x);
        }
    }
    fprintf(out, "\"/>\n");
}

static void svg_legend(FILE *out, size_t y, int simple, const size_t *moved) {
    for (uint32_t rule = 0; rule < 7; rule++) {
        if (rule == 1 || rule == 2 || (simple ? rule > 3 : rule == 3)) continue; /* rules that move nothing, or of the other kind */
        const uint8_t *rgb = colours[rule].rgb;
        fprintf(out, "<rect x=\"2\" y=\"%zu\" width=\"8\" height=\"8\" fill=\"#%02x%02x%02x\"/>", y, rgb[0], rgb[1], rgb[2]);
        fprintf(out, "<text x=\"14\" y=\"%zu\" font-family=\"sans-serif\" font-size=\"8\">%s: %zu samples</text>\n", y + 7,
                colours[rule].words, moved[rule]);
        y += 12;
    }
}

int explain_svg(FILE *out, const struct explain_tile *t) {
    struct coloured c;
    int answer = colours_of(t, &c);
    if (answer) return freed(&c, out, answer);
    size_t moved[7] = {0}, wide = c.w < 160 ? 160 : c.w, high = c.h + 64;
    for (size_t i = 0; i < c.w * c.h; i++) moved[c.rules[i]]++;
    fprintf(out, "<svg xmlns=\"http://www.w3.org/2000/svg\" width=\"%zu\" height=\"%zu\" viewBox=\"0 0 %zu %zu\" ", 4 * wide, 4 * high,
            wide, high);
    fprintf(out, "shape-rendering=\"crispEdges\">\n");
    fprintf(out, "<rect width=\"%zu\" height=\"%zu\" fill=\"#fff\"/>\n", wide, high);
    for (uint32_t rule = 0; rule < 7; rule++)
        if (moved[rule]) svg_rule(out, &c, rule);
    fprintf(out, "<path fill=\"none\" stroke=\"#000\" stroke-opacity=\"0.35\" stroke-width=\"0.25\" d=\"");
    for (size_t x = 0; x <= c.w; x += 16) fprintf(out, "M%zu 0v%zu", x, c.h);
    for (size_t y = 0; y <= c.h; y += 16) fprintf(out, "M0 %zuh%zu", y, c.w);
    fprintf(out, "\"/>\n");
    svg_legend(out, c.h + 8, t->simple, moved);
    fprintf(out, "</svg>\n");
    return freed(&c, out, 0);
}
