#include "pixel_page.h"
#include "answers.h"
#include "explain_command.h"
#include "explain_words.h"
#include "html.h"
#include "survey.h"
#include "tint.h"
#include "write.h"
#include <stdlib.h>
#include <string.h>

/* ---- the replay. A line is kept at its own place: macroblock, direction, offset / 4, and how far along the edge. It has
 *   0..7    the eight samples, p3 first
 *   8..13   p2 to q2 after it, and
 *   14..19  their steps: p3 and q3 never move
 *   20      rule + 16 * pair; where it is 0 the line was not filtered
 *   21, 22  what the rule's sentence counts, little-endian
 *   23      the limit */
enum { PIXEL_LINE_BYTES = 24, AFTER_AT = 8, STEPS_AT = 14, RULE_AT = 20, COUNTED_AT = 21, LIMIT_AT = 23 };

/* A plane being kept. */
struct kept_plane { size_t width, side; uint8_t *after, *lines, *rules; };

static void keep_line(uint8_t *line, const struct explain_touch *t) {
    int counted = explain_counted(t);
    memcpy(line, t->samples, 8);
    line[RULE_AT] = (uint8_t)(t->rule + 16 * t->pair);
    line[COUNTED_AT] = (uint8_t)(counted & 255), line[COUNTED_AT + 1] = (uint8_t)(counted >> 8);
    line[LIMIT_AT] = t->limit;
}

/* One of the eight; p3 comes first. */
static void keep_touch(void *to, size_t x, size_t y, const struct explain_touch *t) {
    struct kept_plane *p = to;
    size_t block = t->row * (p->width / p->side) + t->column;
    size_t along = t->horizontal ? x - t->column * p->side : y - t->row * p->side;
    size_t edge = (2 * block + t->horizontal) * (p->side / 4) + t->offset / 4;
    uint8_t *line = p->lines + PIXEL_LINE_BYTES * (edge * p->side + along);
    if (t->place == 0) keep_line(line, t);
    if (t->place >= 1 && t->place <= 6) {
        line[AFTER_AT + t->place - 1] = t->after;
        line[STEPS_AT + t->place - 1] = (uint8_t)t->step;
    }
    p->after[y * p->width + x] = t->after;
    if (p->rules && t->after != t->samples[t->place]) p->rules[y * p->width + x] = (uint8_t)t->rule;
}

static size_t side_of(int plane) { return plane == EXPLAIN_Y ? 16 : 8; }

/* The bytes of a plane, and of its lines. */
static size_t plane_bytes(const struct picture *p, int plane) { return p->blocks * side_of(plane) * side_of(plane); }

static size_t line_bytes(const struct picture *p, int plane) { return plane_bytes(p, plane) / 2 * PIXEL_LINE_BYTES; }

static const uint8_t *before_of(const struct picture *p, int plane) {
    return plane == EXPLAIN_Y ? p->memory.y : plane == EXPLAIN_U ? p->memory.u : p->memory.v;
}

static uint8_t *zeros(size_t length) { return memset(memory(length), 0, length); }

int pixel_page_make(struct pixel_page *page, const struct picture *p, const char *name) {
    const struct explain_tile tile = explain_tile_of(p);
    *page = (struct pixel_page){.name = name, .picture = p, .rules = zeros(plane_bytes(p, EXPLAIN_Y))};
    int answer = 0;
    for (int plane = EXPLAIN_Y; plane <= EXPLAIN_V; plane++) {
        page->after[plane] = memcpy(memory(plane_bytes(p, plane)), before_of(p, plane), plane_bytes(p, plane));
        page->lines[plane] = zeros(line_bytes(p, plane));
        struct kept_plane kept = {p->tile.width / (16 / side_of(plane)), side_of(plane), page->after[plane], page->lines[plane],
                                  plane == EXPLAIN_Y ? page->rules : NULL};
        if (!answer && p->level) answer = explain_each(&tile, (enum explain_plane)plane, keep_touch, &kept);
    }
    return answer;
}

void pixel_page_free(struct pixel_page *page) {
    for (int plane = EXPLAIN_Y; plane <= EXPLAIN_V; plane++) free(page->after[plane]), free(page->lines[plane]);
    free(page->rules);
}

/* ---- the data, as JSON */
static void put_bytes(FILE *out, const char *key, const uint8_t *bytes, size_t length) {
    fprintf(out, ",\n\"%s\":\"", key);
    html_base64(out, bytes, length);
    fputc('"', out);
}

static void put_planes(FILE *out, const char *key, const uint8_t *const *planes, const size_t *lengths) {
    fprintf(out, ",\n\"%s\":[", key);
    for (int plane = EXPLAIN_Y; plane <= EXPLAIN_V; plane++) {
        fputs(plane ? ",\n\"" : "\"", out);
        html_base64(out, planes[plane], lengths[plane]);
        fputc('"', out);
    }
    fputc(']', out);
}

static void put_words(FILE *out, const char *key, const char *const *words, size_t count) {
    fprintf(out, ",\n\"%s\":[", key);
    for (size_t i = 0; i < count; i++) {
        if (i) fputc(',', out);
        html_json(out, words[i]);
    }
    fputc(']', out);
}

/* The sentences; the rules' are in the order of hookbarley_rule. */
static void put_sentences(FILE *out) {
    static const char *const rules[] = {"", SAY_EDGE_FAILED, SAY_ROUGH, SAY_SIMPLE, SAY_HIGH_VARIANCE, SAY_MACROBLOCK_EDGE, SAY_INNER_EDGE};
    static const char *const single[][2] = {{"unfiltered", SAY_UNFILTERED}, {"sample", SAY_SAMPLE}, {"chromaAlone", SAY_CHROMA_ALONE},
                                            {"noEdge", SAY_NO_EDGE}, {"edge", SAY_EDGE}, {"line", SAY_LINE}, {"stays", SAY_STAYS},
                                            {"beyond", SAY_BEYOND}, {"stopped", SAY_STOPPED}, {"moved", SAY_MOVED}};
    for (size_t i = 0; i < sizeof single / sizeof *single; i++) {
        fprintf(out, ",\n\"%s\":", single[i][0]);
        html_json(out, single[i][1]);
    }
    put_words(out, "ruleSays", rules, EXPLAIN_RULES);
    put_words(out, "planes", explain_planes, 3);
    put_words(out, "places", explain_places, 8);
    put_words(out, "nths", explain_nths, 8);
    put_words(out, "kinds", explain_kinds, 4);
    put_words(out, "ways", explain_lines, 2);
    put_words(out, "sides", explain_sides, 4);
    fputs(",\n\"pairs\":[", out);
    for (int i = 0; i < 7; i++) fprintf(out, "%s[%d,%d]", i ? "," : "", explain_pairs[i][0], explain_pairs[i][1]);
    fputs("],\n\"reach\":[", out);
    for (int i = 0; i < EXPLAIN_RULES; i++) fprintf(out, "%s%d", i ? "," : "", explain_reach[i]);
    fputc(']', out);
}

static void put_value(FILE *out, const uint8_t *rgb, const char *words, size_t count) {
    fprintf(out, "{\"rgb\":[%d,%d,%d],\"count\":%zu,\"words\":", rgb[0], rgb[1], rgb[2], count);
    html_json(out, words);
    fputc('}', out);
}

/* A kind of tint: its values with how many macroblocks have each, and each macroblock's value, a digit; "-" where it has none. */
static void put_tint(FILE *out, const char *key, enum tint tint, const struct picture *p) {
    fprintf(out, ",\n\"%s\":{\"values\":[", key);
    for (size_t value = 0; value < tint_values(tint); value++) {
        size_t count = 0;
        for (size_t block = 0; block < p->kept; block++) count += tint_value(tint, p, block) == value;
        if (value) fputc(',', out);
        put_value(out, tint_colour(value), tint_words(tint, value), count);
    }
    fputs("],\"of\":\"", out);
    for (size_t block = 0; block < p->blocks; block++) fputc(block < p->kept ? (int)('0' + tint_value(tint, p, block)) : '-', out);
    fputs("\"}", out);
}

static void put_rules(FILE *out, const struct pixel_page *page) {
    const struct hookbarley_tile *t = &page->picture->tile;
    size_t moved[EXPLAIN_RULES] = {0};
    for (size_t y = 0; y < t->true_height; y++)
        for (size_t x = 0; x < t->true_width; x++) moved[page->rules[y * t->width + x]]++;
    fputs(",\n\"ruleValues\":[", out);
    for (uint32_t rule = 0; rule < EXPLAIN_RULES; rule++) {
        if (rule) fputc(',', out);
        put_value(out, explain_colour(rule)->rgb, explain_colour(rule)->words, moved[rule]);
    }
    fputc(']', out);
    put_bytes(out, "rules", page->rules, plane_bytes(page->picture, EXPLAIN_Y));
}

/* The picture in colours, as decode writes it to a .ppm. */
static void put_colours(FILE *out, const char *key, const struct picture *p, const uint8_t *const *planes) {
    size_t row = 3 * p->tile.true_width;
    struct picture shown = *p;
    shown.memory.y = (uint8_t *)planes[0], shown.memory.u = (uint8_t *)planes[1], shown.memory.v = (uint8_t *)planes[2];
    uint8_t *rgb = memory(row * p->tile.true_height);
    for (size_t y = 0; y < p->tile.true_height; y++) write_colours(rgb + row * y, &shown, y);
    put_bytes(out, key, rgb, row * p->tile.true_height);
    free(rgb);
}

static void put_samples(FILE *out, const struct pixel_page *page) {
    const struct picture *p = page->picture;
    const uint8_t *before[3], *after[3], *lines[3];
    size_t planes[3], line[3];
    for (int plane = EXPLAIN_Y; plane <= EXPLAIN_V; plane++) {
        before[plane] = before_of(p, plane), after[plane] = page->after[plane], lines[plane] = page->lines[plane];
        planes[plane] = plane_bytes(p, plane), line[plane] = p->level ? line_bytes(p, plane) : 0;
    }
    put_planes(out, "before", before, planes);
    put_planes(out, "after", after, planes);
    put_colours(out, "coloursBefore", p, before);
    put_colours(out, "coloursAfter", p, after);
    put_planes(out, "lines", lines, line);
}

static void put_data(FILE *out, const struct pixel_page *page) {
    const struct picture *p = page->picture;
    const struct hookbarley_lengths lengths = hookbarley_lengths_of(&p->tile);
    fprintf(out, "{\"width\":%zu,\"height\":%zu,\"trueWidth\":%zu,\"trueHeight\":%zu", p->tile.width, p->tile.height, p->tile.true_width,
            p->tile.true_height);
    fprintf(out, ",\"level\":%d,\"simple\":%d,\"finished\":%zu,\"kept\":%zu", p->level, p->tile.simple != 0, p->finished, p->kept);
    put_sentences(out);
    put_words(out, "largeModes", survey_tables[TABLE_LUMA].names, 5);
    put_words(out, "smallModes", survey_tables[TABLE_SUBBLOCKS].names, 10);
    put_tint(out, "segments", TINT_SEGMENTS, p);
    put_tint(out, "sizes", TINT_MODES, p);
    put_tint(out, "marks", TINT_MARKS, p);
    put_bytes(out, "modes", p->memory.modes, lengths.modes);
    put_bytes(out, "strengths", p->memory.strengths, lengths.strengths);
    put_rules(out, page);
    put_samples(out, page);
    fputs("}\n", out);
}

/* ---- the page */
static void put_lines(FILE *out, const char *const *lines) {
    while (*lines) fputs(*lines++, out);
}

static void put_choices(FILE *out, const char *legend, const char *name, const char *const (*choices)[2], size_t count) {
    fprintf(out, "<fieldset><legend>%s</legend>\n", legend);
    for (size_t i = 0; i < count; i++)
        fprintf(out, "<label><input type=\"radio\" name=\"%s\" value=\"%s\"%s/> %s</label>\n", name, choices[i][0],
                i ? "" : " checked=\"\"", choices[i][1]);
    fputs("</fieldset>\n", out);
}

static void put_picture(FILE *out) {
    static const char *const shown[][2] = {{"after", "after the filter"}, {"before", "before it"}};
    static const char *const tint[][2] = {{"none", "none"}, {"segment", "segment"}, {"mode", "mode"}, {"rule", "rule"}, {"mark", "mark"}};
    fputs("<section aria-label=\"Picture\">\n<form>\n", out);
    put_choices(out, "Loop filter", "shown", shown, 2);
    put_choices(out, "Luma tinted by", "tint", tint, 5);
    fputs("</form>\n<div id=\"stage\" tabindex=\"0\" role=\"application\" aria-describedby=\"summary\" "
          "aria-label=\"The picture. Arrow keys move the pixel, with Shift by a macroblock.\">\n<canvas id=\"samples\"></canvas>"
          "<canvas id=\"letters\"></canvas><canvas id=\"marker\"></canvas>\n</div>\n"
          "<ul id=\"legend\" aria-label=\"Legend\"></ul>\n</section>\n", out);
}

static void put_panel(FILE *out) {
    fputs("<section class=\"panel\" aria-labelledby=\"pixel\">\n<h2 id=\"pixel\">Pixel</h2>\n<p class=\"pixel\">"
          "<label>column <input id=\"x\" type=\"number\" min=\"0\"/></label> <label>row <input id=\"y\" type=\"number\" min=\"0\"/>"
          "</label></p>\n<p id=\"held\"></p>\n<p>Arrow keys move it once the picture has the focus, with Shift by a macroblock.</p>\n"
          "<p id=\"summary\" class=\"hidden\" role=\"status\"></p>\n<dl id=\"block\"></dl>\n"
          "<pre id=\"told\" tabindex=\"0\" aria-label=\"What the loop filter did to this pixel\"></pre>\n</section>\n", out);
}

/* "256 x 256, coded as 256 x 256; 0, every macroblock is finished (256); normal filter, level 22, sharpness 0" */
static void put_about(FILE *out, const struct picture *p) {
    const struct hookbarley_tile *t = &p->tile;
    fprintf(out, "%zu x %zu, coded as %zu x %zu; ", t->true_width, t->true_height, t->width, t->height);
    print_answer(out, p->number, p);
    if (!p->level) fputs("; the level is 0: nothing is filtered", out);
    else
        fprintf(out, "; %s filter, level %d, sharpness %d", t->simple ? "simple" : "normal", p->level,
                (int)p->header[HOOKBARLEY_HEADER_SHARPNESS]);
}

void pixel_page_write(FILE *out, const void *of) {
    const struct pixel_page *page = of;
    fputs("<!DOCTYPE html>\n<html lang=\"en\">\n<head>\n<meta charset=\"utf-8\"/>\n"
          "<meta name=\"viewport\" content=\"width=device-width, initial-scale=1\"/>\n<meta http-equiv=\"Content-Security-Policy\" "
          "content=\"default-src 'none'; style-src 'unsafe-inline'; script-src 'unsafe-inline'\"/>\n<title>Pixels of ", out);
    html_text(out, page->name);
    fputs("</title>\n<style>\n", out);
    put_lines(out, pixel_style);
    fputs("</style>\n</head>\n<body>\n<main>\n<header>\n<h1>", out);
    html_text(out, page->name);
    fputs("</h1>\n<p>", out);
    put_about(out, page->picture);
    fputs("</p>\n<noscript><p>The page needs its own script, which is part of this file.</p></noscript>\n</header>\n", out);
    put_picture(out);
    put_panel(out);
    fputs("</main>\n<footer><p>Made by hookbarley " HOOKBARLEY_VERSION ".</p></footer>\n", out);
    fputs("<script type=\"application/json\" id=\"data\">", out);
    put_data(out, page);
    fputs("</script>\n<script>\n", out);
    put_lines(out, pixel_script);
    fputs("</script>\n</body>\n</html>\n", out);
}
