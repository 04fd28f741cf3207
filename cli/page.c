/* The page of a survey. */
#include "page.h"
#include "html.h"
#include "save.h"
#include <inttypes.h>
#include <stdlib.h>
#include <string.h>

static const char style[] =
    ":root{color-scheme:light dark;--ink:#1a1a1a;--paper:#fff;--soft:#595959;--rule:#d0d0d0;--track:#ececec;--bar:#0072b2}\n"
    "@media(prefers-color-scheme:dark){:root{--ink:#eee;--paper:#161616;--soft:#b4b4b4;--rule:#444;--track:#2e2e2e;--bar:#56b4e9}}\n"
    "*{box-sizing:border-box}\n"
    "body{margin:0;background:var(--paper);color:var(--ink);font:1rem/1.4 system-ui,sans-serif}\n"
    "main{max-width:76rem;margin:auto;padding:1rem}\n"
    "h1{font-size:1.5rem;margin:.5rem 0}\n"
    "h2{font-size:1.1rem;margin:0}\n"
    "h2::first-letter{text-transform:uppercase}\n"
    "p{margin:.2rem 0 .5rem;color:var(--soft)}\n"
    ".tables{columns:26rem;column-gap:2.5rem;margin-top:1.5rem}\n"
    "table{border-collapse:collapse;width:100%;font-variant-numeric:tabular-nums}\n"
    "th,td{padding:.2rem .4rem;border-bottom:1px solid var(--rule);text-align:right;white-space:nowrap}\n"
    "th:first-child,.words{text-align:left;font-weight:400}\n"
    "thead th{color:var(--soft);font-weight:400}\n"
    ".words{white-space:normal}\n"
    ".bar{width:40%;padding-right:0}\n"
    "svg{display:block;width:100%;height:.9rem}\n"
    ".track{fill:var(--track)}.share{fill:var(--bar)}\n"
    "ul{padding-left:1.2rem;overflow-wrap:anywhere}\n"
    "section{break-inside:avoid;margin-bottom:1.75rem;overflow-x:auto}\n"
    "@media(max-width:32rem){th,td{padding:.2rem .25rem;font-size:.9rem}.bar{width:30%}}\n";

/* ---- text */
void page_keep(struct page_lines *said, const char *text) {
    while (*text) {
        size_t length = strcspn(text, "\n");
        if (said->count < PAGE_LINES) {
            char *line = memory(length + 1);
            memcpy(line, text, length);
            line[length] = 0;
            said->lines[said->count] = line;
        }
        said->count++;
        text += length + (text[length] == '\n');
    }
}

void page_free(struct page_lines *said) {
    for (size_t i = 0; i < said->count && i < PAGE_LINES; i++) free(said->lines[i]);
}

/* 1234567 as 1,234,567 */
static void number(FILE *out, uint64_t n) {
    char digits[24];
    int length = snprintf(digits, sizeof digits, "%" PRIu64, n);
    for (int i = 0; i < length; i++) fprintf(out, "%s%c", i && (length - i) % 3 == 0 ? "," : "", digits[i]);
}

/* ---- tables */
static void row(FILE *out, const char *name, uint64_t count, uint64_t total) {
    char share[16];
    double width = total ? 100.0 * (double)count / (double)total : 0;
    if (count && width < 0.5) width = 0.5; /* to be seen */
    survey_share(share, count, total);
    fprintf(out, "<tr><th scope=\"row\">%s</th><td>", name);
    number(out, count);
    fputs("</td><td>", out);
    html_text(out, share);
    fputs("</td><td class=\"bar\"><svg viewBox=\"0 0 100 10\" preserveAspectRatio=\"none\" aria-hidden=\"true\" focusable=\"false\">", out);
    fputs("<rect class=\"track\" width=\"100\" height=\"10\"/>", out);
    fprintf(out, "<rect class=\"share\" width=\"%.2f\" height=\"10\"/></svg></td></tr>\n", width);
}

static void table(FILE *out, const struct survey *s, const struct survey_table *t) {
    uint64_t total = survey_total(s, t);
    fprintf(out, "<section aria-labelledby=\"%s\">\n<h2 id=\"%s\">%s</h2>\n<p>of ", t->key, t->key, t->title);
    number(out, total);
    fprintf(out, " %s</p>\n<table>\n<thead><tr><th scope=\"col\">of which</th><th scope=\"col\">count</th>"
                 "<th scope=\"col\">share</th><td class=\"bar\"></td></tr></thead>\n<tbody>\n", t->unit);
    for (int i = 0; i < t->rows; i++) row(out, t->names[i], s->record[t->from + i], total);
    fputs("</tbody>\n</table>\n</section>\n", out);
}

static void apart_row(FILE *out, uint64_t count, uint32_t answer, const char *words) {
    if (!count) return;
    fputs("<tr><td>", out);
    number(out, count);
    fputs("</td><td class=\"words\">", out);
    if (words) fputs(words, out);
    else print_answer(out, answer, NULL);
    fputs("</td></tr>\n", out);
}

static void apart(FILE *out, const struct survey *s) {
    if (!survey_counted_apart(s)) return;
    fputs("<section aria-labelledby=\"apart\">\n<h2 id=\"apart\">apart</h2>\n<p>", out);
    number(out, survey_counted_apart(s));
    fputs(" without a picture</p>\n<table>\n<thead><tr><th scope=\"col\">count</th><th scope=\"col\" class=\"words\">why</th></tr></thead>\n<tbody>\n", out);
    for (uint32_t n = 0; n < ANSWERS; n++) apart_row(out, s->apart[n], n, NULL);
    apart_row(out, s->unread, 0, "could not be read");
    apart_row(out, s->lost, 0, "lost: their process ended");
    fputs("</tbody>\n</table>\n</section>\n", out);
}

static void lines(FILE *out, const struct page_lines *said) {
    if (!said->count) return;
    fputs("<section aria-labelledby=\"said\">\n<h2 id=\"said\">files that are not whole</h2>\n<ul>\n", out);
    for (size_t i = 0; i < said->count && i < PAGE_LINES; i++) {
        fputs("<li>", out);
        html_text(out, said->lines[i]);
        fputs("</li>\n", out);
    }
    fputs("</ul>\n", out);
    if (said->count > PAGE_LINES) fprintf(out, "<p>and %zu more</p>\n", said->count - PAGE_LINES);
    fputs("</section>\n", out);
}

/* What the page is made of. */
struct made_of {
    const struct survey *survey;
    const struct page_lines *said;
    const char *stopped;
};

static void page(FILE *out, const void *of) {
    const struct made_of *made = of;
    const struct survey *s = made->survey;
    fputs("<!DOCTYPE html>\n<html lang=\"en\">\n<head>\n<meta charset=\"utf-8\"/>\n"
          "<meta name=\"viewport\" content=\"width=device-width, initial-scale=1\"/>\n<title>Survey: ", out);
    survey_headline(out, s);
    fprintf(out, "</title>\n<style>\n%s</style>\n</head>\n<body>\n<main>\n<h1>Survey of VP8 key frames</h1>\n<p>", style);
    survey_headline(out, s);
    if (*made->stopped) {
        fputs("</p>\n<p><strong>Not of all files: ", out);
        html_text(out, made->stopped);
        fputs("</strong>", out);
    }
    fputs("</p>\n<div class=\"tables\">\n", out);
    for (int i = 0; i < SURVEY_TABLES; i++) table(out, s, &survey_tables[i]);
    apart(out, s);
    fputs("</div>\n", out);
    lines(out, made->said);
    fputs("<p>Made by hookbarley " HOOKBARLEY_VERSION ".</p>\n</main>\n</body>\n</html>\n", out);
}

int page_save(const char *path, const struct survey *survey, const struct page_lines *said, const char *stopped) {
    struct made_of of = {survey, said, stopped};
    return save(path, page, &of);
}
