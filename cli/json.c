/* JSON of two spaces a level; lists of numbers stand on one line. */
#include "json.h"
#include "html.h"

/* A comma where something stands before, the place and the key. */
static void next(struct json *j, const char *key) {
    if (j->depth) fprintf(j->out, "%s\n%*s", j->filled ? "," : "", 2 * j->depth, "");
    if (key) fprintf(j->out, "\"%s\": ", key);
    j->filled = 1;
}

void json_begin(struct json *j, const char *key, char bracket) {
    next(j, key);
    fputc(bracket, j->out);
    j->depth++;
    j->filled = 0;
}

void json_end(struct json *j, char bracket) {
    j->depth--;
    if (j->filled) fprintf(j->out, "\n%*s", 2 * j->depth, "");
    fputc(bracket, j->out);
    if (!j->depth) fputc('\n', j->out);
    j->filled = 1;
}

void json_number(struct json *j, const char *key, intmax_t number) {
    next(j, key);
    fprintf(j->out, "%" PRIdMAX, number);
}

void json_numbers(struct json *j, const char *key, const int32_t *numbers, size_t count) {
    next(j, key);
    fputc('[', j->out);
    for (size_t i = 0; i < count; i++) fprintf(j->out, "%s%" PRId32, i ? ", " : "", numbers[i]);
    fputc(']', j->out);
}

void json_counts(struct json *j, const char *key, const uint64_t *counts, size_t count) {
    next(j, key);
    fputc('[', j->out);
    for (size_t i = 0; i < count; i++) fprintf(j->out, "%s%" PRIu64, i ? ", " : "", counts[i]);
    fputc(']', j->out);
}

void json_truth(struct json *j, const char *key, int truth) {
    next(j, key);
    fputs(truth ? "true" : "false", j->out);
}

void json_nothing(struct json *j, const char *key) {
    next(j, key);
    fputs("null", j->out);
}

void json_text(struct json *j, const char *key, const char *text) {
    next(j, key);
    fputc('"', j->out);
    for (const unsigned char *p = (const unsigned char *)text; *p;) {
        int length = html_character(p);
        if (*p == '"' || *p == '\\' || *p < 0x20) fprintf(j->out, "\\u%04x", *p++);
        else if (!length) fputs("\xEF\xBF\xBD", j->out), p++;
        else fwrite(p, 1, (size_t)length, j->out), p += length;
    }
    fputc('"', j->out);
}
