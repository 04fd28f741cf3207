/* The part of the JSON that `info` and `fits` share: files, and answers. */
#include "json_file.h"
#include <errno.h>
#include <string.h>

void json_answer(struct json *j, uint32_t number) {
    if (number == ANSWER_IVF) json_nothing(j, "answer");
    else json_number(j, "answer", number);
    json_text(j, "outcome", outcome_of(number, 0));
    json_text(j, "words", words_of(number));
}

void json_unread(struct json *j, struct tally *tally, const char *path) {
    int why = errno;
    take_unread(tally, path);
    if (!j) return;
    json_begin(j, NULL, '{');
    json_text(j, "file", path);
    json_text(j, "error", strerror(why));
    json_end(j, '}');
}

int json_file(struct json *j, struct tally *tally, const char *path, struct file *file) {
    if (!file_read(path, file)) {
        json_unread(j, tally, path);
        return 0;
    }
    if (!j) return 1;
    json_begin(j, NULL, '{');
    json_text(j, "file", path);
    json_text(j, "kind", kind_name(file->kind));
    json_number(j, "bytes", (intmax_t)file->length);
    json_begin(j, "frames", '[');
    return 1;
}

void json_refused(struct json *j, uint32_t number) {
    if (!j) return;
    json_begin(j, NULL, '{');
    json_answer(j, number);
    json_end(j, '}');
}

void json_file_end(struct json *j, const struct file *file, uint32_t number) {
    if (!j) return;
    json_end(j, ']');
    if (number || !file->frames) json_answer(j, number ? number : ANSWER_IVF);
    json_end(j, '}');
}
