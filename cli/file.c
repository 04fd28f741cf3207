#include "file.h"
#include "answers.h"
#include "hookbarley.h"
#include <errno.h>
#include <stdio.h>
#include <stdlib.h>
#include <string.h>

enum { IVF_HEAD = 32, IVF_FRAME_HEAD = 12 };

void *memory(size_t length) { return more_memory(NULL, length); }

void *more_memory(void *from, size_t length) {
    void *p = realloc(from, length ? length : 1);
    if (!p) {
        fprintf(stderr, "hookbarley: no memory for %zu bytes\n", length);
        exit(2);
    }
    return p;
}

static size_t little_endian(const uint8_t *p, int count) {
    size_t x = 0;
    while (count--) x = x << 8 | p[count];
    return x;
}

static enum kind kind_of(const uint8_t *bytes, size_t length) {
    if (length >= 4 && !memcmp(bytes, "RIFF", 4)) return KIND_WEBP;
    if (length >= 4 && !memcmp(bytes, "DKIF", 4)) return KIND_IVF;
    return KIND_FRAME;
}

const char *kind_name(enum kind kind) {
    return kind == KIND_WEBP ? "WebP file" : kind == KIND_IVF ? "IVF file" : "VP8 frame";
}

/* All bytes of a stream; NULL where it cannot be read. */
static uint8_t *read_all(FILE *in, size_t *length) {
    size_t room = 1 << 16, n = 0, got;
    uint8_t *bytes = memory(room);
    while ((got = fread(bytes + n, 1, room - n, in)) > 0) {
        n += got;
        if (n == room) bytes = more_memory(bytes, room *= 2);
    }
    if (ferror(in)) {
        free(bytes);
        return NULL;
    }
    *length = n;
    return more_memory(bytes, n); /* no more than that: a read past the end is found by a sanitizer */
}

int is_standard(const char *path) { return !strcmp(path, "-"); }

int file_read(const char *path, struct file *file) {
    FILE *in = is_standard(path) ? stdin : fopen(path, "rb");
    file->bytes = in ? read_all(in, &file->length) : NULL;
    int why = errno;
    if (in && in != stdin) fclose(in);
    errno = why;
    if (!file->bytes) return 0;
    file->kind = kind_of(file->bytes, file->length);
    file->at = 0;
    file->frames = 0;
    file->rescue = 0;
    return 1;
}

int file_open(const char *path, struct file *file) {
    if (file_read(path, file)) return 1;
    fprintf(stderr, "hookbarley: %s: %s\n", path, strerror(errno));
    return 0;
}

void file_close(struct file *file) {
    free(file->bytes);
    file->bytes = NULL;
}

static int next_of_ivf(struct file *file, struct frame *frame, uint32_t *number) {
    if (file->at == 0) {
        size_t head = file->length < IVF_HEAD ? 0 : little_endian(file->bytes + 6, 2);
        if (head < IVF_HEAD || head >= file->length || memcmp(file->bytes + 8, "VP80", 4)) {
            *number = ANSWER_IVF;
            return 0;
        }
        file->at = head;
    }
    size_t left = file->length - file->at;
    if (left == 0) return 0;
    if (left < IVF_FRAME_HEAD) {
        *number = ANSWER_IVF;
        return 0;
    }
    size_t length = little_endian(file->bytes + file->at, 4);
    file->at += IVF_FRAME_HEAD;
    left -= IVF_FRAME_HEAD;
    frame->bytes = file->bytes + file->at;
    frame->length = length < left ? length : left;
    file->at += frame->length;
    return 1;
}

/* What is left of the frame in a WebP file that was cut on disk, for --rescue. The library refuses it (18): a size past the end may be a
 * damaged size. Here the two sizes must agree, so that nothing but the file's end is missing. Else the refusal stands. */
static int next_of_cut_webp(const struct file *file, struct frame *frame, uint32_t *number) {
    if (file->length < WEBP_HEAD) return 0;
    size_t riff = little_endian(file->bytes + 4, 4), chunk = little_endian(file->bytes + 16, 4);
    if (riff + 8 <= file->length) return 0;
    if (memcmp(file->bytes + 12, "VP8 ", 4)) {
        *number = HOOKBARLEY_KIND;
        return 0;
    }
    if (riff != 12 + chunk + chunk % 2) return 0;
    *number = 0;
    frame->bytes = file->bytes + WEBP_HEAD;
    frame->length = file->length - WEBP_HEAD; /* at most `chunk`: what is missing is at least the pad byte */
    return 1;
}

static int next_of_webp(const struct file *file, struct frame *frame, uint32_t *number) {
    size_t start, length;
    *number = hookbarley_webp_find(file->bytes, file->length, &start, &length);
    if (*number == HOOKBARLEY_SIZES && file->rescue) return next_of_cut_webp(file, frame, number);
    if (*number) return 0;
    frame->bytes = file->bytes + start;
    frame->length = length;
    return 1;
}

int file_next(struct file *file, struct frame *frame, uint32_t *number) {
    int found = 0;
    *number = 0;
    if (file->kind == KIND_IVF)
        found = next_of_ivf(file, frame, number);
    else if (file->frames == 0 && file->kind == KIND_WEBP)
        found = next_of_webp(file, frame, number);
    else if (file->frames == 0) {
        frame->bytes = file->bytes;
        frame->length = file->length;
        found = 1;
    }
    file->frames += (size_t)found;
    return found;
}
