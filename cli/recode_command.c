/* hookbarley recode: every key frame of a file written again with one token partition, in a file of the same kind. */
#include "answers.h"
#include "commands.h"
#include "save.h"
#include <stdlib.h>
#include <string.h>

enum { PAD = 1, IVF_FRAME_HEAD = 12, ROOM_MORE = 64 };

/* The file that is written, as it grows. */
struct grown {
    uint8_t *bytes;
    size_t length, room;
};

static void append(struct grown *to, const uint8_t *bytes, size_t length) {
    if (to->room - to->length < length) to->bytes = more_memory(to->bytes, to->room = 2 * (to->length + length));
    memcpy(to->bytes + to->length, bytes, length);
    to->length += length;
}

/* A frame recoded, into memory of as many bytes as it takes. Returns the library's answer. */
static uint32_t recoded(struct picture *p, struct frame frame, uint8_t **out, size_t *written) {
    *out = NULL;
    if (picture_header(p, frame)) return p->number;
    p->room = memory(hookbarley_room(&p->tile));
    hookbarley_lend(&p->tile, p->room, &p->memory);
    size_t room = frame.length + frame.length / 8 + ROOM_MORE;
    do {
        free(*out);
        *out = memory(room);
        p->number = hookbarley_recode_bytes(frame.bytes, frame.length, &p->tile, &p->memory, *out, room, written);
        room *= 2;
    } while (p->number == HOOKBARLEY_ROOM);
    picture_free(p);
    return p->number;
}

/* Puts a recoded frame where the old one stood: bare, in a WebP file of its own, or behind an IVF file's words before it. Returns 0 or the
 * number of a refusal. */
static uint32_t put(struct grown *to, const struct file *file, struct frame old, uint8_t *bytes, size_t length) {
    if (file->kind == KIND_WEBP) {
        size_t room = length + WEBP_HEAD + PAD, written = 0;
        uint8_t *whole = memory(room);
        uint32_t number = hookbarley_webp_wrap(bytes, length, whole, room, &written);
        if (!number) append(to, whole, written);
        free(whole);
        return number;
    }
    if (file->kind == KIND_IVF) {
        uint8_t head[IVF_FRAME_HEAD];
        memcpy(head, old.bytes - IVF_FRAME_HEAD, sizeof head);
        for (int i = 0; i < 4; i++) head[i] = (uint8_t)(length >> 8 * i);
        if (!to->length) append(to, file->bytes, (size_t)(old.bytes - file->bytes) - IVF_FRAME_HEAD);
        append(to, head, sizeof head);
    }
    append(to, bytes, length);
    return 0;
}

/* Every frame of a file. Returns the exit status. */
static int recode_all(const char *path, struct file *file, struct grown *to) {
    struct tally tally = {0};
    struct frame frame;
    struct picture picture;
    uint32_t number;
    while (file_next(file, &frame, &number)) {
        uint8_t *bytes;
        size_t length;
        number = recoded(&picture, frame, &bytes, &length);
        if (!number) number = put(to, file, frame, bytes, length);
        free(bytes);
        if (number) return take_answer(&tally, path, file, number, NULL);
    }
    return take_end(&tally, path, file, number);
}

static void write_grown(FILE *out, const void *of) {
    const struct grown *to = of;
    fwrite(to->bytes, 1, to->length, out);
}

int recode(const struct options *o) {
    struct file file;
    struct grown to = {0};
    if (o->count != 2) return usage("recode takes an IN and an OUT", "");
    if (!file_open(o->names[0], &file)) return STATUS_USAGE;
    int status = recode_all(o->names[0], &file, &to);
    if (!status) status = save(o->names[1], write_grown, &to);
    if (!status) {
        int fewer = file.length >= to.length;
        fprintf(save_lines(o->names[1]), "%s: %zu bytes, %zu %s than %s\n", o->names[1], to.length,
                fewer ? file.length - to.length : to.length - file.length, fewer ? "fewer" : "more", o->names[0]);
    }
    free(to.bytes);
    file_close(&file);
    return status;
}
