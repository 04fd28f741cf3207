/* hookbarley wrap: the simple lossy WebP file around a key frame. */
#include "answers.h"
#include "commands.h"
#include "save.h"
#include <stdlib.h>

enum { PAD = 1 };

static int write_file(const char *path, const uint8_t *bytes, size_t length) {
    struct save to;
    if (!save_open(&to, path) || !save_close(&to, fwrite(bytes, 1, length, to.out) == length)) return cannot_write(path);
    fprintf(save_lines(path), "%s: %zu bytes\n", path, length);
    return STATUS_WHOLE;
}

/* The file around a frame, where the frame is one that the library takes. */
static uint32_t wrapped(struct frame frame, uint8_t *out, size_t room, size_t *written) {
    struct picture picture;
    uint32_t number = picture_header(&picture, frame);
    return number ? number : hookbarley_webp_wrap(frame.bytes, frame.length, out, room, written);
}

int wrap(const struct options *o) {
    struct file file;
    struct frame frame, more;
    struct tally tally = {0};
    uint32_t number;
    if (o->count != 2) return usage("wrap takes an IN and an OUT.webp", "");
    if (!file_open(o->names[0], &file)) return STATUS_USAGE;
    int status;
    if (!file_next(&file, &frame, &number)) {
        status = take_end(&tally, o->names[0], &file, number);
    } else {
        size_t room = frame.length + WEBP_HEAD + PAD, written = 0;
        uint8_t *out = memory(room);
        number = wrapped(frame, out, room, &written);
        if (number)
            status = take_answer(&tally, o->names[0], &file, number, NULL);
        else if (file_next(&file, &more, &number))
            status = usage("a WebP file holds one frame, and there are more in ", o->names[0]);
        else
            status = write_file(o->names[1], out, written);
        free(out);
    }
    file_close(&file);
    return status;
}
