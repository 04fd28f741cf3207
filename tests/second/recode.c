/* recode FILE..: every key frame of WebP and IVF files decoded, recoded (M-112), decoded again and recoded again: all six lent memories are
 * the same, the room is filled and no byte behind it, one byte less is 16, and the second recoding writes the same bytes. Prints how many
 * frames there were of 1, 2, 4 and 8 token partitions, how many bytes their partitions had and how many they have recoded. */
#include "../../cli/file.h"
#include "hookbarley.h"
#include <stdio.h>
#include <stdlib.h>
#include <string.h>

static size_t frames[HOOKBARLEY_PARTITIONS + 1], before, after;
static const char *path;

static void must(int holds, const char *what) {
    if (holds) return;
    printf("%s: %s\n", path, what);
    exit(1);
}

/* A tile's bytes in its memory, filled before. */
static uint8_t *lent(const struct hookbarley_tile *t, int fill, struct hookbarley_memory *m) {
    uint8_t *room = memset(memory(hookbarley_room(t)), fill, hookbarley_room(t));
    hookbarley_lend(t, room, m);
    return room;
}

static size_t written(const struct hookbarley_tile *t) { return t->first_length + t->token_lengths[0]; }

static void recoded(const struct frame *f) {
    int32_t header[HOOKBARLEY_ENTRIES];
    struct hookbarley_tile tile, one, again;
    struct hookbarley_memory m, n;
    size_t finished;
    uint64_t first, tokens, first2, tokens2;
    must(hookbarley_take(f->bytes, f->length, header, &tile) == 0, "no key frame");
    uint8_t *whole = lent(&tile, 0xA5, &m), *other = lent(&tile, 0x5A, &n);
    must(hookbarley_picture(f->bytes, f->length, header, &tile, &m, &finished, &first, &tokens) == 0, "not whole");
    size_t most = tile.first_length + 4 + tokens;
    uint8_t *out = memset(memory(most + 1), 0xA5, most + 1), *twice = memory(most);
    must(hookbarley_recode_picture(f->bytes, f->length, header, &tile, &n, out, most, &one) == 0, "not recoded");
    must(memcmp(whole, other, hookbarley_room(&tile)) == 0, "recoding leaves other memory");
    for (size_t i = written(&one); i <= most; i++) must(out[i] == 0xA5, "written behind the end");
    must(hookbarley_picture(out, written(&one), header, &one, &n, &finished, &first2, &tokens2) == 0, "the result is not whole");
    must(memcmp(whole, other, hookbarley_room(&tile)) == 0, "the result leaves other memory");
    must(first == first2 && tokens == tokens2, "the result has other symbols");
    must(hookbarley_recode_picture(f->bytes, f->length, header, &tile, &n, twice, written(&one) - 1, &again) == HOOKBARLEY_ROOM,
         "a room too small is taken");
    must(hookbarley_recode_picture(out, written(&one), header, &one, &n, twice, written(&one), &again) == 0, "not recoded again");
    must(memcmp(&one, &again, sizeof one) == 0 && memcmp(out, twice, written(&one)) == 0, "recoded again, and it differs");
    frames[tile.count]++;
    before += tile.first_length;
    for (size_t i = 0; i < tile.count; i++) before += tile.token_lengths[i];
    after += written(&one);
    free(whole), free(other), free(out), free(twice);
}

int main(int argc, char **argv) {
    for (int i = 1; i < argc; i++) {
        struct file file;
        struct frame frame;
        uint32_t number;
        path = argv[i];
        if (!file_open(path, &file)) return 2;
        while (file_next(&file, &frame, &number)) recoded(&frame);
        must(number == 0, "malformed");
        file_close(&file);
    }
    printf("%zu %zu %zu %zu frames, %zu bytes, %zu recoded\n", frames[1], frames[2], frames[4], frames[8], before, after);
    return 0;
}
