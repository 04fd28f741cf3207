/* What the cockpit profile says of frames, told as tests/model/profile.py tells it: profile_lines FILE..
 *
 * For each FILE, a WebP file or a bare VP8 frame, a line: its name, the number, the rule that fails, the macroblock that it names. The
 * calls are the inline ones of include/hookbarley.h. */
#include "hookbarley.h"
#include <stdio.h>
#include <stdlib.h>

enum { LONGEST = 1 << 17 };

/* The frame's number, rule and macroblock, what the header's call refuses included. */
static uint32_t judged(const uint8_t *frame, size_t length, uint32_t *rule, size_t *macroblock) {
    static int32_t header[HOOKBARLEY_ENTRIES];
    struct hookbarley_tile tile;
    struct hookbarley_memory memory;
    uint32_t number = hookbarley_take(frame, length, header, &tile);
    *rule = 0, *macroblock = 0;
    if (number) return number;
    uint8_t *room = malloc(hookbarley_room(&tile));
    if (!room) exit(2);
    hookbarley_lend(&tile, room, &memory);
    number = hookbarley_profile_picture(frame, length, header, &tile, &memory, rule, macroblock);
    free(room);
    return number;
}

int main(int argc, char **argv) {
    static uint8_t bytes[LONGEST];
    for (int i = 1; i < argc; i++) {
        FILE *in = fopen(argv[i], "rb");
        size_t n, start, length, macroblock;
        uint32_t number, rule;
        if (!in) { perror(argv[i]); return 2; }
        n = fread(bytes, 1, sizeof bytes, in);
        fclose(in);
        if (hookbarley_webp_find(bytes, n, &start, &length)) start = 0, length = n;
        number = judged(bytes + start, length, &rule, &macroblock);
        printf("%s %u %u %zu\n", argv[i], (unsigned)number, (unsigned)rule, macroblock);
    }
    return 0;
}
