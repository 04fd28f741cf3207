/* The WebP test's own test: the calls with one fault, chosen when compiling (-DFAULT=n) and put before the archive's by the linker
 * (--wrap). webp.c must fail with every one of them. */
#include "hookbarley.h"

uint32_t __real_hookbarley_webp_find(const uint8_t *, size_t, size_t *, size_t *);
uint32_t __real_hookbarley_webp_wrap(const uint8_t *, size_t, uint8_t *, size_t, size_t *);
uint32_t __wrap_hookbarley_webp_find(const uint8_t *, size_t, size_t *, size_t *);
uint32_t __wrap_hookbarley_webp_wrap(const uint8_t *, size_t, uint8_t *, size_t, size_t *);

static volatile uint8_t sink;

uint32_t __wrap_hookbarley_webp_find(const uint8_t *bytes, size_t length, size_t *start, size_t *frame_length) {
    uint32_t n = __real_hookbarley_webp_find(bytes, length, start, frame_length);
    (void)sink;
#if FAULT == 1 /* reads the byte behind the input */
    sink = bytes[length];
#elif FAULT == 2 /* reads the byte before it */
    sink = bytes[-1];
#elif FAULT == 3 /* a number stays after a refusal */
    if (n) *start = 20;
#elif FAULT == 4 /* a pad byte is not looked at */
    if (n == HOOKBARLEY_SIZES && length > 20 && bytes[length - 1]) {
        uint8_t copy[64];
        if (length <= 64) {
            for (size_t i = 0; i < length; i++) copy[i] = bytes[i];
            copy[length - 1] = 0;
            n = __real_hookbarley_webp_find(copy, length, start, frame_length);
        }
    }
#elif FAULT == 5 /* 18 before 17 */
    if (n == HOOKBARLEY_MARKS && length >= 12 && length - 8 != (size_t)(bytes[4] | bytes[5] << 8)) n = HOOKBARLEY_SIZES;
#elif FAULT == 6 /* the chunk before its kind */
    if (n == HOOKBARLEY_KIND && length >= 20 && length - 20 != (size_t)(bytes[16] | bytes[17] << 8)) n = HOOKBARLEY_SIZES;
#elif FAULT == 7 /* the pad byte is counted */
    if (n == HOOKBARLEY_WHOLE && *frame_length % 2) ++*frame_length;
#endif
    return n;
}

uint32_t __wrap_hookbarley_webp_wrap(const uint8_t *frame, size_t frame_length, uint8_t *out, size_t room, size_t *written) {
#if FAULT == 8 /* the room before the frame's length */
    if (room < 20) { *written = 0; return HOOKBARLEY_ROOM; }
#endif
    uint32_t n = __real_hookbarley_webp_wrap(frame, frame_length, out, room, written);
#if FAULT == 9 /* a pad byte of 1 */
    if (n == HOOKBARLEY_WHOLE && frame_length % 2) out[*written - 1] = 1;
#elif FAULT == 10 /* a refusal writes */
    if (n && room) out[0] = 'R';
#elif FAULT == 11 /* writes behind the file */
    if (n == HOOKBARLEY_WHOLE && room > *written) out[*written] ^= 1;
#elif FAULT == 12 /* writes behind the room */
    if (n == HOOKBARLEY_WHOLE) out[room] = 0;
#elif FAULT == 13 /* the length after a refusal */
    if (n) *written = 20;
#elif FAULT == 14 /* the RIFF size without the pad byte */
    if (n == HOOKBARLEY_WHOLE && frame_length % 2) out[4]--;
#endif
    return n;
}
