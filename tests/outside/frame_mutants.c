/* The header test's own test: the call with one fault, chosen when compiling (-DFAULT=n) and put before the archive's by the linker
 * (--wrap). frame.c must fail with every one of them. */
#include "hookbarley.h"

uint32_t __real_hookbarley_frame(const uint8_t *, size_t, int32_t *, size_t, size_t *, size_t);
uint32_t __wrap_hookbarley_frame(const uint8_t *, size_t, int32_t *, size_t, size_t *, size_t);

static volatile uint8_t sink;

#if FAULT == 5 || FAULT == 6
static size_t first_size(const uint8_t *bytes) { return (size_t)(bytes[0] | bytes[1] << 8 | bytes[2] << 16) >> 5; }
#endif

uint32_t __wrap_hookbarley_frame(const uint8_t *bytes, size_t length, int32_t *header, size_t header_len, size_t *tile, size_t tile_len) {
    uint32_t n = __real_hookbarley_frame(bytes, length, header, header_len, tile, tile_len);
    (void)sink;
#if FAULT == 1 /* reads the byte behind the frame */
    sink = bytes[length];
#elif FAULT == 2 /* reads the byte before it */
    sink = bytes[-1];
#elif FAULT == 3 /* a number stays after a refusal */
    if (n && tile_len == HOOKBARLEY_TILE_NUMBERS) tile[HOOKBARLEY_TILE_COUNT] = 1;
#elif FAULT == 4 /* an entry changes after a refusal */
    if (n && header_len == HOOKBARLEY_ENTRIES) header[HOOKBARLEY_HEADER_SKIP_PROBABILITY] ^= 1;
#elif FAULT == 5 /* 13 before 12 */
    if (n == HOOKBARLEY_NO_KEY_FRAME && length >= 10 && length - 10 < first_size(bytes)) n = HOOKBARLEY_PAST_END;
#elif FAULT == 6 /* a first partition of one byte is 13 */
    if (n == HOOKBARLEY_NO_HEADER && length >= 10 && first_size(bytes) < 2) n = HOOKBARLEY_PAST_END;
#elif FAULT == 7 /* the sides are not rounded */
    if (n == HOOKBARLEY_WHOLE) tile[HOOKBARLEY_TILE_WIDTH] = tile[HOOKBARLEY_TILE_TRUE_WIDTH];
#elif FAULT == 8 /* the scaling bits are part of the size */
    if (n == HOOKBARLEY_WHOLE) tile[HOOKBARLEY_TILE_TRUE_WIDTH] |= (size_t)(bytes[7] & 0xc0) << 8;
#elif FAULT == 9 /* the reader stands a byte further */
    if (n == HOOKBARLEY_WHOLE) tile[HOOKBARLEY_TILE_AT]++;
#elif FAULT == 10 /* the last partition ends a byte early */
    if (n == HOOKBARLEY_WHOLE) {
        size_t *last = tile + HOOKBARLEY_TILE_TOKEN_LENGTHS + tile[HOOKBARLEY_TILE_COUNT] - 1;
        *last -= *last > 0;
    }
#elif FAULT == 11 /* deltas that a key frame does not use are kept */
    if (n == HOOKBARLEY_WHOLE && header[HOOKBARLEY_HEADER_DELTAS]) header[HOOKBARLEY_HEADER_INTRA_DELTA + 1] = 1;
#elif FAULT == 12 /* writes behind the numbers */
    tile[tile_len] = 0;
#elif FAULT == 13 /* version 4 is taken for 12's sake only */
    if (n == HOOKBARLEY_NO_KEY_FRAME && length >= 10 && (bytes[0] >> 1 & 7) == 4) n = HOOKBARLEY_NO_HEADER;
#elif FAULT == 14 /* the kind of filter by the version */
    if (n == HOOKBARLEY_WHOLE) tile[HOOKBARLEY_TILE_SIMPLE] = (bytes[0] >> 1 & 7) != 0;
#endif
    return n;
}
