/* The test of the call from a frame to the screen, tested: the call with one fault, chosen when compiling (-DFAULT=n) and put before the
 * archive's by the linker (--wrap). show.c must fail with every one of them. The picture call has a fault in 17 alone, the same one. */
#include "hookbarley.h"
#include <string.h>

#define MEMORIES                                                                                                                         \
    uint8_t *y, size_t y_len, uint8_t *u, size_t u_len, uint8_t *v, size_t v_len, uint8_t *columns, size_t columns_len, uint8_t *modes,  \
        size_t modes_len, uint8_t *strengths, size_t strengths_len, size_t *finished, uint64_t *first_reads, uint64_t *token_reads
#define LENT                                                                                                                             \
    y, y_len, u, u_len, v, v_len, columns, columns_len, modes, modes_len, strengths, strengths_len, finished, first_reads, token_reads
#define FRAME const uint8_t *bytes, size_t length, int32_t *header, size_t header_len, size_t *tile, size_t tile_len
#define TAKEN const uint8_t *bytes, size_t length, const int32_t *header, size_t header_len, const size_t *tile, size_t tile_len

uint32_t __real_hookbarley_key_frame(FRAME, MEMORIES);
uint32_t __wrap_hookbarley_key_frame(FRAME, MEMORIES);
uint32_t __real_hookbarley_decode(TAKEN, MEMORIES);
uint32_t __wrap_hookbarley_decode(TAKEN, MEMORIES);

static volatile uint8_t sink;

static int has_picture(uint32_t n) { return n == HOOKBARLEY_WHOLE || n == HOOKBARLEY_NO_MODES || n == HOOKBARLEY_NO_TOKENS; }

/* 17: what the last partition holds decides the first macroblock's record */
static void leaks(uint32_t n, const uint8_t *bytes, const size_t *tile, uint8_t *modes) {
#if FAULT == 17
    size_t last = has_picture(n) ? tile[HOOKBARLEY_TILE_COUNT] - 1 : 0, from = last ? tile[HOOKBARLEY_TILE_TOKEN_STARTS + last] : 0;
    for (size_t i = 0; last && i < tile[HOOKBARLEY_TILE_TOKEN_LENGTHS + last]; i++) modes[0] ^= bytes[from + i];
#else
    (void)n; (void)bytes; (void)tile; (void)modes;
#endif
}

uint32_t __wrap_hookbarley_decode(TAKEN, MEMORIES) {
    uint32_t n = __real_hookbarley_decode(bytes, length, header, header_len, tile, tile_len, LENT);
    leaks(n, bytes, tile, modes);
    return n;
}

uint32_t __wrap_hookbarley_key_frame(FRAME, MEMORIES) {
    uint8_t old = y_len ? y[0] : 0;
#if FAULT == 12 /* the planes are deblocked although a length is refused */
    if (columns_len != HOOKBARLEY_COLUMN_BYTES && y_len == 256 && u_len == 64 && v_len == 64 && strengths_len == HOOKBARLEY_STRENGTH_BYTES)
        y[8] = 128;
#elif FAULT == 13 /* memory that is too long is taken */
    if (y_len == 257) y_len = 256;
#endif
    uint32_t n = __real_hookbarley_key_frame(bytes, length, header, header_len, tile, tile_len, LENT);
    int shown = has_picture(n);
    (void)sink; (void)old; (void)shown;
    leaks(n, bytes, tile, modes);
#if FAULT == 1 /* reads the byte behind the frame */
    sink = bytes[length];
#elif FAULT == 2 /* writes behind the numbers */
    tile[tile_len] = 0;
#elif FAULT == 3 /* after a refusal the numbers are zero, as the header's call leaves them */
    if (!shown && tile_len == HOOKBARLEY_TILE_NUMBERS) memset(tile, 0, tile_len * sizeof *tile);
#elif FAULT == 4 /* an entry changes after a refusal */
    if (!shown && header_len == HOOKBARLEY_ENTRIES) header[HOOKBARLEY_HEADER_SKIP_PROBABILITY] ^= 1;
#elif FAULT == 5 /* a refusal writes */
    if (n == HOOKBARLEY_LENGTH && columns_len) columns[columns_len - 1] = 0;
#elif FAULT == 6 /* filtered though the level is 0 */
    if (shown && !header[HOOKBARLEY_HEADER_LEVEL])
        hookbarley_deblock(y, y_len, u, u_len, v, v_len, strengths, strengths_len, tile[0], tile[1], !!tile[HOOKBARLEY_TILE_SIMPLE]);
#elif FAULT == 7 || FAULT == 8 /* the simple kind exchanged; not filtered at all */
    if (shown) __real_hookbarley_decode(bytes, length, header, header_len, tile, tile_len, LENT);
    if (FAULT == 7 && shown && header[HOOKBARLEY_HEADER_LEVEL])
        hookbarley_deblock(y, y_len, u, u_len, v, v_len, strengths, strengths_len, tile[0], tile[1], !tile[HOOKBARLEY_TILE_SIMPLE]);
#elif FAULT == 9 /* not filtered where macroblocks are missing */
    if (shown && n) __real_hookbarley_decode(bytes, length, header, header_len, tile, tile_len, LENT);
#elif FAULT == 10 /* the macroblocks finished are not told after 7 */
    if (n == HOOKBARLEY_NO_TOKENS) *finished = 0;
#elif FAULT == 11 /* symbols are counted after a refusal */
    if (!shown) *first_reads = 1;
#elif FAULT == 14 /* 12 before 9 */
    if (n == HOOKBARLEY_ARGUMENT && length && bytes[0] & 1) n = HOOKBARLEY_NO_KEY_FRAME;
#elif FAULT == 15 /* 4 before 13 */
    if (n == HOOKBARLEY_PAST_END && y_len % 256) n = HOOKBARLEY_LENGTH;
#elif FAULT == 16 /* a sample depends on what stood there */
    if (shown) u[u_len - 1] ^= old & 1;
#elif FAULT == 18 /* grey does not stay grey */
    if (shown && n) y[y_len - 1] = 127;
#elif FAULT == 19 /* an entry is another */
    if (shown) header[HOOKBARLEY_HEADER_INTRA_DELTA + 1] ^= 1;
#elif FAULT == 20 /* the true width is rounded */
    if (shown) tile[HOOKBARLEY_TILE_TRUE_WIDTH] = tile[HOOKBARLEY_TILE_WIDTH];
#endif
    return n;
}
