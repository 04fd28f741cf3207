/* The outside test's own test: the picture call or the deblocking call with one fault, chosen when compiling (-DFAULT=n) and put before
 * the archive's by the linker (--wrap=hookbarley_decode, --wrap=hookbarley_deblock). damaged.c must fail with every one of them but 21 and
 * 22, which the counts of tests/model/counts.py must find. */
#include "hookbarley.h"
#include <string.h>

#define PARAMETERS                                                                                                                       \
    const uint8_t *bytes, size_t bytes_len, const int32_t *header, size_t header_len, const size_t *tile, size_t tile_len, uint8_t *y,   \
        size_t y_len, uint8_t *u, size_t u_len, uint8_t *v, size_t v_len, uint8_t *columns, size_t columns_len, uint8_t *modes,          \
        size_t modes_len, uint8_t *strengths, size_t strengths_len, size_t *finished, uint64_t *first_reads, uint64_t *token_reads

uint32_t __real_hookbarley_decode(PARAMETERS);
uint32_t __wrap_hookbarley_decode(PARAMETERS);

static volatile uint8_t sink;

uint32_t __wrap_hookbarley_decode(PARAMETERS) {
    uint8_t before = y_len ? y[0] : 0;
#if FAULT == 24 /* the reader's numbers are cut to 32 bits */
    size_t cut[HOOKBARLEY_TILE_NUMBERS];
    if (tile_len == HOOKBARLEY_TILE_NUMBERS) {
        tile = memcpy(cut, tile, sizeof cut);
        for (int i = HOOKBARLEY_TILE_RANGE; i <= HOOKBARLEY_TILE_WINDOW; i++) cut[i] = (uint32_t)cut[i];
    }
#endif
    uint32_t n = __real_hookbarley_decode(bytes, bytes_len, header, header_len, tile, tile_len, y, y_len, u, u_len, v, v_len, columns,
                                          columns_len, modes, modes_len, strengths, strengths_len, finished, first_reads, token_reads);
    size_t blocks = strengths_len / HOOKBARLEY_STRENGTH_BYTES;
    int picture = n == HOOKBARLEY_WHOLE || n == HOOKBARLEY_NO_MODES || n == HOOKBARLEY_NO_TOKENS;
    (void)before; (void)blocks; (void)picture; (void)sink;
#if FAULT == 1 /* reads the byte behind the input */
    sink = bytes[bytes_len];
#elif FAULT == 2 /* reads the byte before a lent buffer */
    sink = u[-1];
#elif FAULT == 3 /* writes into the input */
    ((uint8_t *)bytes)[0] = 0;
#elif FAULT == 4 /* writes one byte too many */
    if (n == HOOKBARLEY_WHOLE) modes[modes_len] = 0;
#elif FAULT == 5 /* a refusal writes */
    if (n >= HOOKBARLEY_SIZE && n <= HOOKBARLEY_PARTITION && v_len) v[v_len - 1] = 128;
#elif FAULT == 6 /* what was lent shows through */
    if (n == HOOKBARLEY_NO_TOKENS && *finished == 0) y[0] = before;
#elif FAULT == 7 /* an unfinished sample is not 128 */
    if (n == HOOKBARLEY_NO_TOKENS) v[v_len - 1] = 127;
#elif FAULT == 8 /* one macroblock too many */
    if (n == HOOKBARLEY_NO_TOKENS && *finished + 1 < blocks) ++*finished;
#elif FAULT == 9 /* count is checked before size */
    if (n == HOOKBARLEY_SIZE && (tile[HOOKBARLEY_TILE_COUNT] < 1 || tile[HOOKBARLEY_TILE_COUNT] > 8)) n = HOOKBARLEY_COUNT;
#elif FAULT == 10 /* a finished strength is lost when the picture stops */
    if (picture && n && *finished > 0) strengths[HOOKBARLEY_STRENGTH_BYTES * (*finished - 1) + HOOKBARLEY_STRENGTH_INSIDE] ^= 1;
#elif FAULT == 11 /* column memory is empty after a stop */
    if (picture && n) memset(columns, 0, columns_len);
#elif FAULT == 12 /* row 0 depends on the last partition */
    if (n == HOOKBARLEY_WHOLE && tile[HOOKBARLEY_TILE_COUNT] > 1) {
        size_t last = tile[HOOKBARLEY_TILE_COUNT] - 1;
        if (tile[HOOKBARLEY_TILE_TOKEN_LENGTHS + last] > 8) y[3] ^= bytes[tile[HOOKBARLEY_TILE_TOKEN_STARTS + last] + 5] & 1;
    }
#elif FAULT == 17 /* the two counts are exchanged */
    uint64_t first = *first_reads;
    *first_reads = *token_reads;
    *token_reads = first;
#elif FAULT == 18 /* a refusal leaves a count */
    if (n >= HOOKBARLEY_SIZE && n <= HOOKBARLEY_PARTITION) *token_reads = 1;
#elif FAULT == 19 /* a count depends on what was lent */
    *first_reads += before & 1;
#elif FAULT == 20 /* more than a macroblock can read */
    if (n == HOOKBARLEY_NO_TOKENS) *token_reads += HOOKBARLEY_TOKEN_MOST;
#elif FAULT == 21 /* the symbols of a macroblock that ran out are not all counted */
    if (n == HOOKBARLEY_NO_TOKENS && *token_reads) --*token_reads;
#elif FAULT == 23 /* segment and small are exchanged in a strength record */
    for (size_t i = 0; picture && i < *finished; i++) {
        uint8_t *t = strengths + HOOKBARLEY_STRENGTH_BYTES * i, segment = t[HOOKBARLEY_STRENGTH_SEGMENT];
        t[HOOKBARLEY_STRENGTH_SEGMENT] = t[HOOKBARLEY_STRENGTH_SMALL];
        t[HOOKBARLEY_STRENGTH_SMALL] = segment;
    }
#elif FAULT == 22 /* the symbol that is missing is counted */
    if (n == HOOKBARLEY_NO_MODES) ++*first_reads;
#elif FAULT == 25 /* the size is checked before the numbers are counted */
    if (n == HOOKBARLEY_ARGUMENT && tile_len > HOOKBARLEY_TILE_HEIGHT &&
        (tile[HOOKBARLEY_TILE_WIDTH] % 16 || tile[HOOKBARLEY_TILE_HEIGHT] % 16)) n = HOOKBARLEY_SIZE;
#endif
    return n;
}

#define PLANES                                                                                                                           \
    uint8_t *y, size_t y_len, uint8_t *u, size_t u_len, uint8_t *v, size_t v_len, const uint8_t *strengths, size_t strengths_len,        \
        size_t width, size_t height, uint32_t simple

uint32_t __real_hookbarley_deblock(PLANES);
uint32_t __wrap_hookbarley_deblock(PLANES);

uint32_t __wrap_hookbarley_deblock(PLANES) {
    uint32_t n = __real_hookbarley_deblock(y, y_len, u, u_len, v, v_len, strengths, strengths_len, width, height, simple);
#if FAULT == 13 /* a refusal with 11 writes */
    if (n == HOOKBARLEY_LIMIT) v[v_len - 1] ^= 1;
#elif FAULT == 14 /* the simple kind touches chroma */
    if (n == HOOKBARLEY_WHOLE && simple) u[u_len / 2] ^= 1;
#elif FAULT == 15 /* writes into the strengths */
    if (n == HOOKBARLEY_WHOLE) ((uint8_t *)strengths)[HOOKBARLEY_STRENGTH_INSIDE] = 1;
#elif FAULT == 16 /* a sample of an unfinished macroblock moves */
    const uint8_t *last = strengths + strengths_len - HOOKBARLEY_STRENGTH_BYTES;
    if (n == HOOKBARLEY_WHOLE && strengths_len > HOOKBARLEY_STRENGTH_BYTES && last[HOOKBARLEY_STRENGTH_LIMIT] == 0) y[y_len - 1] ^= 1;
#endif
    return n;
}
