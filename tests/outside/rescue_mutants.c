/* The rescue test's own test: the rescue call with one fault, chosen when compiling (-DFAULT=n) and put before the archive's by the linker
 * (--wrap). rescue.c must fail with every one of them but 18, which the lines of tests/model/picture.py must find. */
#include "hookbarley.h"

#define PARAMETERS                                                                                                                       \
    const uint8_t *bytes, size_t bytes_len, const int32_t *header, size_t header_len, const size_t *tile, size_t tile_len, uint8_t *y,   \
        size_t y_len, uint8_t *u, size_t u_len, uint8_t *v, size_t v_len, uint8_t *columns, size_t columns_len, uint8_t *modes,          \
        size_t modes_len, uint8_t *strengths, size_t strengths_len, uint8_t *marks, size_t marks_len, size_t *kept

uint32_t __real_hookbarley_rescue(PARAMETERS);
uint32_t __wrap_hookbarley_rescue(PARAMETERS);

static volatile uint8_t sink;

uint32_t __wrap_hookbarley_rescue(PARAMETERS) {
    size_t blocks = modes_len / HOOKBARLEY_MODE_BYTES;
#if FAULT == 12 /* marks that are too long are taken */
    if (marks_len > blocks) marks_len = blocks;
#endif
    uint32_t n = __real_hookbarley_rescue(bytes, bytes_len, header, header_len, tile, tile_len, y, y_len, u, u_len, v, v_len, columns,
                                          columns_len, modes, modes_len, strengths, strengths_len, marks, marks_len, kept);
    /* the last macroblock, where it is rebuilt: its place, its column, its records */
    int rebuilt = n == HOOKBARLEY_WHOLE && *kept && marks[*kept - 1] == HOOKBARLEY_MARK_MODES;
    size_t last = rebuilt ? *kept - 1 : 0, wide = columns_len / HOOKBARLEY_COLUMN_BYTES;
    uint8_t *column = rebuilt ? columns + HOOKBARLEY_COLUMN_BYTES * (last % wide) : NULL;
    uint8_t *mode = modes + HOOKBARLEY_MODE_BYTES * last, *strength = strengths + HOOKBARLEY_STRENGTH_BYTES * last;
    (void)sink; (void)blocks; (void)rebuilt; (void)column; (void)mode; (void)strength;
#if FAULT == 1 /* reads the byte behind the input */
    sink = bytes[bytes_len];
#elif FAULT == 2 /* writes into the input */
    ((uint8_t *)bytes)[0] = 0;
#elif FAULT == 3 /* the flags of a rebuilt macroblock are not cleared */
    if (rebuilt) column[3] = 0xFF;
#elif FAULT == 4 /* a rebuilt macroblock with small modes keeps its ninth flag */
    if (rebuilt && mode[HOOKBARLEY_MODE_SMALL]) column[2] = 1;
#elif FAULT == 5 /* a rebuilt macroblock is marked whole */
    if (rebuilt) marks[last] = HOOKBARLEY_MARK_WHOLE;
#elif FAULT == 6 /* a grey macroblock is marked rebuilt */
    if (n == HOOKBARLEY_WHOLE && *kept < blocks) marks[*kept] = HOOKBARLEY_MARK_MODES;
#elif FAULT == 7 /* a rebuilt macroblock with a large mode filters inside */
    if (rebuilt && !mode[HOOKBARLEY_MODE_SMALL]) strength[HOOKBARLEY_STRENGTH_INSIDE] = 1;
#elif FAULT == 8 /* a refusal writes */
    if (n >= HOOKBARLEY_SIZE && n <= HOOKBARLEY_PARTITION && columns_len) columns[columns_len - 1] = 0;
#elif FAULT == 9 /* a refusal marks */
    if (n && marks_len) marks[0] = HOOKBARLEY_MARK_GREY;
#elif FAULT == 10 /* one macroblock too many is kept */
    if (n == HOOKBARLEY_WHOLE && *kept < blocks) ++*kept;
#elif FAULT == 11 /* writes behind the marks */
    if (n == HOOKBARLEY_WHOLE) marks[marks_len] = HOOKBARLEY_MARK_GREY;
#elif FAULT == 13 /* partitions are checked before the marks */
    if (n == HOOKBARLEY_LENGTH && marks_len != blocks && tile[HOOKBARLEY_TILE_FIRST_START] > bytes_len) n = HOOKBARLEY_PARTITION;
#elif FAULT == 14 /* something is kept after a refusal */
    if (n) *kept = 1;
#elif FAULT == 15 /* a rebuilt macroblock is not filtered */
    for (int i = HOOKBARLEY_STRENGTH_LIMIT; rebuilt && i <= HOOKBARLEY_STRENGTH_INSIDE; i++) strength[i] = 0;
#elif FAULT == 16 /* what is rebuilt depends on the last partition */
    size_t count = n == HOOKBARLEY_WHOLE ? tile[HOOKBARLEY_TILE_COUNT] : 0;
    if (rebuilt && count > 1 && tile[HOOKBARLEY_TILE_TOKEN_LENGTHS + count - 1] > 8)
        y[16 * wide * 16 * (last / wide) + 16 * (last % wide)] ^= bytes[tile[HOOKBARLEY_TILE_TOKEN_STARTS + count - 1] + 5] & 1;
#elif FAULT == 17 /* a whole macroblock is marked rebuilt */
    if (n == HOOKBARLEY_WHOLE && marks[0] == HOOKBARLEY_MARK_WHOLE) marks[0] = HOOKBARLEY_MARK_MODES;
#elif FAULT == 18 /* a sample of a rebuilt macroblock is not as predicted */
    if (rebuilt) u[8 * wide * 8 * (last / wide) + 8 * (last % wide) + 7] ^= 1;
#endif
    return n;
}
