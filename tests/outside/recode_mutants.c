/* The recode test's own test: the recode call with one fault, chosen when compiling (-DFAULT=n) and put before the archive's by the linker
 * (--wrap). recode.c must fail with every one of them, and the lines of tests/model/recode.py must find 13 and 15. */
#include "hookbarley.h"

#define PARAMETERS                                                                                                                       \
    const uint8_t *bytes, size_t bytes_len, const int32_t *header, size_t header_len, const size_t *tile, size_t tile_len, uint8_t *y,   \
        size_t y_len, uint8_t *u, size_t u_len, uint8_t *v, size_t v_len, uint8_t *columns, size_t columns_len, uint8_t *modes,          \
        size_t modes_len, uint8_t *strengths, size_t strengths_len, uint8_t *out, size_t room, size_t *result, size_t result_len

uint32_t __real_hookbarley_recode(PARAMETERS);
uint32_t __wrap_hookbarley_recode(PARAMETERS);

static volatile uint8_t sink;

uint32_t __wrap_hookbarley_recode(PARAMETERS) {
#if FAULT == 12 /* a result that is too long is taken */
    if (result_len > HOOKBARLEY_TILE_NUMBERS) result_len = HOOKBARLEY_TILE_NUMBERS;
#endif
    uint32_t n = __real_hookbarley_recode(bytes, bytes_len, header, header_len, tile, tile_len, y, y_len, u, u_len, v, v_len, columns,
                                          columns_len, modes, modes_len, strengths, strengths_len, out, room, result, result_len);
    struct hookbarley_tile *t = (struct hookbarley_tile *)result;
    size_t first = n ? 0 : t->first_length, tokens = n ? 0 : t->token_lengths[0];
    (void)sink; (void)t; (void)first; (void)tokens;
#if FAULT == 1 /* reads the byte behind the input */
    sink = bytes[bytes_len];
#elif FAULT == 2 /* writes into the input */
    ((uint8_t *)bytes)[0] = 0;
#elif FAULT == 3 /* writes though the room is too small */
    if (n == HOOKBARLEY_ROOM && room) out[0] = 0;
#elif FAULT == 4 /* writes though the picture is refused */
    if (n && n != HOOKBARLEY_ROOM && room) out[0] = 0;
#elif FAULT == 5 /* writes behind what is needed */
    if (!n && first + tokens < room) out[first + tokens] = 0;
#elif FAULT == 6 /* writes behind the room */
    if (!n) out[room] = 0;
#elif FAULT == 7 /* a room that is one byte too long is refused */
    if (!n && first + tokens + 1 == room) n = HOOKBARLEY_ROOM;
#elif FAULT == 8 /* a result after a refusal */
    if (n == HOOKBARLEY_ROOM) t->width = tile[HOOKBARLEY_TILE_WIDTH];
#elif FAULT == 9 /* the true size is lost */
    if (!n) t->true_width = t->width;
#elif FAULT == 10 /* the count of the tile that was read */
    if (!n) t->count = tile[HOOKBARLEY_TILE_COUNT];
#elif FAULT == 11 /* the last byte of the token partition is left out */
    if (!n) t->token_lengths[0]--;
#elif FAULT == 13 /* a bit of the token partition is another */
    if (tokens > 1) out[first + tokens / 4] ^= 0x80;
#elif FAULT == 14 /* columns are left as before the picture */
    if (!n && columns_len) columns[0] ^= 0x11;
#elif FAULT == 15 /* the flush is short of its last byte */
    if (tokens > 4) t->token_lengths[0]--;
#elif FAULT == 16 /* a bit of the first partition is another */
    if (first) out[first - 1] ^= 1;
#endif
    return n;
}
