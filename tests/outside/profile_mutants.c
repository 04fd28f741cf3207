/* The profile test's own test: the profile with one fault, chosen when compiling (-DFAULT=n) and put before the archive's by the linker
 * (--wrap). profile.c must fail with every one of them. */
#include "hookbarley.h"
#include <string.h>

#define PARAMETERS                                                                                                                       \
    const uint8_t *bytes, size_t bytes_len, const int32_t *header, size_t header_len, const size_t *tile, size_t tile_len, uint8_t *y,   \
        size_t y_len, uint8_t *u, size_t u_len, uint8_t *v, size_t v_len, uint8_t *columns, size_t columns_len, uint8_t *modes,          \
        size_t modes_len, uint8_t *strengths, size_t strengths_len, uint32_t *rule, size_t *macroblock
#define ARGUMENTS                                                                                                                        \
    bytes, bytes_len, header, header_len, tile, tile_len, y, y_len, u, u_len, v, v_len, columns, columns_len, modes, modes_len,          \
        strengths, strengths_len

uint32_t __real_hookbarley_profile(PARAMETERS);
uint32_t __wrap_hookbarley_profile(PARAMETERS);

static volatile uint8_t sink;
static size_t numbers[HOOKBARLEY_TILE_NUMBERS];
static int32_t entries[HOOKBARLEY_ENTRIES];

uint32_t __wrap_hookbarley_profile(PARAMETERS) {
    size_t was = tile_len == HOOKBARLEY_TILE_NUMBERS ? tile[HOOKBARLEY_TILE_COUNT] : 0;
    if (tile_len == HOOKBARLEY_TILE_NUMBERS) tile = memcpy(numbers, tile, sizeof numbers);
    if (header_len == HOOKBARLEY_ENTRIES) header = memcpy(entries, header, sizeof entries);
    (void)sink; (void)was;
#if FAULT == 3 /* count 8 is taken */
    if (was == 8) numbers[HOOKBARLEY_TILE_COUNT] = 4;
#elif FAULT == 4 /* count 3 is taken */
    if (was == 3) numbers[HOOKBARLEY_TILE_COUNT] = 4;
#elif FAULT == 5 /* a map is not looked at where segments are off */
    if (!entries[HOOKBARLEY_HEADER_SEGMENTS]) entries[HOOKBARLEY_HEADER_MAP] = 0;
#elif FAULT == 6 /* segments are not looked at where there is no map */
    if (!entries[HOOKBARLEY_HEADER_MAP]) entries[HOOKBARLEY_HEADER_SEGMENTS] = 0;
#elif FAULT == 7 /* a sharpness below 0 is taken */
    if (entries[HOOKBARLEY_HEADER_SHARPNESS] < 0 && entries[HOOKBARLEY_HEADER_SHARPNESS] >= -255) entries[HOOKBARLEY_HEADER_SHARPNESS] = 0;
#elif FAULT == 8 /* the height is not looked at */
    if (tile_len == HOOKBARLEY_TILE_NUMBERS && y_len == 65536) numbers[HOOKBARLEY_TILE_HEIGHT] = 256;
#endif
    uint32_t n = __real_hookbarley_profile(ARGUMENTS, rule, macroblock);
#if FAULT == 1 /* reads the byte behind the input */
    sink = bytes[bytes_len];
#elif FAULT == 2 /* writes into the input */
    ((uint8_t *)bytes)[0] = 0;
#elif FAULT == 9 /* rules 3 and 5 exchanged: a tile that is cut is told so before its segments */
    size_t finished;
    uint64_t reads, more;
    if (!n && *rule == 3 && hookbarley_decode(ARGUMENTS, &finished, &reads, &more)) *rule = 5;
#elif FAULT == 10 /* the last macroblock is named */
    for (size_t k = *macroblock; *rule == 6 && k < modes_len / HOOKBARLEY_MODE_BYTES; k++) {
        const uint8_t *mode = modes + HOOKBARLEY_MODE_BYTES * k;
        if (mode[HOOKBARLEY_MODE_SKIP] && mode[HOOKBARLEY_MODE_SMALL]) *macroblock = k;
    }
#elif FAULT == 11 /* memory is filled where rule 3 fails */
    if (*rule == 3 && y_len) memset(y, 128, y_len);
#elif FAULT == 12 /* a refusal is told before rule 2 */
    if (*rule == 2 && header_len != HOOKBARLEY_ENTRIES) n = HOOKBARLEY_LENGTH, *rule = 0;
#elif FAULT == 13 /* rule 3 is told before a refusal */
    if (n == HOOKBARLEY_LENGTH && header_len == HOOKBARLEY_ENTRIES && entries[HOOKBARLEY_HEADER_SEGMENTS]) n = 0, *rule = 3;
#elif FAULT == 14 /* the refusal's number stands in the rule */
    if (n) *rule = n;
#elif FAULT == 15 /* rule 5 names a macroblock */
    if (*rule == 5) *macroblock = 1;
#elif FAULT == 16 /* memory is blank where rule 5 fails */
    if (*rule == 5) memset(y, 128, y_len);
#elif FAULT == 17 /* rule 6 takes its memory back */
    if (*rule == 6) memset(strengths, 0, strengths_len);
#elif FAULT == 18 /* a refusal writes */
    if (n && columns_len) columns[columns_len - 1] ^= 1;
#elif FAULT == 19 /* a bad size is refused by 1 */
    if (*rule == 1 && tile[HOOKBARLEY_TILE_WIDTH] % 16) n = HOOKBARLEY_SIZE, *rule = 0;
#elif FAULT == 20 /* writes behind the rule */
    rule[1] = 0;
#endif
    return n;
}
