/* The test of the call that recodes a frame, tested: the call with one fault, chosen when compiling (-DFAULT=n) and put before the
 * archive's by the linker (--wrap). recode_frame.c must fail with every one of them. */
#include "hookbarley.h"

#define PARAMETERS                                                                                                                       \
    const uint8_t *bytes, size_t bytes_len, uint8_t *y, size_t y_len, uint8_t *u, size_t u_len, uint8_t *v, size_t v_len,                \
        uint8_t *columns, size_t columns_len, uint8_t *modes, size_t modes_len, uint8_t *strengths, size_t strengths_len, uint8_t *out,  \
        size_t room, size_t *written

uint32_t __real_hookbarley_recode_frame(PARAMETERS);
uint32_t __wrap_hookbarley_recode_frame(PARAMETERS);

static volatile uint8_t sink;

uint32_t __wrap_hookbarley_recode_frame(PARAMETERS) {
    uint32_t n = __real_hookbarley_recode_frame(bytes, bytes_len, y, y_len, u, u_len, v, v_len, columns, columns_len, modes, modes_len,
                                                strengths, strengths_len, out, room, written);
    size_t len = *written;
    (void)sink; (void)len;
#if FAULT == 1 /* reads the byte behind the frame */
    sink = bytes[bytes_len];
#elif FAULT == 2 /* writes into the frame that it is given */
    ((uint8_t *)bytes)[0] = 0;
#elif FAULT == 3 /* writes though the room is too small */
    if (n == HOOKBARLEY_ROOM && room) out[0] ^= 1;
#elif FAULT == 4 /* writes though the picture is refused */
    if (n == HOOKBARLEY_NO_TOKENS && room) out[room - 1] ^= 1;
#elif FAULT == 5 /* writes behind the frame */
    if (!n && len < room) out[len] ^= 1;
#elif FAULT == 6 /* writes behind the room */
    if (!n) out[room] = 0;
#elif FAULT == 7 /* a room that is one byte too long is refused */
    if (!n && len + 1 == room) n = HOOKBARLEY_ROOM;
#elif FAULT == 8 /* tells bytes after a refusal */
    if (n) *written = 1;
#elif FAULT == 9 /* the tag keeps the old size */
    if (!n) out[0] = bytes[0], out[1] = bytes[1], out[2] = bytes[2];
#elif FAULT == 10 /* the frame is no longer to be shown */
    if (!n) out[0] ^= 16;
#elif FAULT == 11 /* the scale bits of the width are lost */
    if (!n) out[7] ^= 64;
#elif FAULT == 12 /* the last byte is left out */
    if (!n) *written -= 1;
#elif FAULT == 13 /* a bit of the tokens is another */
    if (!n) out[len - 4] ^= 1;
#elif FAULT == 14 /* a bit of the modes is another */
    if (!n && len > 40) out[10 + 8] ^= 8;
#elif FAULT == 15 /* columns are left as before the picture */
    if (!n && columns_len) columns[0] ^= 0x11;
#elif FAULT == 16 /* 4 before 12 to 14 */
    if (n >= HOOKBARLEY_NO_KEY_FRAME && n <= HOOKBARLEY_NO_HEADER && y_len % 256) n = HOOKBARLEY_LENGTH;
#elif FAULT == 17 /* 16 before 7 */
    if (n == HOOKBARLEY_NO_TOKENS && room < 10) n = HOOKBARLEY_ROOM;
#elif FAULT == 18 /* a refusal changes what is lent */
    if (n == HOOKBARLEY_LENGTH && modes_len) modes[0] ^= 1;
#endif
    return n;
}
