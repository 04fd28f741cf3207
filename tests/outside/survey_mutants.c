/* The survey test's own test: the survey calls with one fault, chosen when compiling (-DFAULT=n) and put before the archive's by the linker
 * (--wrap). survey.c must fail with every one of them; 3 to 10 must show in the lines of tests/model/survey.py too. */
#include "hookbarley.h"
#include <string.h>

#define PARAMETERS                                                                                                                       \
    const uint8_t *bytes, size_t bytes_len, const int32_t *header, size_t header_len, const size_t *tile, size_t tile_len, uint8_t *y,   \
        size_t y_len, uint8_t *u, size_t u_len, uint8_t *v, size_t v_len, uint8_t *columns, size_t columns_len, uint8_t *modes,          \
        size_t modes_len, uint8_t *strengths, size_t strengths_len, size_t *finished, uint64_t *first_reads, uint64_t *token_reads,      \
        uint64_t *record, size_t record_len
#define ADDED uint64_t *record, size_t record_len, const uint64_t *other, size_t other_len

uint32_t __real_hookbarley_survey(PARAMETERS);
uint32_t __wrap_hookbarley_survey(PARAMETERS);
uint32_t __real_hookbarley_survey_add(ADDED);
uint32_t __wrap_hookbarley_survey_add(ADDED);

static volatile uint8_t sink;

enum { COUNTS = HOOKBARLEY_SURVEY_COUNTS };

uint32_t __wrap_hookbarley_survey(PARAMETERS) {
    uint64_t before[COUNTS] = {0};
#if FAULT == 16 /* a record that is too long is taken */
    if (record_len > COUNTS) record_len = COUNTS;
#endif
    if (record_len == COUNTS) memcpy(before, record, sizeof before);
    uint32_t n = __real_hookbarley_survey(bytes, bytes_len, header, header_len, tile, tile_len, y, y_len, u, u_len, v, v_len, columns,
                                          columns_len, modes, modes_len, strengths, strengths_len, finished, first_reads, token_reads,
                                          record, record_len);
    int counted = n < 8; /* the picture call's own answer */
    size_t k = *finished, blocks = modes_len / HOOKBARLEY_MODE_BYTES;
    (void)sink; (void)counted; (void)k; (void)blocks;
#if FAULT == 1 /* reads the byte behind the input */
    sink = bytes[bytes_len];
#elif FAULT == 2 /* writes into the input */
    ((uint8_t *)bytes)[0] = 0;
#elif FAULT == 3 /* small is counted as its large number */
    for (size_t i = 0; counted && i < k; i++) {
        const uint8_t *m = modes + HOOKBARLEY_MODE_BYTES * i;
        if (!m[HOOKBARLEY_MODE_SMALL]) continue;
        record[HOOKBARLEY_SURVEY_SMALL]--;
        record[HOOKBARLEY_SURVEY_LUMA + m[HOOKBARLEY_MODE_LUMA] % 4]++;
    }
#elif FAULT == 4 /* unfinished macroblocks are counted */
    if (counted && n > HOOKBARLEY_PARTITION) record[HOOKBARLEY_SURVEY_SEGMENTS] += blocks - k;
#elif FAULT == 5 /* the sub-blocks of large ones are counted */
    for (size_t i = 0; counted && i < k; i++) {
        const uint8_t *m = modes + HOOKBARLEY_MODE_BYTES * i;
        if (!m[HOOKBARLEY_MODE_SMALL]) record[HOOKBARLEY_SURVEY_SUBBLOCKS + m[HOOKBARLEY_MODE_LUMA]] += 16;
    }
#elif FAULT == 6 /* a refused picture is not counted */
    if (counted && n && n <= HOOKBARLEY_PARTITION) memcpy(record, before, sizeof before);
#elif FAULT == 7 /* a cut picture counts as whole */
    if (n == HOOKBARLEY_NO_TOKENS) record[HOOKBARLEY_SURVEY_ANSWERS]++, record[HOOKBARLEY_SURVEY_ANSWERS + n]--;
#elif FAULT == 8 /* skipped and not skipped exchanged */
    for (size_t i = 0; counted && i < k; i++) {
        int skip = modes[HOOKBARLEY_MODE_BYTES * i + HOOKBARLEY_MODE_SKIP];
        record[HOOKBARLEY_SURVEY_SKIP + skip]--, record[HOOKBARLEY_SURVEY_SKIP + !skip]++;
    }
#elif FAULT == 9 /* the symbols of a cut picture are not counted */
    if (n == HOOKBARLEY_NO_TOKENS) record[HOOKBARLEY_SURVEY_TOKEN_READS] = before[HOOKBARLEY_SURVEY_TOKEN_READS];
#elif FAULT == 10 /* the inside byte is taken from small */
    for (size_t i = 0; counted && i < k; i++) {
        record[HOOKBARLEY_SURVEY_INSIDE + strengths[HOOKBARLEY_STRENGTH_BYTES * i + HOOKBARLEY_STRENGTH_INSIDE]]--;
        record[HOOKBARLEY_SURVEY_INSIDE + strengths[HOOKBARLEY_STRENGTH_BYTES * i + HOOKBARLEY_STRENGTH_SMALL]]++;
    }
#elif FAULT == 11 /* the record is changed though 15 */
    if (n == HOOKBARLEY_FULL) record[0]++;
#elif FAULT == 12 /* the picture is not decoded where 15 */
    if (n == HOOKBARLEY_FULL) memset(y, 0, y_len);
#elif FAULT == 13 /* 9 writes the record */
    if (n == HOOKBARLEY_ARGUMENT && record_len) record[0] = 0;
#elif FAULT == 14 /* writes behind the record */
    if (counted) record[record_len] = 0;
#elif FAULT == 15 /* 15 comes one too soon */
    for (int i = 0; counted && i < COUNTS; i++)
        if (record[i] == INT64_MAX) {
            memcpy(record, before, sizeof before);
            return HOOKBARLEY_FULL;
        }
#elif FAULT == 17 /* nothing is told of what 15 finished */
    if (n == HOOKBARLEY_FULL) *finished = 0;
#elif FAULT == 18 /* what lent memory held is counted */
    if (counted && n && n <= HOOKBARLEY_PARTITION && strengths_len) record[HOOKBARLEY_SURVEY_SEGMENTS] += strengths[0] & 1;
#elif FAULT == 19 /* 15 answers what the picture call answers */
    if (n == HOOKBARLEY_FULL) n = HOOKBARLEY_WHOLE;
#endif
    return n;
}

uint32_t __wrap_hookbarley_survey_add(ADDED) {
#if FAULT == 20 /* records that are too long are added */
    if (other_len > COUNTS) other_len = COUNTS;
#elif FAULT == 21 /* the last count is not added */
    uint64_t last = record_len ? record[record_len - 1] : 0;
#endif
    uint32_t n = __real_hookbarley_survey_add(record, record_len, other, other_len);
#if FAULT == 21
    if (!n) record[record_len - 1] = last;
#elif FAULT == 22 /* what is added is emptied */
    if (!n) ((uint64_t *)other)[0] = 0;
#elif FAULT == 23 /* the record is changed though 15 */
    if (n == HOOKBARLEY_FULL) record[0] = 0;
#elif FAULT == 24 /* reads behind what is added */
    sink = (uint8_t)other[other_len];
#elif FAULT == 25 /* sums past the limit are taken */
    for (int i = 0; n == HOOKBARLEY_FULL && i < COUNTS; i++) record[i] += other[i];
    if (n == HOOKBARLEY_FULL) n = HOOKBARLEY_WHOLE;
#endif
    return n;
}
