/* The explanations' test's own test: the call with one fault, chosen when compiling (-DFAULT=n) and put before the archive's by the linker
 * (--wrap). explain.c must fail with every one of them. */
#include "hookbarley.h"

#define PARAMETERS                                                                                                                       \
    const uint8_t *samples, size_t samples_len, uint8_t simple, uint8_t edge, uint8_t limit, uint8_t inner, uint8_t threshold,           \
        uint8_t *after, size_t after_len, int32_t *steps, size_t steps_len, uint32_t *rule, uint32_t *pair

uint32_t __real_hookbarley_explain(PARAMETERS);
uint32_t __wrap_hookbarley_explain(PARAMETERS);

static volatile uint8_t sink;

uint32_t __wrap_hookbarley_explain(PARAMETERS) {
    uint32_t n = __real_hookbarley_explain(samples, samples_len, simple, edge, limit, inner, threshold, after, after_len, steps, steps_len,
                                           rule, pair);
    (void)sink;
#if FAULT == 1 /* reads the byte behind the samples */
    sink = samples[samples_len];
#elif FAULT == 2 /* another pair: the last that is not smooth */
    if (n == HOOKBARLEY_WHOLE && *pair && (samples[5] > samples[4] + inner || samples[4] > samples[5] + inner)) *pair = HOOKBARLEY_Q1_Q0;
#elif FAULT == 3 /* the step after clipping */
    for (int k = 0; n == HOOKBARLEY_WHOLE && k < 8; k++) steps[k] = after[k] - samples[k];
#elif FAULT == 4 /* macroblock and inner edge exchanged */
    if (n == HOOKBARLEY_WHOLE && *rule >= HOOKBARLEY_MACROBLOCK_EDGE) *rule = 11 - *rule;
#elif FAULT == 5 /* high variance told as the simple filter */
    if (n == HOOKBARLEY_WHOLE && *rule == HOOKBARLEY_HIGH_VARIANCE) *rule = HOOKBARLEY_SIMPLE;
#elif FAULT == 6 /* the steps of the q side as the RFC subtracts them */
    for (int k = 4; n == HOOKBARLEY_WHOLE && k < 8; k++) steps[k] = -steps[k];
#elif FAULT == 7 /* a rule after a refusal */
    if (n) *rule = HOOKBARLEY_EDGE_FAILED;
#elif FAULT == 8 /* a refusal writes */
    if (n && after_len) after[0] ^= 1;
#elif FAULT == 9 /* writes behind the steps */
    if (n == HOOKBARLEY_WHOLE) steps[steps_len] = 0;
#elif FAULT == 10 /* a pair where none failed */
    if (n == HOOKBARLEY_WHOLE && !*pair) *pair = HOOKBARLEY_P3_P2;
#endif
    return n;
}
