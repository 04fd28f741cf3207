/* Colours laid over luma: by rule for `explain`, by macroblock for `decode --tint`. */
#ifndef CLI_COLOUR_H
#define CLI_COLOUR_H

#include <stddef.h>
#include <stdint.h>

struct colour {
    uint8_t rgb[3];
    const char *words; /* what a legend says of it */
};

/* A sample of luma in a colour, or grey where that is NULL. Where luma is black a third of the colour stays, so that it can be told. */
static inline void colour_over(uint8_t *rgb, const struct colour *colour, uint8_t luma) {
    for (int k = 0; k < 3; k++) rgb[k] = colour ? (uint8_t)(colour->rgb[k] * (128 + luma) / 383) : luma;
}

#endif
