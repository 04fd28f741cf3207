/* Why did this sample move? What the loop filter did to a tile, edge by edge, for the program's `explain`.
 *
 * Over include/hookbarley.h alone. Deblocking is replayed on a copy of the planes in the order of hookbarley_deblock: macroblock by
 * macroblock in raster order; in each the left edge, inner vertical edges, the top edge, inner horizontal edges. Every line of eight
 * samples goes through hookbarley_explain, whose answer is proved, and the replayed planes are compared with what hookbarley_deblock
 * leaves: only where they are the same the answer is 0.
 *
 * The functions answer 0, or one of `enum explain_answer`; then what they wrote is not to be used. */
#ifndef EXPLAIN_H
#define EXPLAIN_H

#include "colour.h"
#include <stddef.h>
#include <stdint.h>
#include <stdio.h>

/* A tile as hookbarley_decode left it, before hookbarley_deblock. Only read. */
struct explain_tile {
    size_t width, height;           /* of the planes, multiples of 16 */
    size_t true_width, true_height; /* of the picture, at most those: pixels outside are refused, pictures are cut to it */
    const uint8_t *y, *u, *v;
    const uint8_t *strengths; /* of a frame whose level is 0, which is not filtered at all, hand over zeros */
    size_t strengths_len;     /* HOOKBARLEY_STRENGTH_BYTES a macroblock */
    int simple;               /* the simple filter, by the frame header's filter type */
};

enum explain_answer {
    EXPLAIN_OUTSIDE = 1, /* no such pixel */
    EXPLAIN_REFUSED = 2, /* hookbarley_deblock refuses the planes or the strengths */
    EXPLAIN_MEMORY = 3,  /* no memory, or the output cannot be written */
    EXPLAIN_DIFFERS = 4  /* the replayed planes are not hookbarley_deblock's: an error in explain.c */
};

/* In words: every filtered edge that looked at pixel (x, y), in order, in luma, then at its place in U and in V; of each edge its place,
 * the eight samples, the three numbers, the rule and why, the sample before and after. */
int explain_pixel(FILE *out, const struct explain_tile *tile, size_t x, size_t y);

/* The luma plane, coloured by the rule that last moved each sample; a sample that did not move is grey. As a PPM picture of the true size,
 * and as an SVG picture four times as large, with a legend and how many samples each rule moved last. */
int explain_ppm(FILE *out, const struct explain_tile *tile);
int explain_svg(FILE *out, const struct explain_tile *tile);

/* The colour of a rule, of enum hookbarley_rule, in both; 0 is that of a sample that did not move. */
enum { EXPLAIN_RULES = 7 };
const struct colour *explain_colour(uint32_t rule);

/* ---- the same as numbers */
enum explain_plane { EXPLAIN_Y, EXPLAIN_U, EXPLAIN_V };

/* One edge that looked at one sample. */
struct explain_touch {
    size_t column, row; /* the macroblock that the edge belongs to */
    uint8_t horizontal; /* 1 where the edge runs from left to right: the samples lie above and below it */
    uint8_t offset;     /* where it lies in the macroblock: 0 for its left or top edge, else 4, 8, 12 */
    uint8_t place;      /* which of the eight the sample is: 0 p3, 1 p2, 2 p1, 3 p0, 4 q0, 5 q1, 6 q2, 7 q3 */
    uint8_t limit, inner, threshold;
    uint8_t samples[8];  /* the eight, before this edge */
    uint8_t after;       /* the sample after it; before it the sample is samples[place] */
    int32_t step;        /* what the rule added to it, before clipping */
    uint32_t rule, pair; /* of hookbarley_explain */
};

/* What a rule's sentence counts: the jump across the edge, or how far apart the pair that is not smooth or the neighbours at the edge are;
 * else 0. */
int explain_counted(const struct explain_touch *touch);

/* Filters a plane and tells every sample of every line: `tell` is called for each of the eight, p3 first, in the order of the filter, with
 * the sample's place in the plane. */
typedef void explain_seen(void *to, size_t x, size_t y, const struct explain_touch *touch);
int explain_each(const struct explain_tile *tile, enum explain_plane plane, explain_seen *tell, void *to);

/* What happened to one sample. It lies between two vertical and two horizontal edges, and no others look at it. */
enum { EXPLAIN_MOST = 4 };
struct explain_sample {
    uint8_t before, after; /* the whole loop filter */
    uint8_t touches;       /* the edges that looked at it, in order */
    struct explain_touch touch[EXPLAIN_MOST];
};

/* The samples of the rectangle w by h at (x, y) of a plane, row after row. Places are the plane's own: it may reach up to width and height,
 * half of both in U and V. */
int explain_samples(const struct explain_tile *tile, enum explain_plane plane, size_t x, size_t y, size_t w, size_t h,
                    struct explain_sample *out);

#endif
