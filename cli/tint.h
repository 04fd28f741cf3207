/* Luma with each macroblock coloured by what its strength record or its mark says of it, for `decode --tint`. */
#ifndef CLI_TINT_H
#define CLI_TINT_H

#include "picture.h"
#include <stdio.h>

enum tint { TINT_NONE, TINT_SEGMENTS, TINT_MODES, TINT_MARKS };

/* The kinds in words, for the help and for who asks for another. */
#define TINT_KINDS "segments, modes or marks"

/* By its name, "segments"; TINT_NONE where there is no such kind. */
enum tint tint_of(const char *name);

/* How many values a kind has, what each says, red, green and blue of each; and the value of a macroblock that is kept. */
size_t tint_values(enum tint tint);
const char *tint_words(enum tint tint, size_t value);
const uint8_t *tint_colour(size_t value);
size_t tint_value(enum tint tint, const struct picture *picture, size_t block);

/* Writes a .ppm of the true size. A macroblock that is not kept has no record, and stays grey.
 * Returns 0 where it could not be written. */
int tint_write(FILE *out, enum tint tint, const struct picture *picture);

/* The legend: each colour, and how many macroblocks have it. */
void tint_print(FILE *out, enum tint tint, const struct picture *picture);

#endif
