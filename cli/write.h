/* A picture written in one of three forms, cropped to its true size. */
#ifndef CLI_WRITE_H
#define CLI_WRITE_H

#include "picture.h"
#include <stdio.h>

enum form {
    FORM_NONE,
    FORM_YUV, /* I420: Y, U, V, the exact samples */
    FORM_PGM, /* Y alone, the exact samples */
    FORM_PPM  /* colour, for looking at: its conversion is this program's own, outside the proof */
};

/* By a name's ending, "ppm", and back. */
enum form form_of(const char *ending);
const char *ending_of(enum form form);

/* One row of the colours that FORM_PPM has, red, green and blue of each pixel. */
void write_colours(uint8_t *row, const struct picture *picture, size_t y);

/* Returns 0 where it could not be written. */
int write_picture(FILE *out, enum form form, const struct picture *picture);

#endif
