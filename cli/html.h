/* What both pages, the survey's and the pixels', are written with. */
#ifndef CLI_HTML_H
#define CLI_HTML_H

#include <stddef.h>
#include <stdint.h>
#include <stdio.h>

/* How many bytes the UTF-8 character at p has, 0 where there is none that HTML may hold. */
int html_character(const unsigned char *p);

/* Text, escaped. It may hold any bytes, as a file's name does. */
void html_text(FILE *out, const char *text);

/* Bytes in base64. */
void html_base64(FILE *out, const uint8_t *bytes, size_t length);

/* A string of JSON, as it may stand inside of a script; of words that are UTF-8. */
void html_json(FILE *out, const char *text);

#endif
