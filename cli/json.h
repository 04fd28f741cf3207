/* JSON, written value by value: `{`, members with a key, elements with none (NULL). */
#ifndef CLI_JSON_H
#define CLI_JSON_H

#include <inttypes.h>
#include <stdint.h>
#include <stdio.h>

struct json {
    FILE *out;
    int depth, filled; /* how deep, and whether something stands before the next value there */
};

/* '{' or '[', and '}' or ']'. The last one ends the text with a new line. */
void json_begin(struct json *json, const char *key, char bracket);
void json_end(struct json *json, char bracket);

void json_number(struct json *json, const char *key, intmax_t number);
void json_numbers(struct json *json, const char *key, const int32_t *numbers, size_t count);
void json_counts(struct json *json, const char *key, const uint64_t *counts, size_t count);
void json_truth(struct json *json, const char *key, int truth);
void json_nothing(struct json *json, const char *key);

/* Text of any bytes: what is not UTF-8 becomes U+FFFD. */
void json_text(struct json *json, const char *key, const char *text);

#endif
