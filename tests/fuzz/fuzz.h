/* What the fuzzed programs share: the loop that AFL++ drives, and a way to say that something is wrong. A program is given its input by
 * afl-fuzz, many in one process; or by hand the names of files, each of which is one input. */
#ifndef FUZZ_H
#define FUZZ_H

#include <stdint.h>
#include <stdio.h>
#include <stdlib.h>
#include <string.h>
#include <unistd.h>

/* One input. */
static void one(const uint8_t *bytes, size_t length);

#define CHECK(good) ((good) ? (void)0 : wrong(__FILE__, __LINE__, #good))

static inline void wrong(const char *file, int line, const char *what) {
    fprintf(stderr, "%s:%d: not so: %s\n", file, line, what);
    abort();
}

/* A copy of exactly its length, so that the sanitizer sees a read past its end. */
static inline void give(const uint8_t *bytes, size_t length) {
    uint8_t *copy = malloc(length ? length : 1);
    CHECK(copy);
    if (length) memcpy(copy, bytes, length);
    one(copy, length);
    free(copy);
}

static inline void give_file(const char *path) {
    static uint8_t room[1 << 20];
    FILE *in = fopen(path, "rb");
    CHECK(in);
    size_t length = fread(room, 1, sizeof room, in);
    fclose(in);
    give(room, length);
}

#ifdef __AFL_COMPILER
__AFL_FUZZ_INIT();
#endif

int main(int argc, char **argv) {
    for (int i = 1; i < argc; i++) give_file(argv[i]);
    if (argc > 1) return 0;
#ifdef __AFL_COMPILER
    __AFL_INIT();
    unsigned char *bytes = __AFL_FUZZ_TESTCASE_BUF;
    while (__AFL_LOOP(10000)) give(bytes, (size_t)__AFL_FUZZ_TESTCASE_LEN);
#endif
    return 0;
}

#endif
