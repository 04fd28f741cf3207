/* The calls on a key frame's bytes as tests make them: frames of files (.webp, or .ivf, of which the first counts), what is lent for them
 * between guard pages (guard.h), and frames drawn from the seed: damaged, cut, or random behind their first ten bytes. */
#ifndef FRAME_CALLS_H
#define FRAME_CALLS_H

#include "guard.h"

enum { Y, U, V, COLUMNS, MODES, STRENGTHS, LENT, BYTES = LENT, ENTRIES, TILE, FINISHED, FIRST_READS, TOKEN_READS, OUT, WRITTEN, BUFFERS };
enum { MOST = 1 << 16, SLACK = 64 };
static struct guarded buffers[BUFFERS] = {
    [Y] = {.name = "y", .capacity = 1 << 17},
    [U] = {.name = "u", .capacity = 1 << 15},
    [V] = {.name = "v", .capacity = 1 << 15},
    [COLUMNS] = {.name = "columns", .capacity = 1 << 12},
    [MODES] = {.name = "modes", .capacity = 3 << 12},
    [STRENGTHS] = {.name = "strengths", .capacity = 1 << 12},
    [BYTES] = {.name = "bytes", .capacity = MOST, .input = 1},
    [ENTRIES] = {.name = "entries", .capacity = 5 << 12},
    [TILE] = {.name = "tile", .capacity = 1 << 12},
    [FINISHED] = {.name = "finished", .capacity = 1 << 12},
    [FIRST_READS] = {.name = "first_reads", .capacity = 1 << 12},
    [TOKEN_READS] = {.name = "token_reads", .capacity = 1 << 12},
    [OUT] = {.name = "out", .capacity = 2 * MOST},
    [WRITTEN] = {.name = "written", .capacity = 1 << 12},
};

/* Lengths as a tile asks; whether the buffers hold them. */
static inline int lengths_for(const struct hookbarley_tile *t, size_t *lent) {
    struct hookbarley_lengths n = hookbarley_lengths_of(t);
    size_t all[LENT] = {n.y, n.u, n.v, n.columns, n.modes, n.strengths};
    memcpy(lent, all, sizeof all);
    for (int b = 0; b < LENT; b++)
        if (lent[b] > buffers[b].capacity) return 0;
    return 1;
}

struct file { const char *name; uint8_t *bytes; size_t n; struct hookbarley_tile tile; } *files;
static size_t files_len;

static inline void load(const char *name) {
    static uint8_t whole[MOST];
    static int32_t header[HOOKBARLEY_ENTRIES];
    FILE *f = fopen(name, "rb");
    if (!f) { perror(name); exit(2); }
    size_t n = fread(whole, 1, MOST, f), start = 44, length = 0;
    fclose(f);
    if (n > 44 && !memcmp(whole, "DKIF", 4)) length = (size_t)(whole[32] | whole[33] << 8 | whole[34] << 16);
    else if (hookbarley_webp_find(whole, n, &start, &length)) length = 0;
    struct file *g = &files[files_len++];
    *g = (struct file){name, malloc(MOST), length, {0}};
    size_t lent[LENT];
    int whole_file = n < MOST && length && start + length <= n;
    if (!whole_file || hookbarley_take(whole + start, length, header, &g->tile) || !lengths_for(&g->tile, lent)) {
        fprintf(stderr, "%s: no frame, or too large\n", name);
        exit(2);
    }
    memcpy(g->bytes, whole + start, length);
}

/* The frames of files, up to a NULL. */
static inline void load_frames(char **names) {
    size_t count = 0;
    while (names[count]) count++;
    files = calloc(count, sizeof *files);
    for (size_t i = 0; i < count; i++) load(names[i]);
}

/* A frame drawn from the seed, into MOST bytes at `s`; the file that it was made from. */
static inline const struct file *draw_frame(uint8_t *s, size_t *length) {
    const struct file *f = &files[below(files_len)];
    while (hookbarley_blocks(&f->tile) > 100 && below(16)) f = &files[below(files_len)];
    size_t n = f->n;
    memcpy(s, f->bytes, n);
    if (below(4) == 0) { /* a first partition and tokens of random bytes, of small pictures */
        n = 10 + below(4000);
        size_t size = below(below(8) ? n - 9 : n);
        for (size_t k = 10; k < n; k++) s[k] = (uint8_t)draw();
        for (int k = 0; k < 3; k++) s[k] = (uint8_t)((size << 5 | below(4) << 1) >> 8 * k);
        for (int k = 6; k < 10; k++) s[k] = (uint8_t)(k % 2 ? below(4) << 6 : 1 + below(64));
        /* literals are halves: a low byte now and then keeps the 1056 updates rare */
        for (size_t k = 10; k < n && below(2); k++) s[k] &= (uint8_t)draw();
    }
    for (size_t d = below(4); d--;) {
        if (below(3)) s[below(below(2) || n < 60 ? n : 60)] = (uint8_t)draw();
        else if (n > 1) n = below(4) ? n - below(n < 40 ? n : 40) : 1 + below(n);
    }
    *length = n;
    return f;
}

#endif
