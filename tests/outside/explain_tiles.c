/* Explanations of whole tiles: explain_tiles FILE..   every sample of every case file told, in both kinds of filter
 *                              explain_tiles -t X Y KIND FILE   pixel (X, Y) in words; KIND is normal or simple
 *                              explain_tiles -p KIND FILE, -s KIND FILE   the coloured tile as PPM, as SVG
 *
 * Of every sample of luma, U and V: the first edge finds the sample as it was decoded, every further edge what the edge before it left, and
 * the last leaves what hookbarley_deblock leaves (a sample that no edge looked at is as it was decoded); edges come in the order of
 * hookbarley_deblock; each step is told before clipping. A difference ends the run with status 1 and says where. */
#include "../../cli/explain.h"
#include "../../examples/c/case_file.h"

static void *lent(size_t n) {
    void *p = malloc(n ? n : 1);
    if (!p) exit(2);
    return p;
}

static void fail(const char *file, const char *what, size_t i) {
    fprintf(stderr, "FAILED at %s: %s (%zu)\n", file, what, i);
    exit(1);
}

/* Decodes a case file; 0 where nothing is decoded. */
static int decoded(const char *name, struct explain_tile *t) {
    static struct case_file c;
    struct hookbarley_memory m;
    size_t finished;
    uint64_t first_reads, token_reads;
    if (!case_read(name, &c) || !case_side(c.tile.width) || !case_side(c.tile.height)) return 0;
    hookbarley_lend(&c.tile, lent(hookbarley_room(&c.tile)), &m);
    uint32_t number = hookbarley_picture(c.bytes, c.length, c.header, &c.tile, &m, &finished, &first_reads, &token_reads);
    *t = (struct explain_tile){c.tile.width, c.tile.height, c.tile.width, c.tile.height,
                               m.y, m.u, m.v, m.strengths, hookbarley_lengths_of(&c.tile).strengths, 0};
    return number == HOOKBARLEY_WHOLE || number == HOOKBARLEY_NO_MODES || number == HOOKBARLEY_NO_TOKENS;
}

/* Where an edge comes in the order of hookbarley_deblock. */
static size_t order(const struct explain_tile *t, const struct explain_touch *e) {
    return ((e->row * (t->width / 16) + e->column) * 2 + e->horizontal) * 4 + e->offset / 4;
}

static size_t told, moved, stopped, rules[7];

static void check_sample(const char *file, const struct explain_tile *t, const struct explain_sample *s, uint8_t before, uint8_t after,
                         size_t i) {
    uint8_t now = before;
    for (int k = 0; k < s->touches; k++) {
        const struct explain_touch *e = &s->touch[k];
        int sum = now + e->step;
        if (k && order(t, e) <= order(t, &s->touch[k - 1])) fail(file, "edges out of order", i);
        if (e->samples[e->place] != now) fail(file, "an edge finds another sample than the one before it left", i);
        if (e->after != (sum < 0 ? 0 : sum > 255 ? 255 : sum)) fail(file, "a sample is not its step added and clipped", i);
        stopped += sum != e->after;
        moved += now != e->after;
        rules[e->rule]++;
        now = e->after;
    }
    if (s->before != before || s->after != now || now != after) fail(file, "the last value is not the deblocked sample", i);
    told++;
}

static void check_tile(const char *file, struct explain_tile *t) {
    size_t luma = t->width * t->height, sizes[3] = {luma, luma / 4, luma / 4};
    const uint8_t *before[3] = {t->y, t->u, t->v};
    uint8_t *after[3];
    struct explain_sample *s = lent(luma * sizeof *s);
    for (int p = 0; p < 3; p++) after[p] = memcpy(lent(sizes[p]), before[p], sizes[p]);
    if (hookbarley_deblock(after[0], sizes[0], after[1], sizes[1], after[2], sizes[2], t->strengths, t->strengths_len, t->width, t->height,
                           (uint32_t)t->simple))
        fail(file, "deblocking refuses", 0);
    for (int p = 0; p < 3; p++) {
        size_t half = p ? 2 : 1;
        int answer = explain_samples(t, (enum explain_plane)p, 0, 0, t->width / half, t->height / half, s);
        if (answer) fail(file, "no explanation, answer", (size_t)answer);
        for (size_t i = 0; i < sizes[p]; i++) check_sample(file, t, &s[i], before[p][i], after[p][i], i);
        free(after[p]);
    }
    if (explain_pixel(stdout, t, t->width, 0) != EXPLAIN_OUTSIDE) fail(file, "a pixel outside is told", 0);
    free(s);
}

int main(int argc, char **argv) {
    struct explain_tile t;
    int answer = 2;
    if (argc > 2 && argv[1][0] == '-') {
        int pixel = argv[1][1] == 't', at = pixel ? 4 : 2;
        if (argc != at + 2 || !decoded(argv[at + 1], &t)) { fprintf(stderr, "no tile\n"); return 2; }
        t.simple = !strcmp(argv[at], "simple");
        if (pixel) answer = explain_pixel(stdout, &t, strtoull(argv[2], NULL, 10), strtoull(argv[3], NULL, 10));
        if (argv[1][1] == 'p') answer = explain_ppm(stdout, &t);
        if (argv[1][1] == 's') answer = explain_svg(stdout, &t);
        return answer;
    }
    size_t files = 0;
    for (int i = 1; i < argc; i++) {
        if (!decoded(argv[i], &t)) continue;
        for (t.simple = 0; t.simple < 2; t.simple++) check_tile(argv[i], &t);
        files++;
    }
    printf("%zu tiles in both kinds: %zu samples told, the last value of each is deblocking's; %zu moves, %zu sums clipped; ", files, told,
           moved, stopped);
    printf("edge failed %zu, rough %zu, simple %zu", rules[HOOKBARLEY_EDGE_FAILED], rules[HOOKBARLEY_ROUGH], rules[HOOKBARLEY_SIMPLE]);
    printf(", high variance %zu, macroblock %zu, inner %zu\n", rules[HOOKBARLEY_HIGH_VARIANCE], rules[HOOKBARLEY_MACROBLOCK_EDGE],
           rules[HOOKBARLEY_INNER_EDGE]);
    return files ? 0 : 2;
}
