/* Decodes a case file (case_file.h): decode_case [-c | -d | -s] FILE [PREFIX] prints the answer's number, the macroblocks finished and the
 * sums of the planes, and writes these as PGM pictures, PREFIX-y.pgm, -u.pgm, -v.pgm. With -d the planes are deblocked, with -s by the
 * simple kind, and behind each sum stands the plane's FNV-1a hash. With -c the symbols read from the first partition and from token
 * partitions stand in place of the sums. */
#include "case_file.h"
#include <inttypes.h>

/* What a call leaves. */
struct result {
    uint32_t number;
    int written; /* there is a picture: 0, 6 and 7 */
    size_t finished;
    uint64_t first_reads, token_reads;
    struct hookbarley_memory memory;
};

static unsigned long sum(const uint8_t *p, size_t n) {
    unsigned long s = 0;
    while (n--) s += *p++;
    return s;
}

static unsigned long long fnv(const uint8_t *p, size_t n) {
    unsigned long long h = 0xcbf29ce484222325ull;
    while (n--) h = (h ^ *p++) * 0x100000001b3ull;
    return h;
}

static void pgm(const char *prefix, const char *plane, const uint8_t *p, size_t w, size_t h) {
    char name[4096];
    snprintf(name, sizeof name, "%s-%s.pgm", prefix, plane);
    FILE *f = fopen(name, "wb");
    if (!f) { perror(name); exit(2); }
    fprintf(f, "P5\n%zu %zu\n255\n", w, h);
    fwrite(p, 1, w * h, f);
    fclose(f);
}

/* A size that is refused is lent nothing. */
static void decode(const struct case_file *c, struct result *r) {
    const struct hookbarley_tile *t = &c->tile;
    if (!case_side(t->width) || !case_side(t->height)) {
        r->number = hookbarley_decode(c->bytes, c->length, c->header, HOOKBARLEY_ENTRIES, (const size_t *)t, HOOKBARLEY_TILE_NUMBERS,
                                      NULL, 0, NULL, 0, NULL, 0, NULL, 0, NULL, 0, NULL, 0, &r->finished, &r->first_reads, &r->token_reads);
        return;
    }
    uint8_t *room = malloc(hookbarley_room(t));
    if (!room) exit(2);
    memset(room, 0xA5, hookbarley_room(t));
    hookbarley_lend(t, room, &r->memory);
    r->number = hookbarley_picture(c->bytes, c->length, c->header, t, &r->memory, &r->finished, &r->first_reads, &r->token_reads);
    r->written = r->number == HOOKBARLEY_WHOLE || r->number == HOOKBARLEY_NO_MODES || r->number == HOOKBARLEY_NO_TOKENS;
}

static void print(const struct case_file *c, const struct result *r, int option) {
    struct hookbarley_lengths n = hookbarley_lengths_of(&c->tile);
    const uint8_t *planes[] = {r->memory.y, r->memory.u, r->memory.v};
    const size_t lengths[] = {n.y, n.u, n.v};
    printf("%u %zu", r->number, r->finished);
    if (option == 'c') printf(" %" PRIu64 " %" PRIu64, r->first_reads, r->token_reads);
    for (int i = 0; i < 3 && option != 'c'; i++) {
        if (r->written || !option) printf(" %lu", r->written ? sum(planes[i], lengths[i]) : 0);
        if (r->written && option) printf(" %016llx", fnv(planes[i], lengths[i]));
    }
    printf("\n");
}

int main(int argc, char **argv) {
    static struct case_file c;
    struct result r = {0};
    int option = argc > 1 && argv[1][0] == '-' ? argv[1][1] : 0;
    argc -= option != 0, argv += option != 0;
    if (argc < 2 || !strchr("cds", option)) { fprintf(stderr, "usage: decode_case [-c | -d | -s] FILE [PREFIX]\n"); return 2; }
    if (!case_read(argv[1], &c)) {
        puts(option == 'c' ? "10 0 0 0" : "10 0 0 0 0");
        return 0;
    }
    decode(&c, &r);
    c.tile.simple = option == 's';
    if (r.written && (option == 'd' || option == 's') && hookbarley_deblock_picture(&c.tile, &r.memory)) return 2;
    print(&c, &r, option);
    if (argc > 2 && r.written) {
        pgm(argv[2], "y", r.memory.y, c.tile.width, c.tile.height);
        pgm(argv[2], "u", r.memory.u, c.tile.width / 2, c.tile.height / 2);
        pgm(argv[2], "v", r.memory.v, c.tile.width / 2, c.tile.height / 2);
    }
    return 0;
}
