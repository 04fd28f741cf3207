/* What the survey call counts, told as tests/model/survey.py tells it:
 *
 *     survey_lines FILE..                       a line of 37 counts for each case file, folded alone into zeros
 *     survey_lines --all FILE..                 one line, all of them folded one after the other
 *     survey_lines --cuts PARTITION FILE [STEP] the length and such a line for every STEPth length of a token partition (the first is 0)
 *
 * A file that the case program does not take (malformed, over 64 KiB, or a side above 64) is no call: it counts nothing. Each call is made
 * at both guards (guard.h), and counts the same at either; and by hookbarley_survey_picture where it is not refused. */
#include "survey_calls.h"
#include <sys/stat.h>

enum { LONGEST = 65536, WIDEST = 64 };

/* The inline call counts the same. */
static void inline_too(const struct call *c, const struct record *before, const struct record *after) {
    struct record r = *before;
    struct hookbarley_memory m;
    uint8_t *room = malloc(hookbarley_room(&c->tile));
    hookbarley_lend(&c->tile, room, &m);
    hookbarley_survey_picture(c->bytes, c->n, c->header, &c->tile, &m, r.counts);
    if (!same_record(&r, after)) fail("hookbarley_survey_picture counts otherwise");
    free(room);
}

/* Folds a call into the record. */
static void count(const struct call *c, struct record *record) {
    static struct result r;
    struct record both[2] = {*record, *record};
    if (!r.mem[0]) r = new_result();
    for (int end = 0; end < 2; end++) run_survey(c, end, 0xA5, &both[end], &r);
    if (!same_record(&both[0], &both[1])) fail("one record at one guard, another at the other");
    if (!refusal(c)) inline_too(c, record, &both[0]);
    *record = both[0];
}

static void print_record(const struct record *r) {
    for (int i = 0; i < COUNTS; i++) printf("%llu%c", (unsigned long long)r->counts[i], i + 1 < COUNTS ? ' ' : '\n');
}

/* Whether the case program takes the file. */
static int take(const char *path, struct call *c) {
    struct stat is;
    trying("%s", path);
    if (stat(path, &is)) { perror(path); exit(2); }
    return is.st_size <= LONGEST && load(path, c) && c->tile.width <= WIDEST && c->tile.height <= WIDEST;
}

static void print_cuts(size_t partition, const char *path, size_t step) {
    static struct call c;
    if (!take(path, &c) || partition >= c.tile.count || !step) fail("no such partition or step");
    size_t *length = &c.tile.token_lengths[partition], from = *length;
    for (size_t n = 0; n <= from; n += step) {
        struct record r = {.length = COUNTS};
        *length = n;
        count(&c, &r);
        printf("%zu ", n);
        print_record(&r);
    }
}

int main(int argc, char **argv) {
    static struct call c;
    struct record r = {.length = COUNTS};
    begin_survey("0");
    if (argc > 3 && !strcmp(argv[1], "--cuts")) {
        print_cuts(strtoull(argv[2], NULL, 10), argv[3], argc > 4 ? strtoull(argv[4], NULL, 10) : 1);
        return 0;
    }
    int together = argc > 1 && !strcmp(argv[1], "--all");
    for (int i = 1 + together; i < argc; i++) {
        if (!together) r = (struct record){.length = COUNTS};
        if (take(argv[i], &c)) count(&c, &r);
        if (!together) print_record(&r);
    }
    if (together) print_record(&r);
    return 0;
}
