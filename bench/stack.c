/* How much stack the calls use: stack FILE.case FILE.webp, the same tile twice. Each runs on a stack of its own, filled with one byte before
 * it; what is no longer that byte was used. The case is decoded, whole and with each partition cut to half, so that the way of a missing
 * byte is measured too; it is recoded and deblocked in both kinds; then the file's frame is taken and shown. No call uses a heap. */
#include "../examples/c/case_file.h"
#include <pthread.h>

enum { ROOM = 1 << 20, FILL = 0xA5 };

static struct case_file c;
static struct hookbarley_memory memory;
static size_t cut_first, cut_tokens;
static uint32_t number;

static void *nothing(void *unused) { return unused; }

static void *decode(void *unused) {
    struct hookbarley_tile cut = c.tile;
    size_t finished;
    uint64_t first_reads, token_reads;
    cut.first_length /= cut_first;
    for (int i = 0; i < HOOKBARLEY_PARTITIONS; i++) cut.token_lengths[i] /= cut_tokens;
    number = hookbarley_picture(c.bytes, c.length, c.header, &cut, &memory, &finished, &first_reads, &token_reads);
    return unused;
}

static void *recode(void *unused) {
    static uint8_t out[sizeof c.bytes];
    struct hookbarley_tile result;
    number = hookbarley_recode_picture(c.bytes, c.length, c.header, &c.tile, &memory, out, sizeof out, &result);
    return unused;
}

static void *deblock(void *simple) {
    c.tile.simple = simple != NULL;
    number = hookbarley_deblock_picture(&c.tile, &memory);
    return NULL;
}

/* The file's frame: its header taken, and all the way to the screen. Entries and tile do not stand on this stack. */
static uint8_t file[1 << 20];
static size_t frame_start, frame_length;
static int32_t header[HOOKBARLEY_ENTRIES];

static void *take(void *unused) {
    static struct hookbarley_tile taken;
    number = hookbarley_take(file + frame_start, frame_length, header, &taken);
    return unused;
}

static void *show(void *unused) {
    size_t finished;
    number = hookbarley_show(file + frame_start, frame_length, header, &c.tile, &memory, &finished);
    return unused;
}

static int read_webp(const char *name) {
    FILE *f = fopen(name, "rb");
    if (!f) return 0;
    size_t n = fread(file, 1, sizeof file, f);
    fclose(f);
    return hookbarley_webp_find(file, n, &frame_start, &frame_length) == 0;
}

/* The bytes of stack that a thread running it has used. */
static size_t used(void *(*run)(void *), void *argument) {
    static uint8_t room[ROOM] __attribute__((aligned(4096)));
    pthread_attr_t how;
    pthread_t thread;
    memset(room, FILL, ROOM);
    if (pthread_attr_init(&how) || pthread_attr_setstack(&how, room, ROOM) || pthread_create(&thread, &how, run, argument) ||
        pthread_join(thread, NULL)) exit(2);
    pthread_attr_destroy(&how);
    size_t low = 0;
    while (low < ROOM && room[low] == FILL) low++;
    return ROOM - low;
}

int main(int argc, char **argv) {
    if (argc != 3 || !case_read(argv[1], &c) || !case_side(c.tile.width) || !case_side(c.tile.height) || !read_webp(argv[2])) return 2;
    hookbarley_lend(&c.tile, malloc(hookbarley_room(&c.tile)), &memory);
    if (!memory.y) return 2;
    size_t none = used(nothing, NULL), ways[3][2] = {{1, 1}, {2, 1}, {1, 2}};
    for (int i = 0; i < 3; i++) {
        cut_first = ways[i][0], cut_tokens = ways[i][1];
        size_t n = used(decode, NULL) - none;
        printf("decode, answer %u: %zu bytes\n", number, n);
    }
    size_t n = used(recode, NULL) - none;
    printf("recode, answer %u: %zu bytes\n", number, n);
    n = used(deblock, NULL) - none;
    printf("deblock, answer %u: %zu bytes\n", number, n);
    n = used(deblock, &c) - none;
    printf("deblock, simple, answer %u: %zu bytes\n", number, n);
    n = used(take, NULL) - none;
    printf("frame, answer %u: %zu bytes\n", number, n);
    n = used(show, NULL) - none;
    printf("key_frame, answer %u: %zu bytes\n", number, n);
    return 0;
}
