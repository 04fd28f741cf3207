/* The program: its `main` is called again and again in one process, under the name program_main. An input is a line of words, the
 * program's arguments, and behind it the bytes of a file, which the words call `in` or `-`. It runs in the folder that FUZZ_ROOM names,
 * which is empty but for that file; no word may lead out of it. The exit status is one that is documented, and a file that is there at the
 * end is whole: no `.part` is left. */
#define _GNU_SOURCE
#include "fuzz.h"
#include "file.h"
#include "hookbarley.h"
#include <dirent.h>
#include <sys/stat.h>

enum { WORDS = 12, BLOCKS_MOST = 64 };

int program_main(int argc, char **argv);

/* Removes all that lies in a folder but `in`, folders of one level too. Returns whether there was a part of a file. */
static int clear(const char *folder, int deep) {
    DIR *all = opendir(folder);
    const struct dirent *entry;
    int part = 0;
    while (all && (entry = readdir(all))) {
        char path[600];
        size_t length = strlen(entry->d_name);
        if (!strcmp(entry->d_name, ".") || !strcmp(entry->d_name, "..") || (!deep && !strcmp(entry->d_name, "in"))) continue;
        if (length > 5 && !strcmp(entry->d_name + length - 5, ".part")) part = 1;
        snprintf(path, sizeof path, "%s/%s", folder, entry->d_name);
        if (unlink(path) && !deep) part |= clear(path, 1), rmdir(path);
    }
    if (all) closedir(all);
    return part;
}

/* A huge picture takes long and shows nothing that a small one does not. */
static int is_huge(const char *path) {
    struct file file;
    struct frame frame;
    uint32_t number;
    int huge = 0;
    CHECK(file_read(path, &file));
    for (file.rescue = 1; !huge && file_next(&file, &frame, &number);) {
        int32_t header[HOOKBARLEY_ENTRIES];
        struct hookbarley_tile tile;
        huge = file.frames > 8 || (!hookbarley_take(frame.bytes, frame.length, header, &tile) && hookbarley_blocks(&tile) > BLOCKS_MOST);
    }
    file_close(&file);
    return huge;
}

static void put(const char *path, const uint8_t *bytes, size_t length) {
    FILE *out = fopen(path, "wb");
    CHECK(out && fwrite(bytes, 1, length, out) == length && !fclose(out));
}

/* The words of a line, at most WORDS, each in memory of its own; -1 where one leads out of the folder or asks for many processes. */
static int split(char *line, char **argv) {
    int argc = 1;
    argv[0] = strdup("hookbarley");
    for (char *word = strtok(line, " "); word; word = strtok(NULL, " ")) {
        if (argc == WORDS || strchr(word, '/') || !strcmp(word, "..")) return -1;
        if (!strncmp(word, "-j", 2) && word[2] && strcmp(word, "-j2")) return -1;
        if (argc > 1 && !strcmp(argv[argc - 1], "-j") && strcmp(word, "2") && strcmp(word, "1")) return -1;
        argv[argc++] = strdup(word);
    }
    return argc;
}

static void begin(void) {
    static int begun;
    if (begun++) return;
    const char *room = getenv("FUZZ_ROOM");
    CHECK(room && !chdir(room));
    CHECK(freopen("/dev/null", "wb", stdout));
    if (!getenv("FUZZ_SAID")) CHECK(freopen("/dev/null", "wb", stderr));
}

static void run(int argc, char **argv) {
    CHECK(freopen("in", "rb", stdin));
    int status = program_main(argc, argv);
    CHECK(status >= 0 && status <= 2);
    CHECK(!clear(".", 0));
}

static void one(const uint8_t *bytes, size_t length) {
    const uint8_t *end = memchr(bytes, '\n', length);
    char line[200] = {0}, *argv[WORDS + 1] = {0}, *words[WORDS];
    if (!end || (size_t)(end - bytes) >= sizeof line) return;
    memcpy(line, bytes, (size_t)(end - bytes));
    begin();
    put("in", end + 1, length - (size_t)(end + 1 - bytes));
    int argc = split(line, argv);
    memcpy(words, argv, sizeof words); /* the program moves its own */
    if (argc > 0 && !is_huge("in")) run(argc, argv);
    for (int i = 0; i < WORDS; i++) free(words[i]);
}
