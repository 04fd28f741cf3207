/* Folders gone through in the order of names, a thousand names at a time. */
#include "walk.h"
#include "file.h"
#include "save.h"
#include "stop.h"
#include <dirent.h>
#include <errno.h>
#include <stdio.h>
#include <stdlib.h>
#include <string.h>
#include <sys/stat.h>

enum { BATCH = 1000 };

/* The smallest names of a folder that come after another, in order. */
struct batch {
    char *names[BATCH];
    int count;
};

static char *copy_of(const char *text) { return strcpy(memory(strlen(text) + 1), text); }

static char *inside(const char *folder, const char *name) {
    size_t length = strlen(folder);
    char *path = memory(length + strlen(name) + 2);
    sprintf(path, "%s%s%s", folder, length && folder[length - 1] == '/' ? "" : "/", name);
    return path;
}

/* Puts a name in its place; the last goes where there is no more room. */
static void keep(struct batch *batch, const char *name) {
    int low = 0, high = batch->count;
    while (low < high) {
        int middle = (low + high) / 2;
        if (strcmp(batch->names[middle], name) < 0) low = middle + 1;
        else high = middle;
    }
    if (low == BATCH) return;
    if (batch->count == BATCH) free(batch->names[--batch->count]);
    memmove(batch->names + low + 1, batch->names + low, (size_t)(batch->count - low) * sizeof *batch->names);
    batch->names[low] = copy_of(name);
    batch->count++;
}

static int is_name(const char *name) { return strcmp(name, ".") && strcmp(name, ".."); }

/* The next names after `last`, which may be NULL. Returns 0 where the folder cannot be read. */
static int next_names(const char *folder, const char *last, struct batch *batch) {
    DIR *all = opendir(folder);
    const struct dirent *entry;
    batch->count = 0;
    if (!all) return 0;
    while ((entry = readdir(all)))
        if (is_name(entry->d_name) && (!last || strcmp(entry->d_name, last) > 0)) keep(batch, entry->d_name);
    closedir(all);
    return 1;
}

enum { NOTHING, A_FILE, A_FOLDER };

/* What lies in a folder: a link to a file is one, a link to a folder is passed over. What has gone, or a link to nowhere, counts as a file,
 * which says why when it is read. */
static int kind_inside(const char *path) {
    struct stat own, s;
    if (lstat(path, &own) || stat(path, &s)) return A_FILE;
    if (S_ISDIR(s.st_mode)) return S_ISDIR(own.st_mode) ? A_FOLDER : NOTHING;
    return S_ISREG(s.st_mode) ? A_FILE : NOTHING;
}

/* What lies in a folder; its names are told from byte `from` of their paths on. */
static void walk_folder(const struct walk *walk, const char *folder, size_t from) {
    struct batch *batch = memory(sizeof *batch);
    char *last = NULL;
    do {
        if (!next_names(folder, last, batch)) {
            walk->unread(walk->with, folder, errno);
            break;
        }
        free(last);
        last = batch->count == BATCH ? copy_of(batch->names[BATCH - 1]) : NULL;
        for (int i = 0; i < batch->count; i++) {
            char *path = inside(folder, batch->names[i]);
            int kind = kind_inside(path);
            if (kind == A_FOLDER && !stop_asked()) walk_folder(walk, path, from);
            if (kind == A_FILE && !stop_asked()) walk->file(walk->with, path, path + from);
            free(path);
            free(batch->names[i]);
        }
    } while (last && !stop_asked());
    free(last);
    free(batch);
}

int is_folder(const char *path) {
    struct stat s;
    return stat(path, &s) == 0 && S_ISDIR(s.st_mode);
}

void walk(const struct walk *walk, char **names, int count) {
    for (int i = 0; i < count && !stop_asked(); i++) {
        const char *slash = strrchr(names[i], '/');
        size_t length = strlen(names[i]);
        if (is_folder(names[i])) walk_folder(walk, names[i], length + (length && names[i][length - 1] != '/'));
        else walk->file(walk->with, names[i], is_standard(names[i]) ? "stdin" : slash ? slash + 1 : names[i]);
    }
}

static uint64_t count_folder(const char *folder) {
    DIR *all = opendir(folder);
    const struct dirent *entry;
    uint64_t count = 0;
    while (all && (entry = readdir(all))) {
        if (!is_name(entry->d_name)) continue;
        char *path = inside(folder, entry->d_name);
        int kind = kind_inside(path);
        count += kind == A_FOLDER ? count_folder(path) : kind == A_FILE;
        free(path);
    }
    if (all) closedir(all);
    return count;
}

uint64_t walk_count(char **names, int count) {
    uint64_t files = 0;
    for (int i = 0; i < count; i++) files += is_folder(names[i]) ? count_folder(names[i]) : 1;
    return files;
}
