/* The files that names stand for: those of folders too, whatever lies in them, in the order of their names. */
#ifndef CLI_WALK_H
#define CLI_WALK_H

#include <stdint.h>

struct walk {
    /* `name` is its path inside of the folder that was named, or the last part of the file's own name. */
    void (*file)(void *with, const char *path, const char *name);
    void (*unread)(void *with, const char *path, int why); /* a folder that cannot be read, and errno */
    void *with;
};

/* Every file, until the program is asked to stop. Of a folder it keeps a thousand names at a time, so that memory does not grow with their number. A link to a folder is
 * followed where it is named itself, and not inside of a folder; what is neither file nor folder is passed over there. */
void walk(const struct walk *walk, char **names, int count);

/* How many files it will be. */
uint64_t walk_count(char **names, int count);

int is_folder(const char *path);

#endif
