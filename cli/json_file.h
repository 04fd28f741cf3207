/* What `info` and `fits` do with each file: they open it, count it and, with --json, write it. `json` is NULL without that option. */
#ifndef CLI_JSON_FILE_H
#define CLI_JSON_FILE_H

#include "answers.h"
#include "json.h"

/* Opens a file: 1, with its name, kind and length written and the list of its frames begun; or 0, with what json_unread does. */
int json_file(struct json *json, struct tally *tally, const char *path, struct file *file);

/* A file or folder that cannot be read: counted, said on standard error and written, errno with it. */
void json_unread(struct json *json, struct tally *tally, const char *path);

/* A frame that has no picture. */
void json_refused(struct json *json, uint32_t number);

/* Ends the list of frames, and the file with the answer of file_next. */
void json_file_end(struct json *json, const struct file *file, uint32_t number);

/* Members of the object that is being written: the answer as a number (null where it is the program's own) and in words. */
void json_answer(struct json *json, uint32_t number);

#endif
