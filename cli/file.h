/* A file read whole, and the frames in it. */
#ifndef CLI_FILE_H
#define CLI_FILE_H

#include <stddef.h>
#include <stdint.h>

enum kind { KIND_FRAME, KIND_WEBP, KIND_IVF };

/* The bytes of a WebP file before its frame. */
enum { WEBP_HEAD = 20 };

struct file {
    uint8_t *bytes;
    size_t length;
    enum kind kind; /* by its first four bytes: RIFF, DKIF, or else a bare VP8 frame */
    size_t at;      /* where the next frame is looked for */
    size_t frames;  /* those found so far */
    int rescue;     /* 0 after file_open; else a WebP file that was cut has the frame's bytes that are there */
};

struct frame {
    const uint8_t *bytes;
    size_t length;
};

int is_standard(const char *path); /* "-" */

/* Reads a file, "-" for standard input, or returns 0 with the reason in errno. */
int file_read(const char *path, struct file *file);

/* The same, which says the reason on standard error. */
int file_open(const char *path, struct file *file);

/* The next frame: 1; none left: 0; a file that is at odds with its kind: 0, with the answer's number in *number, which else is 0. The last
 * frame of an IVF file that ends too early has the bytes that are there. */
int file_next(struct file *file, struct frame *frame, uint32_t *number);

void file_close(struct file *file);

/* "WebP file", "IVF file" or "VP8 frame" */
const char *kind_name(enum kind kind);

/* Memory, or the end of the program with status 2. */
void *memory(size_t length);

/* The same memory made longer. */
void *more_memory(void *from, size_t length);

#endif
