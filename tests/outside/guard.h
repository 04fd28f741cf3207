/* What the tests from outside share: memory between pages that may not be touched, numbers drawn from a seed, one way to fail. Included
 * before anything else.
 *
 * A buffer is lent ending at the page behind it (end = 1) or starting at the page before it (end = 0). What the library may only read it
 * sees through a view that may only be read. A difference or a fault ends the program with status 1 and says at what. */
#ifndef GUARD_H
#define GUARD_H

#define _GNU_SOURCE
#include "hookbarley.h"
#include <signal.h>
#include <stdarg.h>
#include <stdio.h>
#include <stdlib.h>
#include <string.h>
#include <sys/mman.h>
#include <unistd.h>

enum { GUARD = 1 << 20 };
#define REST SIZE_MAX /* a reach: all of a buffer that is not lent */

struct guarded {
    const char *name;
    size_t capacity;      /* whole pages */
    int input;            /* the library may only read it */
    uint8_t *seen, *ours; /* what the library is given; the same bytes, to be written here */
};

/* ---- failing */
static char where[256] = "start";

/* What is tried from here on. */
__attribute__((format(printf, 1, 2))) static inline void trying(const char *format, ...) {
    va_list a;
    va_start(a, format);
    vsnprintf(where, sizeof where, format, a);
    va_end(a);
}

__attribute__((format(printf, 1, 2), noreturn)) static inline void fail(const char *format, ...) {
    va_list a;
    va_start(a, format);
    fprintf(stderr, "FAILED at %s: ", where);
    vfprintf(stderr, format, a);
    fprintf(stderr, "\n");
    va_end(a);
    exit(1);
}

static inline void fault(int s, siginfo_t *i, void *c) {
    (void)c;
    char t[400];
    int n = snprintf(t, sizeof t, "FAILED at %s: signal %d at %p\n", where, s, i->si_addr);
    if (write(2, t, (size_t)n) < 0) _exit(3);
    _exit(1);
}

/* ---- drawing */
static uint64_t state;

static inline uint64_t draw(void) {
    uint64_t z = state += 0x9e3779b97f4a7c15ull;
    z = (z ^ z >> 30) * 0xbf58476d1ce4e5b9ull;
    z = (z ^ z >> 27) * 0x94d049bb133111ebull;
    return z ^ z >> 31;
}

static inline size_t below(size_t n) { return n ? draw() % n : 0; }

/* ---- buffers */
static inline void make_buffer(struct guarded *b) {
    int fd = memfd_create(b->name, 0);
    if (fd < 0 || ftruncate(fd, (off_t)b->capacity)) { perror("memfd"); exit(2); }
    uint8_t *p = mmap(NULL, b->capacity + 2 * GUARD, PROT_NONE, MAP_PRIVATE | MAP_ANONYMOUS | MAP_NORESERVE, -1, 0);
    if (p == MAP_FAILED) { perror("mmap"); exit(2); }
    b->seen = mmap(p + GUARD, b->capacity, b->input ? PROT_READ : PROT_READ | PROT_WRITE, MAP_SHARED | MAP_FIXED, fd, 0);
    b->ours = b->input ? mmap(NULL, b->capacity, PROT_READ | PROT_WRITE, MAP_SHARED, fd, 0) : b->seen;
    if (b->seen != p + GUARD || b->ours == MAP_FAILED) { perror("mmap"); exit(2); }
    close(fd);
}

/* The seed, the buffers, and faults told as failures. */
static inline void begin(const char *seed, struct guarded *buffers, int count) {
    struct sigaction a = {.sa_sigaction = fault, .sa_flags = SA_SIGINFO};
    static const int signals[] = {SIGSEGV, SIGBUS, SIGILL, SIGFPE};
    setvbuf(stdout, NULL, _IOLBF, 0);
    state = strtoull(seed, NULL, 10);
    for (int i = 0; i < 4; i++) sigaction(signals[i], &a, NULL);
    for (int i = 0; i < count; i++) make_buffer(&buffers[i]);
}

static inline uint8_t *place(const struct guarded *b, size_t n, int end) { return b->seen + (end ? b->capacity - n : 0); }

/* An input's bytes, as the library sees them. */
static inline const void *lay(const struct guarded *b, const void *from, size_t n, int end) {
    uint8_t *p = place(b, n, end);
    if (n) memcpy(b->ours + (p - b->seen), from, n);
    return p;
}

/* The byte that memory beside what is lent is filled with. */
static inline int beside(int poison) { return poison ^ 0x3C; }

/* That memory, on the side where no guard stands, up to `reach`. */
static inline uint8_t *slack(const struct guarded *b, size_t n, int end, size_t reach, size_t *size) {
    size_t rest = b->capacity - n;
    *size = rest < reach ? rest : reach;
    return end ? b->seen + rest - *size : b->seen + n;
}

/* Memory to be written, poisoned, and what lies beside it. */
static inline void *poisoned(const struct guarded *b, size_t n, int end, int poison, size_t reach) {
    size_t size;
    uint8_t *other = slack(b, n, end, reach, &size);
    memset(other, beside(poison), size);
    return memset(place(b, n, end), poison, n);
}

static inline int all(const uint8_t *p, size_t n, int x) { return n == 0 || (*p == x && memcmp(p, p + 1, n - 1) == 0); }

/* The bytes beside it are as `poisoned` left them. */
static inline void untouched(const struct guarded *b, size_t n, int end, int poison, size_t reach) {
    size_t size;
    const uint8_t *other = slack(b, n, end, reach, &size);
    if (!all(other, size, beside(poison))) fail("a byte beside %s was written", b->name);
}

#endif
