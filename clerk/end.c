/* A library to preload: the process ends at its N-th call that reaches the system (END_AT=N), without carrying it out, or, with END_HALF set,
   after half of a write. With END_SWAP it does not end there: the file that END_SWAP names is renamed to day.frames first. Calls are counted in
   the file that END_COUNT names when the process ends by itself. */
#define _GNU_SOURCE
#include <dlfcn.h>
#include <fcntl.h>
#include <stdarg.h>
#include <stdio.h>
#include <stdlib.h>
#include <sys/types.h>
#include <unistd.h>

static long calls;
static long end_at = -1;
static int half;
static const char *count;

static void begin(void) __attribute__((constructor));
static void begin(void) {
    const char *at = getenv("END_AT");
    end_at = at ? atol(at) : -1;
    half = getenv("END_HALF") != NULL;
    count = getenv("END_COUNT");
}

static void finish(void) __attribute__((destructor));
static void finish(void) {
    if (count == NULL) return;
    FILE *f = fopen(count, "w");
    if (f == NULL) return;
    fprintf(f, "%ld\n", calls);
    fclose(f);
}

typedef int (*rename_t)(const char *, const char *);

/* Whether this is the call at which the process ends. */
static int due(void) {
    const char *swap = getenv("END_SWAP");
    calls++;
    if (calls != end_at) return 0;
    if (swap == NULL) return 1;
    ((rename_t)dlsym(RTLD_NEXT, "rename"))(swap, "day.frames");
    return 0;
}

#define NEXT(type, name) type next_##name = (type)dlsym(RTLD_NEXT, #name)

typedef int (*open_t)(const char *, int, ...);
int open(const char *path, int flags, ...) {
    va_list rest;
    va_start(rest, flags);
    mode_t mode = (flags & O_CREAT) ? va_arg(rest, mode_t) : 0;
    va_end(rest);
    if (due()) _exit(99);
    NEXT(open_t, open);
    return next_open(path, flags, mode);
}

int open64(const char *path, int flags, ...) {
    va_list rest;
    va_start(rest, flags);
    mode_t mode = (flags & O_CREAT) ? va_arg(rest, mode_t) : 0;
    va_end(rest);
    if (due()) _exit(99);
    NEXT(open_t, open64);
    return next_open64(path, flags, mode);
}

typedef ssize_t (*write_t)(int, const void *, size_t);
ssize_t write(int fd, const void *bytes, size_t n) {
    NEXT(write_t, write);
    if (due()) {
        if (half) next_write(fd, bytes, n / 2);
        _exit(99);
    }
    return next_write(fd, bytes, n);
}

typedef ssize_t (*read_t)(int, void *, size_t);
ssize_t read(int fd, void *bytes, size_t n) {
    if (due()) _exit(99);
    NEXT(read_t, read);
    return next_read(fd, bytes, n);
}

typedef int (*descriptor_t)(int);
int fsync(int fd) {
    if (due()) _exit(99);
    NEXT(descriptor_t, fsync);
    return next_fsync(fd);
}

int close(int fd) {
    if (due()) _exit(99);
    NEXT(descriptor_t, close);
    return next_close(fd);
}

int rename(const char *from, const char *to) {
    if (due()) _exit(99);
    NEXT(rename_t, rename);
    return next_rename(from, to);
}

typedef int (*unlink_t)(const char *);
int unlink(const char *path) {
    if (due()) _exit(99);
    NEXT(unlink_t, unlink);
    return next_unlink(path);
}
