/* Preloaded into a program: the file named by TORN gives only its first TORN_AFTER bytes, then fails with EIO, to read and to streams of fopen. */
#define _GNU_SOURCE
#include <dlfcn.h>
#include <errno.h>
#include <stdio.h>
#include <stdlib.h>
#include <string.h>
#include <unistd.h>

static size_t left = (size_t)-1;

static int is_torn(int file) {
    char link[64], path[4096];
    const char *torn = getenv("TORN");
    snprintf(link, sizeof link, "/proc/self/fd/%d", file);
    ssize_t n = readlink(link, path, sizeof path - 1);
    if (torn == NULL || n < 0) return 0;
    path[n] = 0;
    if (left == (size_t)-1) left = (size_t)atoi(getenv("TORN_AFTER"));
    return strcmp(path, torn) == 0;
}

ssize_t read(int file, void *bytes, size_t most) {
    ssize_t (*next)(int, void *, size_t) = (ssize_t (*)(int, void *, size_t))dlsym(RTLD_NEXT, "read");
    if (!is_torn(file)) return next(file, bytes, most);
    if (left == 0) {
        errno = EIO;
        return -1;
    }
    ssize_t got = next(file, bytes, most < left ? most : left);
    left -= got > 0 ? (size_t)got : 0;
    return got;
}

static ssize_t read_stream(void *stream, char *bytes, size_t most) { return read(fileno(stream), bytes, most); }

FILE *fopen(const char *path, const char *mode) {
    FILE *(*next)(const char *, const char *) = (FILE * (*)(const char *, const char *)) dlsym(RTLD_NEXT, "fopen");
    FILE *file = next(path, mode);
    if (file == NULL || !is_torn(fileno(file))) return file;
    return fopencookie(file, mode, (cookie_io_functions_t){.read = read_stream});
}
