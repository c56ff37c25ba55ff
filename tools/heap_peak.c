/* Tells what a process asks of malloc at most: HEAP_LOG=FILE LD_PRELOAD=./heap_peak.so PROGRAM.
 * Bytes are counted as they are asked for, from the last time on that its standard input gave bytes: what it held then doesn't count.
 * A block that grows counts twice while it may have to move. At the end the file holds the greatest count, in bytes. */
#define _GNU_SOURCE
#include <dlfcn.h>
#include <fcntl.h>
#include <stddef.h>
#include <stdio.h>
#include <stdlib.h>
#include <string.h>
#include <unistd.h>

enum { HEAD = 16 };

static long held, most, start;

static void add(long bytes) {
    held += bytes;
    if (held > most) most = held;
}

/* The length of a block stands before it. */
static void *entered(void *block, size_t size) {
    if (!block) return NULL;
    *(size_t *)block = size;
    add((long)size);
    return (char *)block + HEAD;
}

static size_t size_of(void *bytes) {
    return *(size_t *)((char *)bytes - HEAD);
}

void *malloc(size_t size) {
    static void *(*next)(size_t);
    if (!next) next = (void *(*)(size_t))dlsym(RTLD_NEXT, "malloc");
    return entered(next(size + HEAD), size);
}

void free(void *bytes) {
    static void (*next)(void *);
    if (!next) next = (void (*)(void *))dlsym(RTLD_NEXT, "free");
    if (!bytes) return;
    held -= (long)size_of(bytes);
    next((char *)bytes - HEAD);
}

void *calloc(size_t count, size_t size) {
    void *bytes = size && count > (size_t)-1 / size ? NULL : malloc(count * size);
    return bytes ? memset(bytes, 0, count * size) : NULL;
}

void *realloc(void *old, size_t size) {
    void *bytes = malloc(size);
    if (!old || !bytes) return bytes;
    memcpy(bytes, old, size < size_of(old) ? size : size_of(old));
    free(old);
    return bytes;
}

ssize_t read(int file, void *bytes, size_t size) {
    static ssize_t (*next)(int, void *, size_t);
    if (!next) next = (ssize_t (*)(int, void *, size_t))dlsym(RTLD_NEXT, "read");
    ssize_t got = next(file, bytes, size);
    if (file == 0 && got > 0) start = most = held;
    return got;
}

__attribute__((destructor)) static void tell(void) {
    const char *path = getenv("HEAP_LOG");
    char line[32];
    int length = snprintf(line, sizeof line, "%ld\n", most - start);
    int file = path ? open(path, O_WRONLY | O_CREAT | O_TRUNC, 0644) : -1;
    if (file < 0 || write(file, line, (size_t)length) < 0) return;
    close(file);
}
