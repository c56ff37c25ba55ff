/* Refuses one allocation of a process: REFUSE_NTH=N LD_PRELOAD=./refuse_nth.so PROGRAM.
 * Where REFUSE_LOG names a file, it says at the end whether the Nth allocation was ever asked for: "refused" or "whole". */
#define _GNU_SOURCE
#include <dlfcn.h>
#include <fcntl.h>
#include <stddef.h>
#include <stdlib.h>
#include <string.h>
#include <unistd.h>

static long left = -1;
static int refused;

static int refuse_this_one(void) {
    if (left < 0) {
        const char *nth = getenv("REFUSE_NTH");
        left = nth ? atol(nth) : 0;
    }
    if (left == 0 || --left != 0) return 0;
    refused = 1;
    return 1;
}

void *malloc(size_t size) {
    static void *(*next)(size_t);
    if (!next) next = (void *(*)(size_t))dlsym(RTLD_NEXT, "malloc");
    return refuse_this_one() ? NULL : next(size);
}

void *realloc(void *old, size_t size) {
    static void *(*next)(void *, size_t);
    if (!next) next = (void *(*)(void *, size_t))dlsym(RTLD_NEXT, "realloc");
    return refuse_this_one() ? NULL : next(old, size);
}

__attribute__((destructor)) static void tell(void) {
    const char *path = getenv("REFUSE_LOG");
    const char *word = refused ? "refused" : "whole";
    int file = path ? open(path, O_WRONLY | O_CREAT | O_TRUNC, 0644) : -1;
    if (file < 0) return;
    if (write(file, word, strlen(word)) < 0) return;
    close(file);
}
