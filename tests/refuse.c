/* Refuses one growth of a program: the one of number REFUSE, counted from 1. Without a number it refuses none, and prints how
 * many there were. */
#define _GNU_SOURCE
#include <dlfcn.h>
#include <stdio.h>
#include <stdlib.h>

static unsigned long count, refused;

static int refuses(void) {
    count++;
    return count == refused;
}

__attribute__((constructor)) static void begin(void) {
    const char *number = getenv("REFUSE");
    count = 0;
    refused = number ? strtoul(number, NULL, 10) : 0;
}

__attribute__((destructor)) static void end(void) {
    if (refused == 0)
        fprintf(stderr, "growths %lu\n", count);
}

void *malloc(size_t size) {
    static void *(*next)(size_t);
    if (!next)
        next = (void *(*)(size_t))dlsym(RTLD_NEXT, "malloc");
    return refuses() ? NULL : next(size);
}

void *realloc(void *old, size_t size) {
    static void *(*next)(void *, size_t);
    if (!next)
        next = (void *(*)(void *, size_t))dlsym(RTLD_NEXT, "realloc");
    return refuses() ? NULL : next(old, size);
}
