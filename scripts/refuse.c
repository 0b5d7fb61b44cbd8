/*
 * Refuses one request for memory of the program that it is preloaded into.
 *
 * FAIL_AT=N refuses the N-th call of malloc, calloc or realloc, counted from 1. With FAIL_SHOW the count of these calls goes to standard error
 * when the program ends, as a line `requests N`.
 */
#define _GNU_SOURCE
#include <dlfcn.h>
#include <stdio.h>
#include <stdlib.h>
#include <unistd.h>

static long count;

static int is_refused(void) {
    static long fail_at = -1;
    if (fail_at < 0) {
        const char *word = getenv("FAIL_AT");
        fail_at = word ? atol(word) : 0;
    }
    return ++count == fail_at;
}

void *malloc(size_t size) {
    static void *(*next)(size_t);
    if (!next) next = (void *(*)(size_t))dlsym(RTLD_NEXT, "malloc");
    return is_refused() ? NULL : next(size);
}

void *calloc(size_t items, size_t size) {
    static void *(*next)(size_t, size_t);
    if (!next) next = (void *(*)(size_t, size_t))dlsym(RTLD_NEXT, "calloc");
    return is_refused() ? NULL : next(items, size);
}

void *realloc(void *old, size_t size) {
    static void *(*next)(void *, size_t);
    if (!next) next = (void *(*)(void *, size_t))dlsym(RTLD_NEXT, "realloc");
    return is_refused() ? NULL : next(old, size);
}

__attribute__((destructor)) static void show(void) {
    if (!getenv("FAIL_SHOW")) return;
    char text[32];
    int length = snprintf(text, sizeof text, "requests %ld\n", count);
    if (write(2, text, (size_t)length) < 0) return;
}
