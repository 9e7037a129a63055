/* Loaded before the C library: of the calls of malloc and realloc, which are all that the program makes, the one of the number FAIL_AT is
   refused; their count is written to the file COUNT_TO. */
#define _GNU_SOURCE
#include <dlfcn.h>
#include <stdio.h>
#include <stdlib.h>

static long calls;

static int refused(void)
{
    static long fail_at = -1;
    if (fail_at < 0) {
        const char *number = getenv("FAIL_AT");
        fail_at = number ? atol(number) : 0;
    }
    return ++calls == fail_at;
}

void *malloc(size_t size)
{
    static void *(*next)(size_t);
    if (!next)
        next = dlsym(RTLD_NEXT, "malloc");
    return refused() ? NULL : next(size);
}

void *realloc(void *block, size_t size)
{
    static void *(*next)(void *, size_t);
    if (!next)
        next = dlsym(RTLD_NEXT, "realloc");
    return refused() ? NULL : next(block, size);
}

__attribute__((destructor)) static void count(void)
{
    const char *path = getenv("COUNT_TO");
    if (path) {
        long all = calls;
        FILE *file = fopen(path, "w");
        fprintf(file, "%ld", all);
        fclose(file);
    }
}
