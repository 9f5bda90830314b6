/* Lets one allocation of a program fail, the one of number FAIL_AT from 0 on. Without that number it fails none.
 * How many there were goes to the file COUNT_TO at the end. Loaded by LD_PRELOAD; .ci/allocations does that. */
#define _GNU_SOURCE
#include <dlfcn.h>
#include <errno.h>
#include <stdio.h>
#include <stdlib.h>

static long made;

static int fails(void)
{
    const char *at = getenv("FAIL_AT");

    return made++ == (at ? atol(at) : -1);
}

void *malloc(size_t size)
{
    static void *(*next)(size_t);

    if (!next) {
        next = (void *(*)(size_t))dlsym(RTLD_NEXT, "malloc");
    }
    if (fails()) {
        errno = ENOMEM;
        return NULL;
    }
    return next(size);
}

void *realloc(void *old, size_t size)
{
    static void *(*next)(void *, size_t);

    if (!next) {
        next = (void *(*)(void *, size_t))dlsym(RTLD_NEXT, "realloc");
    }
    if (fails()) {
        errno = ENOMEM;
        return NULL;
    }
    return next(old, size);
}

__attribute__((destructor)) static void tell(void)
{
    const char *name = getenv("COUNT_TO");
    long count = made;
    FILE *file = name ? fopen(name, "w") : NULL;

    if (file) {
        fprintf(file, "%ld\n", count);
        fclose(file);
    }
}
