/* For refuse-memory: a library to load before a program, in which one request for memory is refused, the one that REFUSE counts, from 1 on.
 * When the program ends, it tells on standard error how many requests there were. */
#define _GNU_SOURCE
#include <dlfcn.h>
#include <stdio.h>
#include <stdlib.h>

static unsigned long made, refused;

static int is_refused(void)
{
    return ++made == refused;
}

__attribute__((constructor)) static void begin(void)
{
    const char *number = getenv("REFUSE");
    refused = number ? strtoul(number, 0, 10) : 0;
    made = 0;
}

__attribute__((destructor)) static void end(void)
{
    dprintf(2, "%lu\n", made);
}

void *malloc(size_t size)
{
    static void *(*next)(size_t);
    if (!next)
        *(void **)&next = dlsym(RTLD_NEXT, "malloc");
    return is_refused() ? 0 : next(size);
}

void *realloc(void *old, size_t size)
{
    static void *(*next)(void *, size_t);
    if (!next)
        *(void **)&next = dlsym(RTLD_NEXT, "realloc");
    return is_refused() ? 0 : next(old, size);
}
