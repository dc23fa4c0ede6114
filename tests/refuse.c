/* Refuses a request for memory: the one whose number REFUSE gives, counted from 1, or each from the one that REFUSE_FROM
   gives. Where it refuses one, it writes a byte to the standard error. */
#define _GNU_SOURCE
#include <dlfcn.h>
#include <errno.h>
#include <stddef.h>
#include <stdlib.h>
#include <unistd.h>

static long asked;

static long number_in(const char *name)
{
    const char *text = getenv(name);
    return text ? atol(text) : 0;
}

static int refused(void)
{
    static long one = -1;
    static long from;
    if (one < 0) {
        one = number_in("REFUSE");
        from = number_in("REFUSE_FROM");
    }
    ++asked;
    if (asked != one && (from == 0 || asked < from))
        return 0;
    errno = write(STDERR_FILENO, "!", 1) == 1 ? ENOMEM : errno;
    return 1;
}

void *malloc(size_t size)
{
    static void *(*next)(size_t);
    if (!next)
        next = dlsym(RTLD_NEXT, "malloc");
    return refused() ? NULL : next(size);
}

void *realloc(void *old, size_t size)
{
    static void *(*next)(void *, size_t);
    if (!next)
        next = dlsym(RTLD_NEXT, "realloc");
    return refused() ? NULL : next(old, size);
}
