/* What a program has in place of malloc, realloc and free, which are wrapped when it is linked: it refuses the request for
 * memory with the number `refused`, counted from 1, or all from `refused_from` on, and counts what is asked and what is live. */
#include <stddef.h>

static long asked, live, refused = -1, refused_from = -1;

void *__real_malloc(size_t size);
void *__real_realloc(void *old, size_t size);
void __real_free(void *at);

static int is_refused(void) {
    asked++;
    return asked == refused || (refused_from >= 0 && asked >= refused_from);
}

void *__wrap_malloc(size_t size) {
    if (is_refused()) return NULL;
    void *at = __real_malloc(size);
    live += at != NULL;
    return at;
}

void *__wrap_realloc(void *old, size_t size) {
    if (is_refused()) return NULL;
    void *at = __real_realloc(old, size);
    live += !old && at;
    return at;
}

void __wrap_free(void *at) {
    live -= at != NULL;
    __real_free(at);
}
