/* What the library asks of the C library: memory. */
#include <stdbool.h>
#include <stddef.h>
#include <stdlib.h>

/* Whether there was memory, and where it is. Without memory, `at` is a byte that nobody reads or writes. */
typedef struct {
    bool ok;
    void *at;
} Tried;

static unsigned char nothing;

static Tried tried(void *at) { return (Tried){at != NULL, at ? at : &nothing}; }

/* The library asks for alignments up to 16, which malloc and realloc give. A size of 0 gets an address of its own. */
Tried rattle_alloc(size_t size, size_t align) { return tried(malloc(size ? size : align)); }

Tried rattle_realloc(void *old, size_t kept, size_t size, size_t align) {
    (void)kept;
    return tried(realloc(old, size ? size : align));
}

void rattle_dealloc(void *at) { free(at); }
