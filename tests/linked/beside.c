/* A program with functions of its own that have the names by which the library asks for memory: neither takes the other's.
 * It prints the version of the library and that of the header. */
#include "wgsl.h"
#include <stdio.h>
#include <stdlib.h>
#include <string.h>

void rattle_alloc(void);
void rattle_realloc(void);
void rattle_dealloc(void);

void rattle_alloc(void) { exit(1); }
void rattle_realloc(void) { exit(1); }
void rattle_dealloc(void) { exit(1); }

int main(void) {
    const char *request = "layout struct S 1 a - - vec 3 f32";
    uint8_t room[256] = {0};
    size_t len;
    if (wgsl_answer((const uint8_t *)request, strlen(request), room, sizeof room, &len) != WGSL_ANSWERED) return 1;
    printf("%s %s\n", wgsl_version(), WGSL_VERSION);
    return 0;
}
