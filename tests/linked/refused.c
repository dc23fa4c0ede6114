/* Refuses each request for memory of each call in turn, and then all from it on. Linked with malloc, realloc and free
 * wrapped. The call says so, writes nothing and keeps nothing, and the same call then answers as before. A call that makes no
 * such request answers the same where every one would be refused. Prints how many requests for memory each call makes, one
 * number per line. */
#include "requests.h"
#include "wrapped.h"

static uint8_t wanted[LONG_ANSWER], room[LONG_ANSWER];

/* One call with that request for memory refused, or all from it on. */
static void refuse(size_t k, long one, long from, int status, size_t wanted_len) {
    size_t len = 77;
    long before = live;
    fill(room);
    asked = 0, refused = one, refused_from = from;
    int found = ask(k, room, LONG_ANSWER, &len);
    refused = refused_from = -1;
    if (found != WGSL_OUT_OF_MEMORY || len || !is_filled(room, 0)) wrong(k, "refused memory is told otherwise");
    if (live != before) wrong(k, "memory is kept");
    if (ask(k, room, LONG_ANSWER, &len) != status || len != wanted_len || memcmp(room, wanted, len))
        wrong(k, "another answer after refused memory");
}

/* The call with every request for memory refused, of which it makes none. */
static void refuse_all(size_t k, int status, size_t wanted_len) {
    size_t len = 77;
    asked = 0, refused_from = 1;
    int found = ask(k, room, LONG_ANSWER, &len);
    refused_from = -1;
    if (asked || found != status || len != wanted_len || memcmp(room, wanted, len))
        wrong(k, "another answer without memory");
}

int main(void) {
    read_requests();
    for (size_t k = 0; k < count; k++) {
        size_t len = 0;
        long before = live;
        asked = 0;
        int status = ask(k, wanted, LONG_ANSWER, &len);
        long needed = asked;
        if (live != before) wrong(k, "memory is kept");
        for (long n = 1; n <= needed; n++) {
            refuse(k, n, -1, status, len);
            refuse(k, -1, n, status, len);
        }
        if (!needed) refuse_all(k, status, len);
        printf("%ld\n", needed);
    }
    return 0;
}
