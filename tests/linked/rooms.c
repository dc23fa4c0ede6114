/* Asks each request with a room that is large enough, exact, too small by one, and empty; and then all of them in two threads at
 * once: each answer is that of one thread. */
#include "requests.h"
#include <pthread.h>

enum { ROUNDS = 20 };

static uint8_t large[LONG_ANSWER], room[LONG_ANSWER];
static uint8_t *wanted[MOST];
static size_t wanted_len[MOST];
static int wanted_status[MOST];

/* Whether a call that returns this has written to the room. */
static int is_written(int status) { return status == WGSL_ANSWERED || status == WGSL_RULED_OUT; }

static void expect(size_t k, size_t room_len, int status, size_t answer_len) {
    size_t len = 77;
    fill(room);
    int found = ask(k, room, room_len, &len);
    if (found != status || len != answer_len) wrong(k, "another status or length");
    size_t written = is_written(found) ? len : 0;
    if (memcmp(room, large, written) || !is_filled(room, written)) wrong(k, "the room is written otherwise");
}

/* Asks a request in rooms of each kind, and keeps its answer. */
static void ask_in_rooms(size_t k) {
    size_t len = 77;
    int status = wanted_status[k] = ask(k, large, LONG_ANSWER, &len);
    if (!is_written(status)) {
        if (status != WGSL_UNREADABLE || len) wrong(k, "neither answered nor unreadable");
        expect(k, 0, status, 0);
    } else {
        expect(k, LONG_ANSWER, status, len);
        expect(k, len, status, len);
        if (len) expect(k, len - 1, WGSL_NO_ROOM, len);
        if (len) expect(k, 0, WGSL_NO_ROOM, len);
    }
    wanted_len[k] = len;
    wanted[k] = malloc(len + 1);
    if (!wanted[k]) exit(1);
    memcpy(wanted[k], large, len);
}

/* In their order, or backwards. */
static void *ask_all(void *in_order) {
    uint8_t *own = calloc(LONG_ANSWER, 1);
    if (!own) exit(1);
    for (size_t i = 0; i < ROUNDS * count; i++) {
        size_t k = in_order ? i % count : count - 1 - i % count, len = 0;
        int status = ask(k, own, LONG_ANSWER, &len);
        if (status != wanted_status[k] || len != wanted_len[k] || memcmp(own, wanted[k], len))
            wrong(k, "another answer beside a thread");
    }
    free(own);
    return NULL;
}

int main(void) {
    pthread_t one, two;
    read_requests();
    for (size_t k = 0; k < count; k++) ask_in_rooms(k);
    if (pthread_create(&one, NULL, ask_all, NULL) || pthread_create(&two, NULL, ask_all, room)) return 1;
    if (pthread_join(one, NULL) || pthread_join(two, NULL)) return 1;
    printf("%zu requests in rooms of each size, and %zu in each of two threads\n", count, ROUNDS * count);
    return 0;
}
