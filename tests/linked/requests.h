/* What the tests of the linked library share: the requests, one per line of standard input. A line is the name of a call and
 * its request. */
#include "wgsl.h"
#include <stdio.h>
#include <stdlib.h>
#include <string.h>

enum { MOST = 16000, LONG_ANSWER = 1 << 16 };

static char *lines[MOST];
static size_t lengths[MOST];
static size_t count;

static void wrong(size_t k, const char *what) {
    printf("%s: %.1000s\n", what, lines[k]);
    exit(1);
}

static const struct {
    const char *name;
    uint8_t (*call)(const uint8_t *, size_t, uint8_t *, size_t, size_t *);
} calls[] = {
    {"answer", wgsl_answer}, {"explain", wgsl_explain}, {"standard_answer", wgsl_standard_answer},
    {"standard_explain", wgsl_standard_explain}, {"source_layout", wgsl_source_layout}, {"module_check", wgsl_module_check},
};
static uint8_t *requests[MOST];
static size_t called[MOST];

/* Reads the name of the call and the request. */
static void read_line(size_t k) {
    size_t name = strcspn(lines[k], " ");
    while (strlen(calls[called[k]].name) != name || memcmp(calls[called[k]].name, lines[k], name))
        if (++called[k] == sizeof calls / sizeof *calls) wrong(k, "no such call");
    requests[k] = (uint8_t *)lines[k] + name + 1;
    lengths[k] -= name + 1;
}

static int ask(size_t k, uint8_t *room, size_t room_len, size_t *len) {
    return calls[called[k]].call(requests[k], lengths[k], room, room_len, len);
}

static void read_requests(void) {
    size_t capacity = 0;
    while (count < MOST) {
        ssize_t len = getline(&lines[count], &capacity, stdin);
        if (len < 0) break;
        if (lines[count][len - 1] == '\n') lines[count][--len] = 0;
        lengths[count] = (size_t)len;
        read_line(count);
        count++;
        capacity = 0;
    }
}

/* Fills a room, and tells whether all of it from there on is as it was filled. */
static inline void fill(uint8_t *room) { memset(room, 0xAA, LONG_ANSWER); }

static inline int is_filled(const uint8_t *room, size_t from) {
    size_t left = LONG_ANSWER - from;
    return !left || (room[from] == 0xAA && !memcmp(room + from, room + from + 1, left - 1));
}
