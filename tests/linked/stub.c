/* Stands in the library's place, to see what each language makes of a status. The first word of a request says what is
 * returned:
 *
 *   say TEXT    the answer TEXT
 *   why TEXT    the answer TEXT
 *   refuse TEXT the message TEXT of a refusal
 *   meet TEXT   the answer TEXT, once another thread has its answer in its room too
 *   memory      out of memory
 *   memory N    out of memory, once there is room for N bytes
 *   status N    the status N
 *
 * Any other request is unreadable, which is explained by the request itself, but for `unexplained`: that runs out of memory.
 * A request at NULL has a status that wgsl.h doesn't name. Requests by WGSL's own rules are answered in the same way. A
 * WGSL text is answered as a request is. The version is that of wgsl.h, or OTHER_VERSION. */
#include "wgsl.h"
#include <sched.h>
#include <stdatomic.h>
#include <stdlib.h>
#include <string.h>

/* The rest of a request that begins with the word, or NULL. */
static const char *after(const char *word, const char *request, size_t len) {
    size_t word_len = strlen(word);
    if (len < word_len || memcmp(request, word, word_len)) return NULL;
    return len == word_len ? request + len : request[word_len] == ' ' ? request + word_len + 1 : NULL;
}

static int number_at(const char *digits, const char *end) {
    int number = 0;
    for (; digits < end; digits++) number = number * 10 + (*digits - '0');
    return number;
}

static uint8_t write(uint8_t status, const char *text, const char *end, uint8_t *room, size_t room_len, size_t *text_len) {
    *text_len = (size_t)(end - text);
    if (room_len < *text_len) return WGSL_NO_ROOM;
    memcpy(room, text, *text_len);
    return status;
}

static uint8_t say(const char *text, const char *end, uint8_t *room, size_t room_len, size_t *text_len) {
    return write(WGSL_ANSWERED, text, end, room, room_len, text_len);
}

/* Waits until a second call has come, for some seconds at most, and no more if none came in that time. */
static void meet(void) {
    static atomic_uint came, alone;
    unsigned mine = atomic_fetch_add(&came, 1);
    for (long turn = 0; atomic_load(&came) <= (mine | 1) && !atomic_load(&alone); turn++) {
        sched_yield();
        if (turn == 10000000) atomic_store(&alone, 1);
    }
}

uint8_t wgsl_answer(const uint8_t *bytes, size_t len, uint8_t *room, size_t room_len, size_t *text_len) {
    const char *request = (const char *)bytes, *end = request + len, *rest;
    *text_len = 0;
    if (!request) return 255;
    if ((rest = after("say", request, len))) return say(rest, end, room, room_len, text_len);
    if ((rest = after("why", request, len))) return say(rest, end, room, room_len, text_len);
    if ((rest = after("refuse", request, len))) return write(WGSL_RULED_OUT, rest, end, room, room_len, text_len);
    if ((rest = after("meet", request, len))) {
        uint8_t status = say(rest, end, room, room_len, text_len);
        if (status == WGSL_ANSWERED) meet();
        return status;
    }
    if ((rest = after("memory", request, len))) {
        size_t needed = (size_t)number_at(rest, end);
        if (room_len >= needed) return WGSL_OUT_OF_MEMORY;
        *text_len = needed;
        return WGSL_NO_ROOM;
    }
    if ((rest = after("status", request, len))) return (uint8_t)number_at(rest, end);
    return WGSL_UNREADABLE;
}

uint8_t wgsl_explain(const uint8_t *bytes, size_t len, uint8_t *room, size_t room_len, size_t *text_len) {
    const char *request = (const char *)bytes;
    *text_len = 0;
    if (after("unexplained", request, len)) return WGSL_OUT_OF_MEMORY;
    return say(request, request + len, room, room_len, text_len);
}

#define AS(name, other) \
    uint8_t name(const uint8_t *bytes, size_t len, uint8_t *room, size_t room_len, size_t *text_len) { \
        return other(bytes, len, room, room_len, text_len); \
    }
AS(wgsl_standard_answer, wgsl_answer)
AS(wgsl_standard_explain, wgsl_explain)
AS(wgsl_source_layout, wgsl_answer)
AS(wgsl_module_check, wgsl_answer)

#ifndef OTHER_VERSION
#define OTHER_VERSION WGSL_VERSION
#endif

const char *wgsl_version(void) { return OTHER_VERSION; }

uint8_t wgsl_source_code(const uint8_t *bytes, size_t len, uint8_t *room, size_t room_len, size_t *text_len, uint8_t language) {
    return language == WGSL_NUMPY ? wgsl_answer(bytes, len, room, room_len, text_len) : WGSL_UNREADABLE;
}
