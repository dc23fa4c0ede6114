/* Answers each line of standard input, as the program wgsl_check does, and says why one can't be read. */
#include "wgsl.h"
#include <stdio.h>
#include <stdlib.h>
#include <string.h>

/* A room that grows to the longest answer. */
typedef struct {
    uint8_t *at;
    size_t len;
} Room;

/* wgsl_answer or wgsl_explain. */
typedef uint8_t Call(const uint8_t *request, size_t request_len, uint8_t *room, size_t room_len, size_t *text_len);

/* Asks, and asks again with more room if the answer doesn't fit. */
static int ask(Call *call, const char *line, size_t len, Room *room, size_t *text_len) {
    int status = call((const uint8_t *)line, len, room->at, room->len, text_len);
    if (status != WGSL_NO_ROOM) return status;
    uint8_t *more = realloc(room->at, *text_len);
    if (!more) return WGSL_OUT_OF_MEMORY;
    memset(more + room->len, 0, *text_len - room->len);
    *room = (Room){more, *text_len};
    return call((const uint8_t *)line, len, room->at, room->len, text_len);
}

int main(void) {
    Room room = {calloc(256, 1), 256};
    char *line = NULL;
    size_t capacity = 0, text_len = 0;
    int readable = 1;
    if (!room.at) return WGSL_OUT_OF_MEMORY;
    for (unsigned long number = 1;; number++) {
        ssize_t len = getline(&line, &capacity, stdin);
        if (len < 0) break;
        if (len && line[len - 1] == '\n') len--;
        if (len <= WGSL_LONGEST && strspn(line, " \t\r") >= (size_t)len) continue;
        switch (ask(wgsl_answer, line, (size_t)len, &room, &text_len)) {
        case WGSL_ANSWERED:
        case WGSL_RULED_OUT:
            fwrite(room.at, 1, text_len, stdout);
            putchar('\n');
            break;
        case WGSL_UNREADABLE:
            printf("bad line %lu\n", number);
            readable = 0;
            if (ask(wgsl_explain, line, (size_t)len, &room, &text_len) != WGSL_ANSWERED) return WGSL_OUT_OF_MEMORY;
            fprintf(stderr, "line %lu: %.*s\n", number, (int)text_len, (const char *)room.at);
            break;
        default:
            return WGSL_OUT_OF_MEMORY;
        }
    }
    free(line);
    free(room.at);
    return readable ? 0 : 2;
}
