/* Makes each call of standard input on a thread with the stack that wgsl.h promises to be enough. Prints how many bytes of the stack
 * it takes, how many are promised, and its status, one line per call. */
#define _GNU_SOURCE
#include "requests.h"
#include <pthread.h>
#include <sys/mman.h>

enum { ROOM = 1 << 20 };

static uint8_t room[ROOM];
static size_t at;
static int status;

static void *idle(void *none) { return none; }

static void *make_call(void *none) {
    size_t len;
    status = ask(at, room, ROOM, &len);
    return none;
}

/* How many bytes of a stack of that size a thread touches. */
static size_t touched(void *(*work)(void *), size_t stack) {
    pthread_attr_t attributes;
    pthread_t thread;
    unsigned char *low = mmap(NULL, stack, PROT_READ | PROT_WRITE, MAP_PRIVATE | MAP_ANONYMOUS, -1, 0);
    size_t unused = 0;
    if (low == MAP_FAILED) return stack;
    memset(low, 0xA5, stack);
    if (pthread_attr_init(&attributes) || pthread_attr_setstack(&attributes, low, stack)) return stack;
    if (pthread_create(&thread, &attributes, work, NULL) || pthread_join(thread, NULL)) return stack;
    while (unused < stack && low[unused] == 0xA5) unused++;
    munmap(low, stack);
    return stack - unused;
}

int main(void) {
    size_t base = touched(idle, WGSL_STACK);
    read_requests();
    for (; at < count; at++) {
        int is_text = calls[called[at]].call == wgsl_source_layout || calls[called[at]].call == wgsl_module_check;
        size_t promised = is_text ? WGSL_SOURCE_STACK : WGSL_STACK, taken = touched(make_call, promised) - base;
        printf("%zu %zu %d\n", taken, promised, status);
    }
    return 0;
}
