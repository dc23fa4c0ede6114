/* Prints how many nanoseconds of processor time a request takes, the best of five rounds. Its status is 1 if one takes more than
 * MOST. */
#include "wgsl.h"
#include <stdio.h>
#include <string.h>
#include <time.h>

enum { ROUNDS = 5, CALLS = 100000, MOST = 3000 };

typedef uint8_t Call(const uint8_t *request, size_t request_len, uint8_t *buffer, size_t buffer_len, size_t *text_len);

static const char *const ported[] = {
    "rank AbstractInt f32",
    "rank array 4 vec 3 AbstractFloat array 4 vec 3 f16",
    "common AbstractInt f32 AbstractFloat",
    "binary + AbstractInt vec 3 f32",
    "binary + bool i32",
    "size array 12 mat 4 4 f32",
    "layout struct S 3 a - - f32 b - - vec 3 f32 c - - f32",
    "ctor array < t f32 n 3 > AbstractInt",
    "call clamp - AbstractInt f32 AbstractFloat",
    "call textureSample - texture_2d f32 sampler vec 2 f32",
};
static const char *const standard[] = {
    "type -f32",
    "type 1 + vec3f",
    "type bool + i32",
    "resolve mat4x4f * vec4f",
    "type vec3(f32, vec2f)",
    "type clamp(1, f32, 1.5)",
    "type textureSample(texture_2d<f32>, sampler, vec2f)",
};

static double nanoseconds(void) {
    struct timespec time;
    clock_gettime(CLOCK_PROCESS_CPUTIME_ID, &time);
    return (double)time.tv_sec * 1e9 + (double)time.tv_nsec;
}

static int measure(Call *call, const char *request) {
    static uint8_t buffer[4096];
    double best = 1e18;
    for (int round = 0; round < ROUNDS; round++) {
        double start = nanoseconds();
        for (int k = 0; k < CALLS; k++) {
            size_t len = 0;
            if (call((const uint8_t *)request, strlen(request), buffer, sizeof buffer, &len) > WGSL_RULED_OUT) return 1;
        }
        double taken = (nanoseconds() - start) / CALLS;
        if (taken < best) best = taken;
    }
    printf("%6.0f ns  %s: %s\n", best, call == wgsl_answer ? "wgsl_answer" : "wgsl_standard_answer", request);
    return best > MOST;
}

int main(void) {
    int slow = 0;
    for (size_t k = 0; k < sizeof ported / sizeof *ported; k++) slow += measure(wgsl_answer, ported[k]);
    for (size_t k = 0; k < sizeof standard / sizeof *standard; k++) slow += measure(wgsl_standard_answer, standard[k]);
    return slow > 0;
}
