/* The type rules of WGSL for C and C++: one call answers one request, which is a line to `wgsl ask`, in WGSL, or to
 * wgsl_check, in words.
 *
 *     type 1 + vec3f     is answered     vec3<f32>
 *
 * docs/USING.md lists the requests. Link with libwgsl.a or libwgsl.so. The proved library runs on x86-64 Linux, on processors with
 * SSE4.2; the one that cargo builds of the same sources runs wherever Rust does. This header needs C99 or C++11.
 *
 * Types are not validated: counts of components, columns, rows and elements, names, and the attributes `size` and `align`
 * are taken as they are, as in `vec 7 bool` and `array 0 f32`. */
#ifndef WGSL_H
#define WGSL_H
#include <stddef.h>
#include <stdint.h>
#ifdef __cplusplus
extern "C" {
#endif

#define WGSL_VERSION "0.3.0"

/* The version of the library that is linked: WGSL_VERSION, if it is the one of this header. */
const char *wgsl_version(void);

/* What the calls return. */
enum {
    WGSL_ANSWERED = 0,      /* The answer is at the start of the buffer: UTF-8, without a NUL at its end, but with those that
                             * the names in it have. */
    WGSL_RULED_OUT = 1,     /* WGSL's rules refuse the expression. The message is at the start of the buffer. */
    WGSL_UNREADABLE = 2,    /* The request isn't what can be asked, is blank, isn't UTF-8, has a line feed, or is too long. */
    WGSL_OUT_OF_MEMORY = 3, /* malloc or realloc gave no memory. All that the call had got is freed. The library that cargo builds
                             * ends the process instead. */
    WGSL_NO_ROOM = 4        /* The length that is set is more than that of the buffer: ask again with a buffer as long. */
};

enum {
    WGSL_LONGEST = 4096,           /* A longer request is unreadable. */
    WGSL_STACK = 1280 * 1024,      /* Bytes of stack that are enough for any request, */
    WGSL_SOURCE_STACK = 512 * 1024 /* and for any WGSL text: at least twice what the deepest takes. */
};

/* By WGSL's own rules: answers one request in WGSL, and sets *text_len: to the length of the answer or of the message if it
 * returns WGSL_ANSWERED, WGSL_RULED_OUT or WGSL_NO_ROOM, and else to 0. Nothing but these bytes is written.
 *
 * The caller ensures, and nothing checks:
 *   no pointer is NULL, not even with a length of 0, and both lengths are below 2^63;
 *   request_len bytes of the request are readable; buffer_len bytes of the buffer and *text_len are initialised and writable;
 *   the three don't overlap, and no other thread touches them during the call;
 *   WGSL_STACK bytes of stack are left; malloc, realloc and free belong together;
 *   the call is not made from a signal handler, nor in the forked child of a process with several threads.
 *
 * The library keeps nothing between calls: any number of threads may call it at once. It returns for every request. */
uint8_t wgsl_standard_answer(const uint8_t *request, size_t request_len, uint8_t *buffer, size_t buffer_len, size_t *text_len);

/* Explains why a request is unreadable, as the program does on its standard error: `column 9: expected an operand`.
 * It returns WGSL_UNREADABLE, and explains nothing, if the request isn't unreadable. All else is as above. */
uint8_t wgsl_standard_explain(const uint8_t *request, size_t request_len, uint8_t *buffer, size_t buffer_len, size_t *text_len);

/* The same by the rules of wgsl-types for requests in words, `unary - f32`, as the program wgsl_check answers. */
uint8_t wgsl_answer(const uint8_t *request, size_t request_len, uint8_t *buffer, size_t buffer_len, size_t *text_len);
uint8_t wgsl_explain(const uint8_t *request, size_t request_len, uint8_t *buffer, size_t buffer_len, size_t *text_len);

/* Writes what `./wgsl layout --json` prints of a WGSL text, with an empty name of the file: the layouts of its structs, where
 * its variables are bound, and what is wrong, each with its line. docs/USING.md has the fields. It returns WGSL_ANSWERED for
 * every text, WGSL_OUT_OF_MEMORY or WGSL_NO_ROOM. The caller ensures the same, but WGSL_SOURCE_STACK bytes of stack. */
uint8_t wgsl_source_layout(const uint8_t *text, size_t text_len, uint8_t *json, size_t buffer_len, size_t *json_len);

/* Writes what `./wgsl check --json --types` prints of a WGSL text, with an empty name of the file: what is wrong with it by WGSL's
 * rules, each fault with its place, and the types of its expressions. It returns the same, and the caller ensures the same. */
uint8_t wgsl_module_check(const uint8_t *text, size_t text_len, uint8_t *json, size_t buffer_len, size_t *json_len);

enum { WGSL_C = 0, WGSL_RUST = 1, WGSL_NUMPY = 2, WGSL_TYPESCRIPT = 3 };

/* Writes what `./wgsl layout --c`, `--rust`, `--numpy` or `--typescript` prints of a WGSL text: its structs in that language. It
 * returns WGSL_ANSWERED; WGSL_RULED_OUT if the text has errors, which wgsl_source_layout tells, with the code of the structs that have
 * none; WGSL_UNREADABLE for another language; WGSL_OUT_OF_MEMORY or WGSL_NO_ROOM. The caller ensures the same. */
uint8_t wgsl_source_code(const uint8_t *text, size_t text_len, uint8_t *code, size_t buffer_len, size_t *code_len, uint8_t language);

#ifdef __cplusplus
}
#endif
#endif
