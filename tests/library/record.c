/* Wraps the functions of libwagtenib, and writes calls of them into the file RECORDING, for replays.py. Of each function and code the first calls are written. */
#include <stdio.h>
#include <stdlib.h>
#include <string.h>
#include <sys/file.h>

#include "calls.h"

enum { OF_EACH = 15, CODES = 256, LARGEST = 1 << 22 };

/* replays.py writes FUNCTION(NAME, HAS_CODE, PARAMETERS) of each function. */
#define FUNCTION(name, has_code, ...) extern __attribute__((visibility("hidden"))) call_of_c real_##name;
#include "functions.h"
#undef FUNCTION

#define FUNCTION(name, has_code, ...) {#name, real_##name, has_code, {__VA_ARGS__}},
static const struct function functions[] = {
#include "functions.h"
};
#undef FUNCTION

enum { FUNCTIONS = sizeof functions / sizeof *functions };

static unsigned written[FUNCTIONS][CODES];
static FILE *file;

/* Writes the arguments of a call, with what the pointers pointed to before it. */
static void write_call(uint64_t number, const uint64_t *arguments, const unsigned char *before) {
    const struct function *function = &functions[number];
    const char *path = getenv("RECORDING");
    if (path == NULL) return;
    if (file == NULL && (file = fopen(path, "ab")) == NULL) abort();
    flock(fileno(file), LOCK_EX);
    fwrite(&number, sizeof number, 1, file);
    for (int i = 0; function->parameters[i].kind != 0; i++) {
        if (function->parameters[i].kind == 'n') {
            fwrite(&arguments[i], sizeof *arguments, 1, file);
            continue;
        }
        uint64_t length = bytes_at(function, arguments, i);
        fwrite(&length, sizeof length, 1, file);
        fwrite(before, 1, length, file);
        before += length;
    }
    if (fflush(file) != 0 || ferror(file)) abort();
    flock(fileno(file), LOCK_UN);
}

static uint64_t recorded(uint64_t number, PARAMETERS) {
    const struct function *function = &functions[number];
    const uint64_t arguments[] = {ARGUMENTS};
    size_t all = 0;
    for (int i = 0; function->parameters[i].kind != 0; i++) all += function->parameters[i].kind != 'n' ? bytes_at(function, arguments, i) : 0;
    unsigned char *before = all <= LARGEST ? malloc(all + 1) : NULL, *at = before;
    for (int i = 0; before != NULL && function->parameters[i].kind != 0; i++) {
        if (function->parameters[i].kind == 'n') continue;
        memcpy(at, (const void *)(uintptr_t)arguments[i], bytes_at(function, arguments, i));
        at += bytes_at(function, arguments, i);
    }
    uint64_t code = function->call(ARGUMENTS);
    unsigned of = function->has_code ? (uint32_t)code % CODES : 0;
    if (before != NULL && written[number][of]++ < OF_EACH) write_call(number, arguments, before);
    free(before);
    return code;
}

enum {
#define FUNCTION(name, has_code, ...) number_of_##name,
#include "functions.h"
#undef FUNCTION
};

/* The declarations of the header would not be those of these wrappers, so they have names of their own in C. */
#define FUNCTION(name, has_code, ...)                                                                   \
    __attribute__((visibility("default"))) uint64_t wrapped_##name(PARAMETERS) __asm__(#name); \
    uint64_t wrapped_##name(PARAMETERS) { return recorded(number_of_##name, ARGUMENTS); }
#include "functions.h"
