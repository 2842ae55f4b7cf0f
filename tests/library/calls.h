/* What record.c and replay.c have in common: how a call is kept in a file.
 *
 * A call is the number of its function (8 bytes), and each of its arguments: a number (8 bytes), or the bytes that a pointer points to before the call, with their
 * count before them (8 bytes). All numbers are in the byte order of the machine, which is the same on amd64 and arm64. */
#ifndef CALLS_H
#define CALLS_H

#include <stddef.h>
#include <stdint.h>

#include "wagtenib.h"

enum { MOST_ARGUMENTS = 18 };

/* No function has more arguments. What is passed beyond a function's own is not read. */
#define PARAMETERS \
    uint64_t a0, uint64_t a1, uint64_t a2, uint64_t a3, uint64_t a4, uint64_t a5, uint64_t a6, uint64_t a7, uint64_t a8, uint64_t a9, uint64_t a10, uint64_t a11, uint64_t a12, \
        uint64_t a13, uint64_t a14, uint64_t a15, uint64_t a16, uint64_t a17
#define ARGUMENTS a0, a1, a2, a3, a4, a5, a6, a7, a8, a9, a10, a11, a12, a13, a14, a15, a16, a17

typedef uint64_t call_of_c(PARAMETERS);

/* kind is 'n' for a number, 'i' for a pointer to what is read and 'o' for one to what may be written; 0 ends the parameters. A pointer points to so many bytes, and
 * if has_length is 1, to so many for each element of which the next argument is the number. */
struct parameter {
    char kind;
    uint16_t bytes;
    uint8_t has_length;
};

struct function {
    const char *name;
    call_of_c *call;
    int has_code;
    struct parameter parameters[MOST_ARGUMENTS];
};

/* The number of bytes at the pointer that is the argument number i. */
static inline size_t bytes_at(const struct function *function, const uint64_t *arguments, int i) {
    return function->parameters[i].bytes * (function->parameters[i].has_length ? arguments[i + 1] : 1);
}

#endif
