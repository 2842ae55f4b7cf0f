/* Makes the calls again that record.c wrote: replay MODE FILE
 *
 *   replies   prints for each call the function, the code, and all memory that it may write
 *   nulls     makes each call with a length of 0 in each place that has a length, and in all of them, once with NULL and once with another pointer there: the code and
 *             all memory that it may write must be the same. It prints for each place how many calls were compared, and how many of them returned 0
 *   threads   makes all calls in THREADS threads at once, which share what is only read. Each reply must be that of one thread
 *
 * It ends with status 1 if something differs. */
#include <pthread.h>
#include <stdio.h>
#include <stdlib.h>
#include <string.h>

#include "calls.h"

enum { THREADS = 64, SHOWN = 5 };

#define FUNCTION(name, has_code, ...) {#name, (call_of_c *)name, has_code, {__VA_ARGS__}},
static const struct function functions[] = {
#include "functions.h"
};

enum { FUNCTIONS = sizeof functions / sizeof *functions };

/* A call: its arguments, of which pointers point into the file's bytes, and its reply, which belongs to it. */
struct call {
    const struct function *function;
    uint64_t arguments[MOST_ARGUMENTS];
    unsigned char *reply;
    size_t reply_length;
};

static struct call *calls;
static size_t number_of_calls;

static void *memory(size_t length) {
    void *at = calloc(length + 1, 1);
    if (at == NULL) {
        fputs("replay: out of memory\n", stderr);
        exit(2);
    }
    return at;
}

/* The number of bytes of a call's reply: the code, and all memory that it may write. */
static size_t length_of_reply(const struct function *function, const uint64_t *arguments) {
    size_t length = sizeof(uint32_t);
    for (int i = 0; function->parameters[i].kind != 0; i++) length += function->parameters[i].kind == 'o' ? bytes_at(function, arguments, i) : 0;
    return length;
}

/* Makes a call with memory of its own for what it writes, whose bytes before the call are those at the pointers. `nothing` replaces each pointer of no bytes. */
static void make(const struct function *function, const uint64_t *given, void *nothing, unsigned char *reply) {
    uint64_t arguments[MOST_ARGUMENTS];
    memcpy(arguments, given, sizeof arguments);
    for (int i = 0; function->parameters[i].kind != 0; i++) {
        size_t length = function->parameters[i].kind == 'n' ? 0 : bytes_at(function, given, i);
        if (function->parameters[i].kind == 'o') arguments[i] = (uintptr_t)memcpy(memory(length), (const void *)(uintptr_t)given[i], length);
    }
    uint64_t used[MOST_ARGUMENTS];
    memcpy(used, arguments, sizeof used);
    for (int i = 0; function->parameters[i].kind != 0; i++) {
        if (function->parameters[i].has_length && given[i + 1] == 0) used[i] = (uintptr_t)nothing;
    }
    const uint64_t *a = used;
    uint32_t code = (uint32_t)function->call(a[0], a[1], a[2], a[3], a[4], a[5], a[6], a[7], a[8], a[9], a[10], a[11], a[12], a[13], a[14], a[15], a[16], a[17]);
    code = function->has_code ? code : 0;
    memcpy(reply, &code, sizeof code);
    reply += sizeof code;
    for (int i = 0; function->parameters[i].kind != 0; i++) {
        if (function->parameters[i].kind != 'o') continue;
        memcpy(reply, (void *)(uintptr_t)arguments[i], bytes_at(function, given, i));
        reply += bytes_at(function, given, i);
        free((void *)(uintptr_t)arguments[i]);
    }
}

static uint32_t code_in(const unsigned char *reply) {
    uint32_t code;
    memcpy(&code, reply, sizeof code);
    return code;
}

/* Reads the calls of a file. What is only read is in memory of its own, so that a checker of memory sees each byte that is read beyond it. */
static void read_calls(const char *path) {
    FILE *file = fopen(path, "rb");
    uint64_t number;
    if (file == NULL) {
        perror(path);
        exit(2);
    }
    while (fread(&number, sizeof number, 1, file) == 1) {
        if (number >= FUNCTIONS) exit(2);
        if ((number_of_calls & (number_of_calls - 1)) == 0 && (calls = realloc(calls, (2 * number_of_calls + 1) * sizeof *calls)) == NULL) exit(2);
        struct call *call = &calls[number_of_calls++];
        memset(call, 0, sizeof *call);
        call->function = &functions[number];
        for (int i = 0; call->function->parameters[i].kind != 0; i++) {
            if (fread(&number, sizeof number, 1, file) != 1) exit(2);
            call->arguments[i] = number;
            if (call->function->parameters[i].kind == 'n') continue;
            void *at = memory(number);
            if (fread(at, 1, number, file) != number) exit(2);
            call->arguments[i] = (uintptr_t)at;
        }
        call->reply_length = length_of_reply(call->function, call->arguments);
        call->reply = memory(call->reply_length);
    }
    fclose(file);
}

/* Makes each call in one thread. */
static void reply_to_all(void) {
    static char nothing[32];
    for (size_t i = 0; i < number_of_calls; i++) make(calls[i].function, calls[i].arguments, nothing, calls[i].reply);
}

static void print_replies(void) {
    for (size_t i = 0; i < number_of_calls; i++) {
        printf("%s %u ", calls[i].function->name, code_in(calls[i].reply));
        for (size_t at = sizeof(uint32_t); at < calls[i].reply_length; at++) printf("%02x", calls[i].reply[at]);
        putchar('\n');
    }
}

/* Makes a call with NULL and with another pointer. Returns whether the replies differ, and in *code the code. */
static int null_differs(const struct call *call, const uint64_t *arguments, uint32_t *code) {
    static char nothing[32];
    size_t length = length_of_reply(call->function, arguments);
    unsigned char *due = memory(length), *got = memory(length);
    make(call->function, arguments, nothing, due);
    make(call->function, arguments, NULL, got);
    int differs = memcmp(due, got, length) != 0;
    *code = code_in(due);
    if (differs) printf("%s: NULL gives the code %u, and another pointer %u\n", call->function->name, code_in(got), *code);
    free(due);
    free(got);
    return differs;
}

static int compare_nulls(void) {
    static unsigned long compared[FUNCTIONS][MOST_ARGUMENTS + 1], replied[FUNCTIONS][MOST_ARGUMENTS + 1];
    int wrong = 0;
    for (size_t n = 0; n < number_of_calls; n++) {
        const struct function *function = calls[n].function;
        for (int place = 0; place <= MOST_ARGUMENTS; place++) {
            uint64_t arguments[MOST_ARGUMENTS];
            int changed = 0;
            memcpy(arguments, calls[n].arguments, sizeof arguments);
            for (int i = 0; function->parameters[i].kind != 0; i++) {
                if (!function->parameters[i].has_length || (place != i && place != MOST_ARGUMENTS)) continue;
                arguments[i + 1] = 0;
                changed = 1;
            }
            if (!changed) continue;
            uint32_t code;
            wrong += null_differs(&calls[n], arguments, &code);
            compared[function - functions][place]++;
            replied[function - functions][place] += code == 0;
        }
    }
    for (int f = 0; f < FUNCTIONS; f++) {
        for (int i = 0; functions[f].parameters[i].kind != 0; i++) {
            if (functions[f].parameters[i].has_length) printf("%s %d %lu %lu\n", functions[f].name, i, compared[f][i], replied[f][i]);
        }
    }
    return wrong != 0;
}

/* Makes all calls, beginning at another one in each thread. Returns whether a reply differs. */
static void *in_thread(void *number) {
    static char nothing[32];
    size_t first = (uintptr_t)number * number_of_calls / THREADS, wrong = 0;
    for (size_t i = 0; i < number_of_calls; i++) {
        const struct call *call = &calls[(first + i) % number_of_calls];
        unsigned char *reply = memory(call->reply_length);
        make(call->function, call->arguments, nothing, reply);
        if (memcmp(reply, call->reply, call->reply_length) != 0 && ++wrong <= SHOWN) printf("%s replies otherwise among %d threads\n", call->function->name, THREADS);
        free(reply);
    }
    return (void *)wrong;
}

static int compare_threads(void) {
    pthread_t threads[THREADS];
    int wrong = 0;
    for (size_t i = 0; i < THREADS; i++) {
        if (pthread_create(&threads[i], NULL, in_thread, (void *)i) != 0) exit(2);
    }
    for (size_t i = 0; i < THREADS; i++) {
        void *result;
        pthread_join(threads[i], &result);
        wrong += result != NULL;
    }
    printf("%zu calls in each of %d threads\n", number_of_calls, THREADS);
    return wrong != 0;
}

int main(int count, char **words) {
    if (count != 3) {
        fputs("replay replies|nulls|threads FILE\n", stderr);
        return 2;
    }
    read_calls(words[2]);
    if (strcmp(words[1], "nulls") == 0) return compare_nulls();
    reply_to_all();
    if (strcmp(words[1], "threads") == 0) return compare_threads();
    print_replies();
    return 0;
}
