/* Wraps the functions of libwagtenib, for refusals.py. Each call is made once, and if it takes memory, it is made again with one growth of memory refused
 * (at most TRIES times), and then once more, so that its caller gets the reply. It counts what each function takes, and writes this into the file REFUSALS when the program ends. */
#define _GNU_SOURCE
#include <stdint.h>
#include <stdio.h>
#include <stdlib.h>
#include <string.h>
#include <sys/mman.h>
#include <ucontext.h>

#include "calls.h"
/* refusals.py writes MULTIPLE_NAME of each function, which is how many bytes of memory the header allows for each byte of the arguments. */
#include "multiples.h"

#define OUT_OF_MEMORY 8
#define TRIES 4
#define STACK (1 << 20)
#define FILL 0xA5

struct counts {
    struct function function;
    uint64_t multiple;
    uint64_t calls, refused, wrong, kept, stack, memory;
    /* The most memory of a call beyond `multiple` bytes for each byte of its arguments. */
    uint64_t excess;
};

struct block {
    uint64_t is_given;
    void *at;
};

static uint64_t bytes, most_bytes, blocks, growths, refused_growth;
static char nothing;

static struct block grown(char *old, size_t size, size_t align) {
    size_t length = size != 0 ? size : align, before = old != NULL ? *(size_t *)old : 0;
    growths++;
    char *at = growths == refused_growth ? NULL : realloc(old, length + 16);
    if (at == NULL) return (struct block){0, &nothing};
    *(size_t *)at = length;
    bytes += length - before;
    blocks += old == NULL;
    if (bytes > most_bytes) most_bytes = bytes;
    return (struct block){1, at + 16};
}

__attribute__((visibility("hidden"))) struct block rattle_alloc(size_t size, size_t align) { return grown(NULL, size, align); }

__attribute__((visibility("hidden"))) struct block rattle_realloc(void *old, size_t old_size, size_t size, size_t align) {
    (void)old_size;
    return grown((char *)old - 16, size, align);
}

__attribute__((visibility("hidden"))) void rattle_dealloc(void *at, size_t size, size_t align) {
    (void)size, (void)align;
    char *block = (char *)at - 16;
    bytes -= *(size_t *)block;
    blocks--;
    free(block);
}

static uint64_t arguments[18], answer;
static ucontext_t caller, callee;
static call_of_c *called;

static void on_stack(void) {
    const uint64_t *a = arguments;
    answer = called(a[0], a[1], a[2], a[3], a[4], a[5], a[6], a[7], a[8], a[9], a[10], a[11], a[12], a[13], a[14], a[15], a[16], a[17]);
}

/* Counts the memory of a call. What a function reads are its arguments, and what it only writes is not. */
static void count_memory(struct counts *counts, uint64_t memory) {
    uint64_t given = 0;
    for (int i = 0; counts->function.parameters[i].kind != 0; i++) given += counts->function.parameters[i].kind == 'i' ? bytes_at(&counts->function, arguments, i) : 0;
    if (memory > counts->memory) counts->memory = memory;
    if (memory > counts->multiple * given && memory - counts->multiple * given > counts->excess) counts->excess = memory - counts->multiple * given;
}

/* Makes the call on a filled stack, with this growth refused (0 for none). */
static uint64_t made(struct counts *counts, uint64_t refused) {
    static unsigned char *stack;
    if (stack == NULL) stack = mmap(NULL, STACK, PROT_READ | PROT_WRITE, MAP_PRIVATE | MAP_ANONYMOUS, -1, 0);
    memset(stack, FILL, STACK);
    getcontext(&callee);
    callee.uc_stack.ss_sp = stack, callee.uc_stack.ss_size = STACK, callee.uc_link = &caller;
    called = counts->function.call;
    makecontext(&callee, on_stack, 0);
    uint64_t bytes_before = bytes, blocks_before = blocks, unused = 0;
    most_bytes = bytes, growths = 0, refused_growth = refused;
    swapcontext(&caller, &callee);
    counts->kept += bytes != bytes_before || blocks != blocks_before;
    while (unused < STACK && stack[unused] == FILL) unused++;
    if (STACK - unused > counts->stack) counts->stack = STACK - unused;
    count_memory(counts, most_bytes - bytes_before);
    return answer;
}

static uint64_t tried(struct counts *counts, PARAMETERS) {
    const uint64_t given[] = {ARGUMENTS};
    memcpy(arguments, given, sizeof given);
    counts->calls++;
    uint64_t first = made(counts, 0), all = growths;
    /* wagtenib_push changes what it is given, so a call that takes no memory is made once only. */
    if (all == 0) return first;
    for (uint64_t i = 0; i < all && i < TRIES; i++) {
        counts->refused++;
        counts->wrong += (uint32_t)made(counts, all <= TRIES ? i + 1 : 1 + random() % all) != OUT_OF_MEMORY;
    }
    return made(counts, 0);
}

/* refusals.py writes FUNCTION(NAME, HAS_CODE, PARAMETERS) of each function. The declarations of the header are not those of these wrappers, so they have names of their
 * own in C. */
#define FUNCTION(name, has_code, ...)                                                                                  \
    extern __attribute__((visibility("hidden"))) call_of_c real_##name;                                                \
    static struct counts counts_##name = {{#name, real_##name, has_code, {__VA_ARGS__}}, MULTIPLE_##name, 0, 0, 0, 0, 0, 0, 0}; \
    uint64_t wrapped_##name(PARAMETERS) __asm__(#name);                                                                \
    uint64_t wrapped_##name(PARAMETERS) { return tried(&counts_##name, ARGUMENTS); }
#include "functions.h"
#undef FUNCTION

#define FUNCTION(name, has_code, ...) &counts_##name,
static struct counts *const all_counts[] = {
#include "functions.h"
};

__attribute__((destructor)) static void tell(void) {
    const char *path = getenv("REFUSALS");
    FILE *file = path != NULL ? fopen(path, "a") : NULL;
    if (file == NULL) return;
    /* (several programs write at the same time, each all of it at once) */
    setvbuf(file, NULL, _IOFBF, 1 << 16);
    for (size_t i = 0; i < sizeof all_counts / sizeof *all_counts; i++) {
        const struct counts *c = all_counts[i];
        fprintf(file, "%s %llu %llu %llu %llu %llu %llu %llu\n", c->function.name, (unsigned long long)c->calls, (unsigned long long)c->refused, (unsigned long long)c->wrong,
                (unsigned long long)c->kept, (unsigned long long)c->stack, (unsigned long long)c->memory, (unsigned long long)c->excess);
    }
    fclose(file);
}
