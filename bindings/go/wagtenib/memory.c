/* The three functions by which the proved code takes memory: those of the C library. (A program that has an allocator of its own writes these anew.) */
#include <stddef.h>
#include <stdint.h>
#include <stdlib.h>

/* What the proved code is handed: whether there is memory, and where. The place is never NULL. */
struct block {
    uint64_t is_given;
    void *at;
};

static char nothing;

static struct block block_at(void *at) {
    struct block block = {at != NULL, at != NULL ? at : &nothing};
    return block;
}

struct block rattle_alloc(size_t size, size_t align) {
    return block_at(malloc(size != 0 ? size : align));
}

struct block rattle_realloc(void *old, size_t old_size, size_t size, size_t align) {
    (void)old_size;
    return block_at(realloc(old, size != 0 ? size : align));
}

void rattle_dealloc(void *at, size_t size, size_t align) {
    (void)size;
    (void)align;
    free(at);
}
