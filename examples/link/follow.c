/* A follower of a log in 2 KB of its own: it takes in the eight leaves of the classical tree, one by one, and compares each
 * root with the tree's (hashes.h, which cases.py writes). Then leaves: a worked one, cut everywhere, and damaged. With the
 * linker's --wrap=malloc --wrap=realloc it refuses each growth in turn, and adds up what is asked for. Lists of a million
 * hashes are given in a thread whose stack is small. */
#define _POSIX_C_SOURCE 200809L
#include <limits.h>
#include <pthread.h>
#include <stdio.h>
#include <stdlib.h>
#include <string.h>

#include "hashes.h"
#include "wagtenib.h"

static unsigned wrong;
static void expect(int as_wanted, const char *what) {
    if (!as_wanted) wrong++, printf("not as wanted: %s\n", what);
}

/* The growth with this number, from 0 on, is refused. */
static long refused = -1, growths;
static size_t asked;
void *__real_malloc(size_t size);
void *__real_realloc(void *old, size_t size);
static int is_refused(size_t size) { return asked += size, growths++ == refused; }
void *__wrap_malloc(size_t size) { return is_refused(size) ? NULL : __real_malloc(size); }
void *__wrap_realloc(void *old, size_t size) { return is_refused(size) ? NULL : __real_realloc(old, size); }

struct follower {
    uint64_t size;
    size_t count;
    uint8_t subtrees[64][32];
};

static void follow(void) {
    struct follower log = {0};
    uint8_t root[32];
    for (int n = 0; n <= 8; n++) {
        wagtenib_subtrees_root(log.subtrees[0], log.count, root);
        expect(memcmp(root, ROOTS[n], 32) == 0, "a follower's root");
        if (n == 8) break;
        expect(wagtenib_push(log.size, log.count, log.subtrees[0], 64, LEAF_HASHES[n], &log.count) == WAGTENIB_OK, "a push");
        log.size++;
    }
    /* Numbers that are those of no list: full, or some hashes, and never out of bounds. */
    uint8_t two[2][32] = {{1}, {2}};
    size_t count = 5;
    expect(wagtenib_push(7, 3, two[0], 2, LEAF_HASHES[0], &count) == WAGTENIB_NO_ROOM && count == 5, "three of two subtrees");
    expect(wagtenib_push(2, 2, two[0], 2, LEAF_HASHES[0], &count) == WAGTENIB_NO_ROOM && count == 5, "no place");
    expect(wagtenib_push(UINT64_MAX, 2, two[0], 2, LEAF_HASHES[0], &count) == WAGTENIB_OK && count == 1, "the largest size");
}

static void roots(void) {
    uint8_t root[32], before[32];
    for (int n = 0; n <= 8; n++) {
        expect(wagtenib_root(LEAF_HASHES[0], n, root) == WAGTENIB_OK && memcmp(root, ROOTS[n], 32) == 0, "a root");
    }
    growths = 0;
    wagtenib_root(LEAF_HASHES[0], 8, root);
    long ample = growths;
    memset(before, 7, 32);
    for (long n = 0; n < ample; n++) {
        memcpy(root, before, 32);
        growths = 0, refused = n;
        expect(wagtenib_root(LEAF_HASHES[0], 8, root) == WAGTENIB_OUT_OF_MEMORY, "a refused growth");
        refused = -1;
        expect(memcmp(root, before, 32) == 0, "out after a refused growth");
    }
    printf("C: %ld growths, each refused in turn\n", ample);
    expect(ample > 0, "no growth was seen");
}

/* So many hashes, of which no call may need memory or stack for each. */
/* The stack is the smallest that the C library allows (128 KB on arm64), and at least 64 KB. */
enum { MANY = 1000000, STACK = PTHREAD_STACK_MIN > 65536 ? PTHREAD_STACK_MIN : 65536 };
static uint8_t many[MANY][32];

static void *long_lists(void *unused) {
    uint8_t root[32], followed[32];
    struct follower log = {0};
    for (size_t n = 1; n <= MANY; n++) {
        many[n - 1][0] = n & 255, many[n - 1][1] = n >> 8 & 255, many[n - 1][2] = n >> 16;
        expect(wagtenib_push(log.size++, log.count, log.subtrees[0], 64, many[n - 1], &log.count) == WAGTENIB_OK, "a push");
        if (n != 1 && n != 1000 && n != MANY) continue;
        asked = 0;
        expect(wagtenib_root(many[0], n, root) == WAGTENIB_OK && asked <= 4096, "at most 4 KB for a root");
        wagtenib_subtrees_root(log.subtrees[0], log.count, followed);
        expect(memcmp(root, followed, 32) == 0, "a long list's root, followed");
    }
    asked = 0;
    wagtenib_subtrees_root(many[0], MANY, root);
    expect(wagtenib_verify_inclusion(root, 1, 2, many[0], MANY, root) == WAGTENIB_PATH_TOO_LONG, "a path of a million hashes");
    expect(wagtenib_verify_consistency(1, 2, root, root, many[0], MANY) == WAGTENIB_PATH_TOO_LONG, "a proof of a million hashes");
    wagtenib_leaf_hash(many[0], sizeof many, root);
    expect(asked == 0, "memory for a check");
    return unused;
}

static void in_a_small_stack(void) {
    pthread_attr_t how;
    pthread_t thread;
    pthread_attr_init(&how);
    int is_begun = pthread_attr_setstacksize(&how, STACK) == 0 && pthread_create(&thread, &how, long_lists, NULL) == 0;
    expect(is_begun, "a thread with a small stack");
    if (is_begun) pthread_join(thread, NULL);
}

static void leaves(void) {
    /* The leaf of a certificate of the one byte 41 at the moment 3, and one byte more. */
    uint8_t leaf[] = {0, 0, 0, 0, 0, 0, 0, 0, 0, 3, 0, 0, 0, 0, 1, 0x41, 0, 0, 9};
    uint8_t precert[49] = {0, 0, 0, 0, 0, 0, 0, 0, 1, 4, 0, 1, [46] = 2};
    struct wagtenib_leaf_info info, before;
    memset(&before, 7, sizeof before);
    for (size_t length = 0; length < 18; length++) {
        info = before;
        expect(wagtenib_decode_leaf(leaf, length, &info) == WAGTENIB_TRUNCATED, "a leaf that was cut");
        expect(memcmp(&info, &before, sizeof info) == 0, "out after a fault");
    }
    expect(wagtenib_decode_leaf(leaf, 18, &info) == WAGTENIB_OK && info.timestamp == 3 && info.entry_type == 0 &&
               info.certificate_length == 1 && info.extensions_length == 0, "a leaf");
    expect(wagtenib_decode_leaf(leaf, 19, &info) == WAGTENIB_TRAILING, "a byte behind a leaf");
    uint8_t whole[53];
    memcpy(whole, precert, 49), memcpy(whole + 49, "\0\2hi", 4);
    expect(wagtenib_decode_leaf(whole, 53, &info) == WAGTENIB_OK && info.timestamp == 260 && info.entry_type == 1 &&
               info.certificate_length == 2 && info.extensions_length == 2, "a precertificate's leaf");
    static const struct { int byte, value; uint32_t wanted; } damaged[] = {
        {0, 1, WAGTENIB_BAD_VERSION}, {1, 1, WAGTENIB_BAD_LEAF_TYPE}, {11, 2, WAGTENIB_BAD_ENTRY_TYPE}, {14, 0, WAGTENIB_EMPTY_VECTOR}};
    for (size_t i = 0; i < sizeof damaged / sizeof *damaged; i++) {
        uint8_t bad[18];
        memcpy(bad, leaf, 18);
        bad[damaged[i].byte] = (uint8_t)damaged[i].value;
        expect(wagtenib_decode_leaf(bad, 18, &info) == damaged[i].wanted, "a damaged leaf");
    }
}

int main(void) {
    follow();
    roots();
    leaves();
    in_a_small_stack();
    printf("C: a follower, roots, leaves and long lists, %u not as wanted\n", wrong);
    return wrong != 0;
}
