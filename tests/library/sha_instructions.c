/* Compares the build option WAGTENIB_SHA_INSTRUCTIONS with the proved code: sha_instructions BLOCKS SEED
 *
 * It hashes BLOCKS random blocks by both functions, in chains of random length over random states, and prints the first difference. After that it prints the hashes of leaves of 0 to
 * 1,024 bytes, which sha_instructions.py compares with another library's. The first line says whether the processor has the instructions. */
#include <inttypes.h>
#include <stdio.h>
#include <stdlib.h>
#include <string.h>

#include "wagtenib.h"

void wagtenib_compress(uint32_t *state, const uint8_t *block);
void wagtenib_proved_compress(uint32_t *state, const uint8_t *block);

enum { LONGEST = 1024, CHAIN = 1000 };

static uint64_t seed;

/* The next number of splitmix64. */
static uint64_t next(void) {
    uint64_t z = seed += 0x9e3779b97f4a7c15;
    z = (z ^ z >> 30) * 0xbf58476d1ce4e5b9;
    z = (z ^ z >> 27) * 0x94d049bb133111eb;
    return z ^ z >> 31;
}

static void fill(void *at, size_t length) {
    uint8_t *to = at;
    for (size_t i = 0; i < length; i += 8) {
        uint64_t word = next();
        memcpy(to + i, &word, length - i < 8 ? length - i : 8);
    }
}

/* Hashes blocks of one chain by both functions, each block at a random address. Returns false if they differ. */
static bool are_alike(uint64_t blocks) {
    uint32_t state[8], proved[8];
    fill(state, sizeof state);
    memcpy(proved, state, sizeof state);
    for (uint64_t i = 0; i < blocks; i++) {
        uint8_t memory[64 + 16];
        fill(memory, sizeof memory);
        const uint8_t *block = memory + next() % 16;
        wagtenib_compress(state, block);
        wagtenib_proved_compress(proved, block);
        if (memcmp(state, proved, sizeof state) != 0) {
            printf("they differ after block %" PRIu64 " of a chain\n", i + 1);
            return false;
        }
    }
    return true;
}

int main(int count, char **words) {
    if (count != 3) {
        fprintf(stderr, "sha_instructions BLOCKS SEED\n");
        return 2;
    }
    uint64_t left = strtoull(words[1], NULL, 10);
    seed = strtoull(words[2], NULL, 10);
    puts(wagtenib_has_sha_instructions() ? "has" : "lacks");
    while (left > 0) {
        uint64_t chain = 1 + next() % CHAIN;
        chain = chain < left ? chain : left;
        if (!are_alike(chain)) {
            return 1;
        }
        left -= chain;
    }
    uint8_t leaf[LONGEST], hash[32];
    for (size_t i = 0; i < LONGEST; i++) {
        leaf[i] = (uint8_t)(i * i + 7);
    }
    for (size_t length = 0; length <= LONGEST; length++) {
        wagtenib_leaf_hash(leaf, length, hash);
        for (size_t i = 0; i < sizeof hash; i++) {
            printf("%02x", hash[i]);
        }
        putchar('\n');
    }
    return 0;
}
