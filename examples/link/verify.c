/* Reads cases on standard input, one a line, and compares what libwagtenib answers with what is wanted:
 *     inclusion   WANTED LEAF_INDEX TREE_SIZE LEAF_HASH ROOT HASH..
 *     consistency WANTED FIRST SECOND FIRST_ROOT SECOND_ROOT HASH..
 * A hash is 64 hexadecimal digits. */
#include <inttypes.h>
#include <stdio.h>
#include <string.h>

#include "wagtenib.h"

static int read_hash(const char *text, uint8_t hash[32]) {
    for (int i = 0; i < 32; i++)
        if (sscanf(text + 2 * i, "%2" SCNx8, &hash[i]) != 1) return 0;
    return 1;
}

int main(void) {
    static char line[1 << 16];
    unsigned cases = 0, wrong = 0;
    while (fgets(line, sizeof line, stdin)) {
        char kind[16], first_text[65], second_text[65];
        uint32_t wanted;
        uint64_t a, b;
        uint8_t first[32], second[32], path[100][32];
        size_t length = 0;
        int used = 0;
        if (sscanf(line, "%15s %" SCNu32 " %" SCNu64 " %" SCNu64 " %64s %64s%n", kind, &wanted, &a, &b, first_text,
                   second_text, &used) != 6 ||
            !read_hash(first_text, first) || !read_hash(second_text, second))
            return fprintf(stderr, "not a case: %s", line), 2;
        for (char *word = strtok(line + used, " \n"); word && length < 100; word = strtok(NULL, " \n"))
            if (!read_hash(word, path[length++])) return fprintf(stderr, "not a hash: %s\n", word), 2;
        uint32_t answer = strcmp(kind, "inclusion") == 0
                              ? wagtenib_verify_inclusion(first, a, b, path[0], length, second)
                              : wagtenib_verify_consistency(a, b, first, second, path[0], length);
        cases++;
        if (answer != wanted) {
            wrong++;
            printf("case %u: %" PRIu32 ", wanted %" PRIu32 "\n", cases, answer, wanted);
        }
    }
    printf("C: %u proofs, %u answered otherwise than wanted\n", cases, wrong);
    return wrong != 0 || cases == 0;
}
