/* A build option, which is off by default: one block of SHA-256 by the processor's SHA instructions (SHA-NI on amd64, FEAT_SHA256 on arm64).
 *
 * The proof does not speak of this file. With WAGTENIB_SHA_INSTRUCTIONS defined, the proved code jumps here for each block. If the processor does not have the
 * instructions, this code calls the proved one. */
#include <stdbool.h>
#include <stdint.h>

#ifdef WAGTENIB_SHA_INSTRUCTIONS

#include "wagtenib.h"

#define HIDDEN __attribute__((visibility("hidden")))

/* The proved function: the eight words of a state, and a block of 64 bytes. The assembly has this name for it only if it was compiled with the option, so that a
 * program whose assembly lacks the option is not linked. */
HIDDEN void wagtenib_proved_compress(uint32_t *state, const uint8_t *block);
HIDDEN void wagtenib_compress(uint32_t *state, const uint8_t *block);

/* FIPS 180-4, section 4.2.2. */
static const uint32_t constants[64] __attribute__((aligned(16))) = {
    0x428a2f98, 0x71374491, 0xb5c0fbcf, 0xe9b5dba5, 0x3956c25b, 0x59f111f1, 0x923f82a4, 0xab1c5ed5, 0xd807aa98, 0x12835b01, 0x243185be, 0x550c7dc3, 0x72be5d74,
    0x80deb1fe, 0x9bdc06a7, 0xc19bf174, 0xe49b69c1, 0xefbe4786, 0x0fc19dc6, 0x240ca1cc, 0x2de92c6f, 0x4a7484aa, 0x5cb0a9dc, 0x76f988da, 0x983e5152, 0xa831c66d,
    0xb00327c8, 0xbf597fc7, 0xc6e00bf3, 0xd5a79147, 0x06ca6351, 0x14292967, 0x27b70a85, 0x2e1b2138, 0x4d2c6dfc, 0x53380d13, 0x650a7354, 0x766a0abb, 0x81c2c92e,
    0x92722c85, 0xa2bfe8a1, 0xa81a664b, 0xc24b8b70, 0xc76c51a3, 0xd192e819, 0xd6990624, 0xf40e3585, 0x106aa070, 0x19a4c116, 0x1e376c08, 0x2748774c, 0x34b0bcb5,
    0x391c0cb3, 0x4ed8aa4a, 0x5b9cca4f, 0x682e6ff3, 0x748f82ee, 0x78a5636f, 0x84c87814, 0x8cc70208, 0x90befffa, 0xa4506ceb, 0xbef9a3f7, 0xc67178f2};

#if defined(__x86_64__)

#include <cpuid.h>
#include <immintrin.h>

/* Whether the processor has SHA-NI, and SSSE3 and SSE4.1 beside it. */
static bool is_supported(void) {
    unsigned a, b, c, d;
    if (!__get_cpuid(1, &a, &b, &c, &d) || !(c & bit_SSSE3) || !(c & bit_SSE4_1)) {
        return false;
    }
    return __get_cpuid_count(7, 0, &a, &b, &c, &d) && (b & bit_SHA);
}

__attribute__((target("sha,sse4.1,ssse3"))) static void compress_by_instructions(uint32_t *state, const uint8_t *block) {
    const __m128i byte_order = _mm_set_epi64x(0x0c0d0e0f08090a0bLL, 0x0405060700010203LL);
    /* The instructions want the words a to h as ABEF and CDGH. */
    __m128i abcd = _mm_shuffle_epi32(_mm_loadu_si128((const __m128i *)state), 0xb1);
    __m128i cdgh = _mm_shuffle_epi32(_mm_loadu_si128((const __m128i *)(state + 4)), 0x1b);
    __m128i abef = _mm_alignr_epi8(abcd, cdgh, 8);
    cdgh = _mm_blend_epi16(cdgh, abcd, 0xf0);
    const __m128i first = abef, second = cdgh;
    __m128i words[4];
    for (int i = 0; i < 4; i++) {
        words[i] = _mm_shuffle_epi8(_mm_loadu_si128((const __m128i *)(block + 16 * i)), byte_order);
    }
#pragma GCC unroll 16
    for (int round = 0; round < 16; round++) {
        __m128i now = words[round & 3], sums = _mm_add_epi32(now, _mm_load_si128((const __m128i *)(constants + 4 * round)));
        cdgh = _mm_sha256rnds2_epu32(cdgh, abef, sums);
        abef = _mm_sha256rnds2_epu32(abef, cdgh, _mm_shuffle_epi32(sums, 0x0e));
        if (round < 12) {
            __m128i next = _mm_sha256msg1_epu32(now, words[(round + 1) & 3]);
            next = _mm_add_epi32(next, _mm_alignr_epi8(words[(round + 3) & 3], words[(round + 2) & 3], 4));
            words[round & 3] = _mm_sha256msg2_epu32(next, words[(round + 3) & 3]);
        }
    }
    abef = _mm_shuffle_epi32(_mm_add_epi32(abef, first), 0x1b);
    cdgh = _mm_shuffle_epi32(_mm_add_epi32(cdgh, second), 0xb1);
    _mm_storeu_si128((__m128i *)state, _mm_blend_epi16(abef, cdgh, 0xf0));
    _mm_storeu_si128((__m128i *)(state + 4), _mm_alignr_epi8(cdgh, abef, 8));
}

#elif defined(__aarch64__)

#pragma GCC target("+crypto")
#include <arm_neon.h>
#include <sys/auxv.h>

/* HWCAP_SHA2 of Linux. */
#define SHA2 (1UL << 6)

/* Whether the processor has the instructions for SHA-256. */
static bool is_supported(void) {
    return getauxval(AT_HWCAP) & SHA2;
}

static void compress_by_instructions(uint32_t *state, const uint8_t *block) {
    const uint32x4_t first = vld1q_u32(state), second = vld1q_u32(state + 4);
    uint32x4_t abcd = first, efgh = second, words[4];
    for (int i = 0; i < 4; i++) {
        words[i] = vreinterpretq_u32_u8(vrev32q_u8(vld1q_u8(block + 16 * i)));
    }
#pragma GCC unroll 16
    for (int round = 0; round < 16; round++) {
        uint32x4_t now = words[round & 3], sums = vaddq_u32(now, vld1q_u32(constants + 4 * round)), old = abcd;
        abcd = vsha256hq_u32(abcd, efgh, sums);
        efgh = vsha256h2q_u32(efgh, old, sums);
        if (round < 12) {
            words[round & 3] = vsha256su1q_u32(vsha256su0q_u32(now, words[(round + 1) & 3]), words[(round + 2) & 3], words[(round + 3) & 3]);
        }
    }
    vst1q_u32(state, vaddq_u32(abcd, first));
    vst1q_u32(state + 4, vaddq_u32(efgh, second));
}

#else
#error "WAGTENIB_SHA_INSTRUCTIONS is for amd64 and arm64: compile without it"
#endif

static bool has_instructions;

/* It runs before main, so no call of the library waits for it or runs beside it. */
__attribute__((constructor)) static void look_at_the_processor(void) {
    has_instructions = is_supported();
}

void wagtenib_compress(uint32_t *state, const uint8_t *block) {
    if (has_instructions) {
        compress_by_instructions(state, block);
    } else {
        wagtenib_proved_compress(state, block);
    }
}

bool wagtenib_has_sha_instructions(void) {
    return has_instructions;
}

#endif
