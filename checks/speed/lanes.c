/* SHA-256 of several blocks at once, by the eight lanes of AVX2 or the four of SSE: as many chains go on side by side, the
   longest first, and where one is at its end the next takes its lane. */
#include "lms.h"
#include <immintrin.h>
#include <string.h>

#ifdef __AVX2__
#define LANES 8
#define NAME "C with eight lanes of AVX2"
#define WIDE(op) _mm256_##op
typedef __m256i wide;
#else
#define LANES 4
#define NAME "C with four lanes of SSE"
#define WIDE(op) _mm_##op
typedef __m128i wide;
#endif

static const uint32_t K[64] = {
    0x428a2f98, 0x71374491, 0xb5c0fbcf, 0xe9b5dba5, 0x3956c25b, 0x59f111f1, 0x923f82a4, 0xab1c5ed5, 0xd807aa98, 0x12835b01,
    0x243185be, 0x550c7dc3, 0x72be5d74, 0x80deb1fe, 0x9bdc06a7, 0xc19bf174, 0xe49b69c1, 0xefbe4786, 0x0fc19dc6, 0x240ca1cc,
    0x2de92c6f, 0x4a7484aa, 0x5cb0a9dc, 0x76f988da, 0x983e5152, 0xa831c66d, 0xb00327c8, 0xbf597fc7, 0xc6e00bf3, 0xd5a79147,
    0x06ca6351, 0x14292967, 0x27b70a85, 0x2e1b2138, 0x4d2c6dfc, 0x53380d13, 0x650a7354, 0x766a0abb, 0x81c2c92e, 0x92722c85,
    0xa2bfe8a1, 0xa81a664b, 0xc24b8b70, 0xc76c51a3, 0xd192e819, 0xd6990624, 0xf40e3585, 0x106aa070, 0x19a4c116, 0x1e376c08,
    0x2748774c, 0x34b0bcb5, 0x391c0cb3, 0x4ed8aa4a, 0x5b9cca4f, 0x682e6ff3, 0x748f82ee, 0x78a5636f, 0x84c87814, 0x8cc70208,
    0x90befffa, 0xa4506ceb, 0xbef9a3f7, 0xc67178f2,
};
static const uint32_t START[8] = {
    0x6a09e667, 0xbb67ae85, 0x3c6ef372, 0xa54ff53a, 0x510e527f, 0x9b05688c, 0x1f83d9ab, 0x5be0cd19,
};

#ifdef __AVX2__
#define XOR _mm256_xor_si256
#define AND _mm256_and_si256
#define OR _mm256_or_si256
#define LOAD _mm256_loadu_si256
#define STORE _mm256_storeu_si256
#define ZERO _mm256_setzero_si256
#define FIRST(x) _mm_cvtsi128_si32(_mm256_castsi256_si128(x))
#else
#define XOR _mm_xor_si128
#define AND _mm_and_si128
#define OR _mm_or_si128
#define LOAD _mm_loadu_si128
#define STORE _mm_storeu_si128
#define ZERO _mm_setzero_si128
#define FIRST _mm_cvtsi128_si32
#endif
#define ADD WIDE(add_epi32)
#define SET WIDE(set1_epi32)
#define LEFT WIDE(slli_epi32)
#define RIGHT WIDE(srli_epi32)
#define TURN(x, n) OR(RIGHT(x, n), LEFT(x, 32 - (n)))

/* One block in each lane: what is added to the state. */
static inline __attribute__((always_inline)) void block(wide state[8], wide w[16]) {
    wide a = state[0], b = state[1], c = state[2], d = state[3], e = state[4], f = state[5], g = state[6], h = state[7];
#pragma GCC unroll 64
    for (int i = 0; i < 64; i++) {
        if (i >= 16) {
            wide x = w[(i + 1) & 15], y = w[(i + 14) & 15];
            wide s = XOR(XOR(TURN(x, 7), TURN(x, 18)), RIGHT(x, 3)), t = XOR(XOR(TURN(y, 17), TURN(y, 19)), RIGHT(y, 10));
            w[i & 15] = ADD(ADD(w[i & 15], s), ADD(w[(i + 9) & 15], t));
        }
        wide one = ADD(ADD(h, XOR(XOR(TURN(e, 6), TURN(e, 11)), TURN(e, 25))),
            ADD(ADD(XOR(g, AND(e, XOR(f, g))), SET(K[i])), w[i & 15]));
        wide two = ADD(XOR(XOR(TURN(a, 2), TURN(a, 13)), TURN(a, 22)), OR(AND(a, b), AND(c, OR(a, b))));
        h = g;
        g = f;
        f = e;
        e = ADD(d, one);
        d = c;
        c = b;
        b = a;
        a = ADD(one, two);
    }
    wide added[8] = { a, b, c, d, e, f, g, h };
    for (int i = 0; i < 8; i++) state[i] = ADD(state[i], added[i]);
}

const char *name(void) {
    return NAME;
}

static uint32_t word(const uint8_t *from) {
    uint32_t value;
    memcpy(&value, from, 4);
    return __builtin_bswap32(value);
}

static void put(uint8_t *to, uint32_t value) {
    value = __builtin_bswap32(value);
    memcpy(to, &value, 4);
}

/* All lanes do the same here. */
void hash(uint8_t out[32], const uint8_t *bytes, size_t length) {
    uint8_t last[128] = { 0 };
    size_t whole = length / 64, rest = length % 64, ends = rest < 56 ? 1 : 2;
    wide state[8], w[16];
    memcpy(last, bytes + 64 * whole, rest);
    last[rest] = 0x80;
    put(last + 64 * ends - 4, 8 * length);
    for (int i = 0; i < 8; i++) state[i] = SET(START[i]);
    for (size_t at = 0; at < whole + ends; at++) {
        const uint8_t *from = at < whole ? bytes + 64 * at : last + 64 * (at - whole);
        for (int i = 0; i < 16; i++) w[i] = SET(word(from + 4 * i));
        block(state, w);
    }
    for (int i = 0; i < 8; i++) put(out + 4 * i, FIRST(state[i]));
}

/* The bytes of the block are the head, two of the chain, one of the step, and the value: so the value's words lie a byte
   before the block's. */
void carry(uint8_t values[CHAINS][32], const uint8_t head[20], const uint8_t steps[CHAINS]) {
    uint32_t lanes[8][LANES] = { { 0 } }, marks[LANES] = { 0 };
    int order[CHAINS], next = 0, open = 0, chain[LANES], left[LANES];
    for (int i = 0; i < CHAINS; i++) {
        int at = i;
        for (; at > 0 && steps[order[at - 1]] > steps[i]; at--) order[at] = order[at - 1];
        order[at] = i;
    }
    for (int lane = 0; lane < LANES; lane++) chain[lane] = -1, left[lane] = 0;
    for (;;) {
        /* Each lane at its end stores its value, and takes the next chain. */
        int least = 256;
        for (int lane = 0; lane < LANES; lane++) {
            if (left[lane] == 0) {
                if (chain[lane] >= 0) {
                    for (int i = 0; i < 8; i++) put(values[chain[lane]] + 4 * i, lanes[i][lane]);
                    chain[lane] = -1;
                    open--;
                }
                if (next < CHAINS && steps[order[next]] < 255) {
                    int taken = order[next++];
                    for (int i = 0; i < 8; i++) lanes[i][lane] = word(values[taken] + 4 * i);
                    marks[lane] = taken << 16 | steps[taken] << 8;
                    chain[lane] = taken;
                    left[lane] = 255 - steps[taken];
                    open++;
                }
            }
            if (chain[lane] >= 0 && left[lane] < least) least = left[lane];
        }
        if (open == 0) return;
        wide t[8], mark = LOAD((const wide *)marks);
        for (int i = 0; i < 8; i++) t[i] = LOAD((const wide *)lanes[i]);
        for (int step = 0; step < least; step++) {
            wide w[16];
            for (int i = 0; i < 5; i++) w[i] = SET(word(head + 4 * i));
            w[5] = OR(mark, RIGHT(t[0], 24));
            for (int i = 0; i < 7; i++) w[6 + i] = OR(LEFT(t[i], 8), RIGHT(t[i + 1], 24));
            w[13] = OR(LEFT(t[7], 8), SET(0x80));
            w[14] = ZERO();
            w[15] = SET(440);
            for (int i = 0; i < 8; i++) t[i] = SET(START[i]);
            block(t, w);
            mark = ADD(mark, SET(1 << 8));
        }
        STORE((wide *)marks, mark);
        for (int i = 0; i < 8; i++) STORE((wide *)lanes[i], t[i]);
        for (int lane = 0; lane < LANES; lane++) if (chain[lane] >= 0) left[lane] -= least;
    }
}
