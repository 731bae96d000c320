/* LMS signatures (RFC 8554) of LMOTS_SHA256_N32_W8 and LMS_SHA256_M32_H5: verifies those of a whole key and times it.
   The one word is how many rounds are timed. */
#include "lms.h"
#include <stdio.h>
#include <stdlib.h>
#include <string.h>
#include <time.h>

enum { LEAVES = 32, HEIGHT = 5, SIZE = 4 + 4 + 32 + CHAINS * 32 + 4 + HEIGHT * 32, KEY = 56, MESSAGE = 1000, TIMES = 16 };

static void put(uint8_t *to, uint32_t value) {
    for (int i = 0; i < 4; i++) to[i] = value >> (24 - 8 * i);
}

static uint32_t get(const uint8_t *from) {
    return (uint32_t)from[0] << 24 | from[1] << 16 | from[2] << 8 | from[3];
}

/* The digits of a message's digest and of their checksum (sections 4.4 and 4.5): from which step each chain is carried. */
static void digits(uint8_t out[CHAINS], const uint8_t head[20], const uint8_t *seasoning, const uint8_t message[MESSAGE]) {
    uint8_t bytes[22 + 32 + MESSAGE];
    unsigned sum = 0;
    memcpy(bytes, head, 20);
    bytes[20] = bytes[21] = 0x81;
    memcpy(bytes + 22, seasoning, 32);
    memcpy(bytes + 54, message, MESSAGE);
    hash(out, bytes, sizeof bytes);
    for (int i = 0; i < 32; i++) sum += 255 - out[i];
    out[32] = sum >> 8;
    out[33] = sum;
}

/* The hash of a node of the tree, of one or two values below it. */
static void node(uint8_t out[32], const uint8_t *identifier, uint32_t number, uint8_t mark, const uint8_t *below, size_t length) {
    uint8_t bytes[22 + 64];
    memcpy(bytes, identifier, 16);
    put(bytes + 16, number);
    bytes[20] = bytes[21] = mark;
    memcpy(bytes + 22, below, length);
    hash(out, bytes, 22 + length);
}

/* The node of a leaf, of the ends of its chains. */
static void leaf_node(uint8_t out[32], const uint8_t head[20], uint8_t ends[CHAINS][32]) {
    uint8_t bytes[22 + CHAINS * 32], kept[32];
    memcpy(bytes, head, 20);
    bytes[20] = bytes[21] = 0x80;
    memcpy(bytes + 22, ends, CHAINS * 32);
    hash(kept, bytes, sizeof bytes);
    node(out, head, LEAVES + get(head + 16), 0x82, kept, 32);
}

/* Sections 5.4.2 and 4.6: whether a signature is valid. */
static int verify(const uint8_t key[KEY], const uint8_t message[MESSAGE], const uint8_t *signature, size_t size) {
    uint8_t head[20], steps[CHAINS], values[CHAINS][32], pair[64], at[32];
    if (get(key) != 5 || get(key + 4) != 4 || size != SIZE) return 0;
    uint32_t leaf = get(signature);
    const uint8_t *path = signature + 44 + CHAINS * 32;
    if (leaf >= LEAVES || get(signature + 4) != 4 || get(path - 4) != 5) return 0;
    memcpy(head, key + 8, 16);
    put(head + 16, leaf);
    digits(steps, head, signature + 8, message);
    memcpy(values, signature + 40, sizeof values);
    carry(values, head, steps);
    leaf_node(at, head, values);
    for (uint32_t number = LEAVES + leaf; number > 1; number /= 2, path += 32) {
        memcpy(pair + (number & 1 ? 32 : 0), at, 32);
        memcpy(pair + (number & 1 ? 0 : 32), path, 32);
        node(at, head, number / 2, 0x83, pair, 64);
    }
    return memcmp(at, key + 24, 32) == 0;
}

/* A value of a leaf that is made from the secret: the start of a chain, or the seasoning (Appendix A). */
static void secret(uint8_t out[32], const uint8_t head[20], unsigned chain) {
    uint8_t bytes[55];
    memcpy(bytes, head, 20);
    bytes[20] = chain >> 8;
    bytes[21] = chain;
    bytes[22] = 0xff;
    memset(bytes + 23, 2, 32);
    hash(out, bytes, sizeof bytes);
}

/* Carries a start as far as a signature shows it. */
static void shown(uint8_t value[32], const uint8_t head[20], unsigned chain, unsigned digit) {
    uint8_t bytes[55];
    secret(value, head, chain);
    memcpy(bytes, head, 20);
    bytes[20] = 0;
    bytes[21] = chain;
    for (unsigned step = 0; step < digit; step++) {
        bytes[22] = step;
        memcpy(bytes + 23, value, 32);
        hash(value, bytes, sizeof bytes);
    }
}

static uint8_t key[KEY], messages[LEAVES][MESSAGE], signatures[LEAVES][SIZE];

/* Makes the key with an identifier of bytes 1 and a secret of bytes 2, and signs a message with each leaf. Gives the steps
   that a verification of each leaf's signature has to make. */
static void make(unsigned steps[LEAVES]) {
    uint8_t tree[2 * LEAVES][32], head[20], from[CHAINS], values[CHAINS][32];
    memset(head, 1, 16);
    memset(from, 0, sizeof from);
    for (uint32_t leaf = 0; leaf < LEAVES; leaf++) {
        put(head + 16, leaf);
        for (unsigned chain = 0; chain < CHAINS; chain++) secret(values[chain], head, chain);
        carry(values, head, from);
        leaf_node(tree[LEAVES + leaf], head, values);
    }
    for (uint32_t number = LEAVES - 1; number > 0; number--) node(tree[number], head, number, 0x83, tree[2 * number], 64);
    put(key, 5);
    put(key + 4, 4);
    memcpy(key + 8, head, 16);
    memcpy(key + 24, tree[1], 32);
    for (uint32_t leaf = 0; leaf < LEAVES; leaf++) {
        uint8_t *signature = signatures[leaf];
        put(head + 16, leaf);
        memset(messages[leaf], 7 + leaf, MESSAGE);
        put(signature, leaf);
        put(signature + 4, 4);
        secret(signature + 8, head, 0xfffd);
        digits(from, head, signature + 8, messages[leaf]);
        steps[leaf] = 0;
        for (unsigned chain = 0; chain < CHAINS; chain++) {
            shown(signature + 40 + 32 * chain, head, chain, from[chain]);
            steps[leaf] += 255 - from[chain];
        }
        put(signature + 40 + 32 * CHAINS, 5);
        for (int level = 0; level < HEIGHT; level++) {
            memcpy(signature + 44 + 32 * (CHAINS + level), tree[((LEAVES + leaf) >> level) ^ 1], 32);
        }
    }
}

static void fail(const char *what) {
    fprintf(stderr, "%s: %s\n", name(), what);
    exit(1);
}

/* Whether each signature is accepted, and refused with a bit turned: one of the signature, of the message and of the key,
   another for each leaf. */
static void check(void) {
    for (int leaf = 0; leaf < LEAVES; leaf++) {
        uint8_t *places[3] = { &signatures[leaf][leaf * 41 % SIZE], &messages[leaf][leaf * 31 % MESSAGE], &key[leaf * 7 % KEY] };
        if (!verify(key, messages[leaf], signatures[leaf], SIZE)) fail("a good signature is refused");
        for (int i = 0; i < 3; i++) {
            *places[i] ^= 1 << leaf % 8;
            if (verify(key, messages[leaf], signatures[leaf], SIZE)) fail("a turned bit is accepted");
            *places[i] ^= 1 << leaf % 8;
        }
    }
}

static int by_size(const void *a, const void *b) {
    double x = *(const double *)a, y = *(const double *)b;
    return (x > y) - (x < y);
}

/* The verifications a second of a round. */
static double timed(void) {
    struct timespec from, to;
    int valid = 0;
    clock_gettime(CLOCK_MONOTONIC, &from);
    for (int i = 0; i < TIMES * LEAVES; i++) valid += verify(key, messages[i % LEAVES], signatures[i % LEAVES], SIZE);
    clock_gettime(CLOCK_MONOTONIC, &to);
    if (valid != TIMES * LEAVES) fail("a good signature is refused");
    return valid / (to.tv_sec - from.tv_sec + 1e-9 * (to.tv_nsec - from.tv_nsec));
}

int main(int count, char **words) {
    int rounds = count == 2 ? atoi(words[1]) : 0;
    unsigned steps[LEAVES], sum = 0;
    uint8_t seen[32];
    if (rounds < 1 || rounds > 1000) fail("the word is how many rounds are timed, 1 to 1000");
    make(steps);
    check();
    double rates[1000];
    timed();
    for (int i = 0; i < rounds; i++) rates[i] = timed();
    qsort(rates, rounds, sizeof *rates, by_size);
    for (int leaf = 0; leaf < LEAVES; leaf++) sum += steps[leaf];
    printf("%s: %.0f verifications a second (median), %.0f at most\n", name(), rates[rounds / 2], rates[rounds - 1]);
    printf("%d signatures, %.1f steps on average, %u the first; sha256 ", LEAVES, (double)sum / LEAVES, steps[0]);
    hash(seen, signatures[0], sizeof signatures);
    for (int i = 0; i < 32; i++) printf("%02x", seen[i]);
    puts("");
    return 0;
}
