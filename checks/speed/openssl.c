/* SHA-256 by OpenSSL's call for one block, the quickest that it has for a step: no object is made, and nothing is looked up. */
#define OPENSSL_SUPPRESS_DEPRECATED
#include "lms.h"
#include <openssl/crypto.h>
#include <openssl/sha.h>
#include <stdio.h>
#include <stdlib.h>
#include <string.h>

/* Which code OpenSSL takes for SHA-256, by the bits that it checks in this order. */
static const char *code(void) {
    const char *found = OPENSSL_info(OPENSSL_INFO_CPU_SETTINGS);
    const char *first = found ? strstr(found, "=0x") : 0, *second = first ? strstr(first, ":0x") : 0;
    if (!second) return "code unknown";
    unsigned long long low = strtoull(first + 1, 0, 16), high = strtoull(second + 1, 0, 16);
    if (high >> 29 & 1) return "SHA extensions";
    if ((high & 0x128) == 0x128) return "AVX2";
    if ((low >> 32 & 0x10000200) == 0x10000200 && low >> 30 & 1) return "AVX";
    return low >> 41 & 1 ? "SSSE3" : "no vectors";
}

const char *name(void) {
    static char text[100];
    snprintf(text, sizeof text, "C over OpenSSL %s (%s)", OpenSSL_version(OPENSSL_VERSION_STRING), code());
    return text;
}

void hash(uint8_t out[32], const uint8_t *bytes, size_t length) {
    SHA256(bytes, length, out);
}

void carry(uint8_t values[CHAINS][32], const uint8_t head[20], const uint8_t steps[CHAINS]) {
    SHA256_CTX start, state;
    uint8_t block[64] = { 0 };
    SHA256_Init(&start);
    memcpy(block, head, 20);
    block[55] = 0x80;
    block[62] = 440 >> 8;
    block[63] = 440 & 255;
    for (int chain = 0; chain < CHAINS; chain++) {
        block[21] = chain;
        memcpy(block + 23, values[chain], 32);
        for (int step = steps[chain]; step < 255; step++) {
            block[22] = step;
            state = start;
            SHA256_Transform(&state, block);
            for (int i = 0; i < 8; i++) {
                uint32_t word = __builtin_bswap32(state.h[i]);
                memcpy(block + 23 + 4 * i, &word, 4);
            }
        }
        memcpy(values[chain], block + 23, 32);
    }
}
