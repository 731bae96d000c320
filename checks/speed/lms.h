/* What differs between the two programs in C: how SHA-256 is computed, and how the chains of a signature are carried on. */
#include <stddef.h>
#include <stdint.h>

enum { CHAINS = 34 };

/* The name that the program prints. */
const char *name(void);

/* SHA-256 of some bytes. */
void hash(uint8_t out[32], const uint8_t *bytes, size_t length);

/* Carries each value from its step on to step 255. The head is what each hash begins with: the identifier and the leaf. */
void carry(uint8_t values[CHAINS][32], const uint8_t head[20], const uint8_t steps[CHAINS]);
