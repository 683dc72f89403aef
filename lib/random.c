/* rand: each number is the sum of those 3 and 31 before it, without its last bit. The seed fills the first 31 by
   a multiplication modulo a prime, and the first 310 sums are passed over. So the GNU library does it. */
#include <stdint.h>
#include <stdlib.h>

#define LONG_LAG 31
#define SHORT_LAG 3
#define PASSED 310
#define PRIME 2147483647
#define FACTOR 16807

static uint32_t sums[LONG_LAG];
static int next;                /* where the oldest sum stands */
static int has_seed;

int rand(void) {
    if (!has_seed)
        srand(1);
    int other = next - SHORT_LAG;
    sums[next] += sums[other < 0 ? other + LONG_LAG : other];
    uint32_t sum = sums[next];
    if (++next == LONG_LAG)
        next = 0;
    return sum >> 1;
}

void srand(unsigned int seed) {
    int32_t number = seed ? seed : 1;
    for (int i = 0; i < LONG_LAG; i++) {
        sums[i] = number;
        /* FACTOR * number modulo PRIME, in 32 bits */
        number = FACTOR * (number % (PRIME / FACTOR)) - PRIME % FACTOR * (number / (PRIME / FACTOR));
        if (number < 0)
            number += PRIME;
    }
    has_seed = 1;
    next = SHORT_LAG;
    for (int i = 0; i < PASSED; i++)
        rand();
}

long random(void) {
    return rand();
}

void srandom(unsigned int seed) {
    srand(seed);
}

#define NEXT_FACTOR 1103515245u
#define NEXT_SUMMAND 12345u

static uint32_t next_bits(unsigned int *seed, int count) {
    *seed = *seed * NEXT_FACTOR + NEXT_SUMMAND;
    return *seed >> 16 & ((1u << count) - 1);
}

/* Bits of three numbers in turn, since the last ones of each repeat soon. */
int rand_r(unsigned int *seed) {
    uint32_t bits = next_bits(seed, 11);
    bits = bits << 10 ^ next_bits(seed, 10);
    return bits << 10 ^ next_bits(seed, 10);
}
