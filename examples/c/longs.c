/* Whole numbers of 64 bits: quotients, powers modulo a prime, roots, bits, and numbers of Fibonacci. */
#include <stdint.h>
#include <stdio.h>

static uint64_t gcd(uint64_t a, uint64_t b) {
    while (b) {
        uint64_t rest = a % b;
        a = b;
        b = rest;
    }
    return a;
}

/* a * b modulo m, by doubling, since the product does not fit. */
static uint64_t multiply(uint64_t a, uint64_t b, uint64_t m) {
    uint64_t product = 0;
    for (; b; b >>= 1) {
        if (b & 1)
            product = (product + a) % m;
        a = (a << 1) % m;
    }
    return product;
}

static uint64_t power(uint64_t base, uint64_t exponent, uint64_t m) {
    uint64_t product = 1;
    for (; exponent; exponent >>= 1) {
        if (exponent & 1)
            product = multiply(product, base, m);
        base = multiply(base, base, m);
    }
    return product;
}

static uint64_t root(uint64_t square) {
    uint64_t found = 0;
    for (uint64_t bit = 1ull << 31; bit; bit >>= 1)
        if ((found | bit) * (found | bit) <= square)
            found |= bit;
    return found;
}

static int bits(uint64_t number) {
    return __builtin_popcountll(number);
}

int main(void) {
    static const int64_t numbers[] = {0, 1, -1, 10, -7, 1000000007, -4294967296, 1234567890123456789, INT64_MIN, INT64_MAX};
    for (int i = 0; i < 10; i++)
        for (int j = 3; j < 10; j += 2)
            printf("%lld %lld%c", (long long) (numbers[i] / numbers[j]), (long long) (numbers[i] % numbers[j]), j < 9 ? ' ' : '\n');
    uint64_t a = 0, b = 1;
    for (int i = 0; i < 93; i++) {
        uint64_t next = a + b;
        a = b;
        b = next;
    }
    printf("fibonacci %llu, gcd %llu\n", (unsigned long long) a, (unsigned long long) gcd(a, 1134903170ull * 7));
    printf("2^p modulo p is %llu\n", (unsigned long long) power(2, 4294967291u, 4294967291u));
    printf("root of 2^63 %llu, bits %d\n", (unsigned long long) root(1ull << 63), bits(0x123456789abcdef0));
    uint64_t mixed = 88172645463325252ull;
    for (int i = 0; i < 40; i++) {
        mixed ^= mixed << (i % 61 + 1);
        mixed ^= mixed >> (i * 7 % 61 + 1);
        mixed += (uint64_t) ((int64_t) mixed >> (i * 3 % 64));
    }
    printf("mixed %016llx\n", (unsigned long long) mixed);
    return 0;
}
