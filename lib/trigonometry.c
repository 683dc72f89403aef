/* Sine, cosine and tangent. Quarter turns are counted by a product with as many bits of 2 / pi as the number needs, so that what is
   left is right for every double. */
#include "ieee.h"
#include "wide.h"
#include <math.h>

#define WINDOW 7                    /* words of 2 / pi that a product takes */
#define PRODUCT (WINDOW + 2)

/* 2 / pi, 32 bits a word. */
static const uint32_t turns[] = {
    0xa2f9836e, 0x4e441529, 0xfc2757d1, 0xf534ddc0, 0xdb629599, 0x3c439041, 0xfe5163ab, 0xdebbc561,
    0xb7246e3a, 0x424dd2e0, 0x06492eea, 0x09d1921c, 0xfe1deb1c, 0xb129a73e, 0xe88235f5, 0x2ebb4484,
    0xe99c7026, 0xb45f7e41, 0x3991d639, 0x835339f4, 0x9c845f8b, 0xbdf9283b, 0x1ff897ff, 0xde05980f,
    0xef2f118b, 0x5a0a6d1f, 0x6d367ecf, 0x27cb09b7, 0x4f463f66, 0x9e5fea2d, 0x7527bac7, 0xebe5f17b,
    0x3d0739f7, 0x8a5292ea, 0x6bfb5fb1, 0x1f8d5d08, 0x56033046, 0xfc7b6bab,
};

/* 1 / (2 k + 3)! and 1 / (2 k + 2)! */
static const uint64_t sine_series[] = {
    0x2aaaaaaaaaaaaaab, 0x0222222222222222, 0x000d00d00d00d00d, 0x00002e3bc74aad8e, 0x0000006b99159fd5,
    0x00000000b092309d, 0x0000000000d73f9f, 0x000000000000ca96, 0x0000000000000098, 0x0000000000000000,
};
static const uint64_t cosine_series[] = {
    0x8000000000000000, 0x0aaaaaaaaaaaaaab, 0x005b05b05b05b05b, 0x0001a01a01a01a02, 0x0000049f93edde28,
    0x00000008f76c77fc, 0x000000000c9cba54, 0x00000000000d73fa, 0x0000000000000b41, 0x0000000000000008,
};

/* The product of a number of 53 bits with the words of 2 / pi from `first` on; the last word is the least significant. */
static void multiply(uint64_t number, int first, uint32_t *product) {
    uint32_t upper = number >> 32, lower = number;
    uint64_t carry = 0;
    for (int i = 0; i < PRODUCT; i++)
        product[i] = 0;
    for (int i = WINDOW - 1; i >= 0; i--) {
        uint64_t low = (uint64_t) lower * turns[first + i] + product[i + 2];
        product[i + 2] = low;
        uint64_t high = (uint64_t) upper * turns[first + i] + product[i + 1] + (low >> 32);
        product[i + 1] = high;
        carry = (high >> 32) + product[i];
        product[i] = carry;
    }
}

/* 32 bits from the bit `at` on, counted from the first one. */
static uint32_t bits_at(const uint32_t *words, int at) {
    int word = at >> 5, shift = at & 31;
    uint32_t next = word + 1 < PRODUCT ? words[word + 1] : 0;
    return shift ? words[word] << shift | next >> (32 - shift) : words[word];
}

static uint64_t long_at(const uint32_t *words, int at) {
    return (uint64_t) bits_at(words, at) << 32 | bits_at(words, at + 32);
}

/* What is left of a number above 1/2 that is less the nearest multiple of pi / 2; answers the multiple, modulo 4. */
static int reduce(struct wide x, struct wide *rest) {
    static const struct wide quarter = {0xc90fdaa22168c235, -63, 0};
    uint32_t product[PRODUCT];
    int power = x.power + 11, first = power > 33 ? (power - 2) >> 5 : 0;
    multiply(x.significand >> 11, first, product);
    /* The bit of the product that has the weight 2, counted from the first one. */
    int at = 32 * PRODUCT - 2 - (32 * (first + WINDOW) - power);
    int quarters = bits_at(product, at) >> 30;
    struct long_wide fraction = {long_at(product, at + 2), long_at(product, at + 66), -128, 0};
    if (fraction.upper >> 63) {
        fraction.lower = -fraction.lower;
        fraction.upper = ~fraction.upper + (fraction.lower == 0);
        fraction.is_negative = 1;
        quarters++;
    }
    *rest = _wide_multiply(_wide_of_long(_long_normal(fraction)), quarter);
    if (x.is_negative) {
        rest->is_negative = !rest->is_negative;
        quarters = -quarters;
    }
    return quarters & 3;
}

static int take_quarters(double x, struct wide *rest) {
    *rest = _wide_of(x);
    return fabs(x) > M_PI_4 ? reduce(*rest, rest) : 0;
}

static uint64_t square_of(struct wide x) {
    uint64_t fraction = _upper_product(x.significand, x.significand);
    int shift = 2 * (-64 - x.power);
    return shift < 64 ? fraction >> shift : 0;
}

static struct wide small_sine(struct wide x) {
    uint64_t square = square_of(x);
    uint64_t less = _upper_product(_sum_of_powers(sine_series, sizeof sine_series / sizeof *sine_series, square, 1), square);
    return _wide_multiply(x, (struct wide){-(less + 1), -64, 0});
}

static struct wide small_cosine(struct wide x) {
    uint64_t square = square_of(x);
    uint64_t less = _upper_product(_sum_of_powers(cosine_series, sizeof cosine_series / sizeof *cosine_series, square, 1), square);
    return (struct wide){-(less + 1), -64, 0};
}

/* The sine of a number and so many quarters of a turn. */
static double turned_sine(double x, int quarters) {
    struct wide rest;
    if (isnan(x))
        return x;
    if (isinf(x))
        return _domain_error();
    quarters += take_quarters(x, &rest);
    struct wide value = quarters & 1 ? small_cosine(rest) : small_sine(rest);
    value.is_negative ^= quarters >> 1 & 1;
    return _double_of(value);
}

double sin(double x) {
    return x == 0 ? x : turned_sine(x, 0);
}

double cos(double x) {
    return turned_sine(x, 1);
}

double tan(double x) {
    struct wide rest;
    if (isnan(x) || x == 0)
        return x;
    if (isinf(x))
        return _domain_error();
    int quarters = take_quarters(x, &rest);
    struct wide sine = small_sine(rest), cosine = small_cosine(rest);
    if (quarters & 1) {
        sine.is_negative = !sine.is_negative;
        return _double_of(_wide_divide(cosine, sine));
    }
    return _double_of(_wide_divide(sine, cosine));
}

float sinf(float x) {
    return sin(x);
}

float cosf(float x) {
    return cos(x);
}

float tanf(float x) {
    return tan(x);
}
