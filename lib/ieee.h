/* The two formats of IEEE 754 as their bits. Each operation that gives a NaN gives one and the same, as the processors of
   this family do. */
#ifndef _IEEE_H
#define _IEEE_H

#include <stdint.h>

#define DOUBLE_FRACTION_BITS 52
#define DOUBLE_BIAS 1023
#define DOUBLE_SPECIAL 2047                         /* the exponent of infinities and NaNs */
#define DOUBLE_ONE (1ull << DOUBLE_FRACTION_BITS)   /* the bit above the fraction */
#define DOUBLE_NAN 0x7ff7ffffffffffffull
#define DOUBLE_INFINITY 0x7ff0000000000000ull

#define SINGLE_FRACTION_BITS 23
#define SINGLE_BIAS 127
#define SINGLE_SPECIAL 255
#define SINGLE_ONE (1u << SINGLE_FRACTION_BITS)
#define SINGLE_NAN 0x7fbfffffu
#define SINGLE_INFINITY 0x7f800000u

#define SIGN 0x80000000u

union double_bits {
    double value;
    uint64_t bits;
    struct {
#if __BYTE_ORDER__ == __ORDER_BIG_ENDIAN__
        uint32_t upper, lower;
#else
        uint32_t lower, upper;
#endif
    } word;
};

union single_bits {
    float value;
    uint32_t bits;
};

static inline int double_exponent(union double_bits number) {
    return number.word.upper >> 20 & DOUBLE_SPECIAL;
}

static inline uint64_t double_fraction(union double_bits number) {
    return number.bits & (DOUBLE_ONE - 1);
}

static inline int single_exponent(union single_bits number) {
    return number.bits >> SINGLE_FRACTION_BITS & SINGLE_SPECIAL;
}

static inline uint32_t single_fraction(union single_bits number) {
    return number.bits & (SINGLE_ONE - 1);
}

#endif
