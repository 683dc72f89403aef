/* What gcc calls for integers of 64 bits: shifts, products, quotients, comparisons. */
#include "int64.h"

#define WORD_BITS 32

uint64_t __ashldi3(uint64_t value, int count) {
    union words number = {value};
    if (count >= WORD_BITS) {
        number.word.upper = number.word.lower << (count - WORD_BITS);
        number.word.lower = 0;
    } else if (count) {
        number.word.upper = number.word.upper << count | number.word.lower >> (WORD_BITS - count);
        number.word.lower <<= count;
    }
    return number.value;
}

uint64_t __lshrdi3(uint64_t value, int count) {
    union words number = {value};
    if (count >= WORD_BITS) {
        number.word.lower = number.word.upper >> (count - WORD_BITS);
        number.word.upper = 0;
    } else if (count) {
        number.word.lower = number.word.lower >> count | number.word.upper << (WORD_BITS - count);
        number.word.upper >>= count;
    }
    return number.value;
}

int64_t __ashrdi3(int64_t value, int count) {
    union words number = {value};
    int32_t upper = number.word.upper;
    if (count >= WORD_BITS) {
        number.word.lower = upper >> (count - WORD_BITS);
        number.word.upper = upper >> (WORD_BITS - 1);
    } else if (count) {
        number.word.lower = number.word.lower >> count | number.word.upper << (WORD_BITS - count);
        number.word.upper = upper >> count;
    }
    return number.value;
}

uint64_t __muldi3(uint64_t left, uint64_t right) {
    union words a = {left}, b = {right}, product;
    product.value = (uint64_t) a.word.lower * b.word.lower;
    if (a.word.upper)
        product.word.upper += a.word.upper * b.word.lower;
    if (b.word.upper)
        product.word.upper += a.word.lower * b.word.upper;
    return product.value;
}

/* Divides upper * 2^32 + lower by a divisor above `upper`: a bit of the quotient at a time. */
static uint32_t divide_two_words(uint32_t upper, uint32_t lower, uint32_t divisor, uint32_t *rest) {
    if (upper == 0) {
        *rest = lower % divisor;
        return lower / divisor;
    }
    for (int i = 0; i < WORD_BITS; i++) {
        uint32_t carry = upper >> (WORD_BITS - 1);
        upper = upper << 1 | lower >> (WORD_BITS - 1);
        lower <<= 1;
        if (carry || upper >= divisor) {
            upper -= divisor;
            lower |= 1;
        }
    }
    *rest = upper;
    return lower;
}

/* By a divisor of one word. */
static uint64_t divide_by_word(uint64_t dividend, uint32_t divisor, uint64_t *rest) {
    union words number = {dividend}, quotient;
    uint32_t left = 0;
    quotient.word.upper = 0;
    if (number.word.upper >= divisor) {
        quotient.word.upper = number.word.upper / divisor;
        number.word.upper -= quotient.word.upper * divisor;
    }
    quotient.word.lower = divide_two_words(number.word.upper, number.word.lower, divisor, &left);
    *rest = left;
    return quotient.value;
}

/* By a divisor of two words: the quotient has as many bits as the dividend has more than the divisor, and one. */
static uint64_t divide_by_two_words(uint64_t dividend, uint64_t divisor, uint64_t *rest) {
    uint32_t quotient = 0;
    int steps = __clzsi2(divisor >> WORD_BITS) - __clzsi2(dividend >> WORD_BITS);
    if (steps >= 0)
        divisor = __ashldi3(divisor, steps);
    for (; steps >= 0; steps--) {
        quotient <<= 1;
        if (dividend >= divisor) {
            dividend -= divisor;
            quotient |= 1;
        }
        divisor >>= 1;
    }
    *rest = dividend;
    return quotient;
}

uint64_t __udivmoddi4(uint64_t dividend, uint64_t divisor, uint64_t *rest) {
    uint64_t left, quotient;
    if (dividend < divisor) {
        left = dividend;
        quotient = 0;
    } else if (divisor >> WORD_BITS) {
        quotient = divide_by_two_words(dividend, divisor, &left);
    } else {
        quotient = divide_by_word(dividend, divisor, &left);
    }
    if (rest)
        *rest = left;
    return quotient;
}

uint64_t __udivdi3(uint64_t dividend, uint64_t divisor) {
    return __udivmoddi4(dividend, divisor, 0);
}

uint64_t __umoddi3(uint64_t dividend, uint64_t divisor) {
    uint64_t rest;
    __udivmoddi4(dividend, divisor, &rest);
    return rest;
}

static uint64_t magnitude(int64_t value) {
    return value < 0 ? -(uint64_t) value : (uint64_t) value;
}

int64_t __divdi3(int64_t dividend, int64_t divisor) {
    uint64_t quotient = __udivmoddi4(magnitude(dividend), magnitude(divisor), 0);
    return (dividend ^ divisor) < 0 ? -quotient : quotient;
}

int64_t __moddi3(int64_t dividend, int64_t divisor) {
    uint64_t rest;
    __udivmoddi4(magnitude(dividend), magnitude(divisor), &rest);
    return dividend < 0 ? -rest : rest;
}

/* 0, 1 or 2 where the left is less, the same, or more. */
int __ucmpdi2(uint64_t left, uint64_t right) {
    return left < right ? 0 : left == right ? 1 : 2;
}

int __cmpdi2(int64_t left, int64_t right) {
    return left < right ? 0 : left == right ? 1 : 2;
}

int64_t __negdi2(int64_t value) {
    return -(uint64_t) value;
}
