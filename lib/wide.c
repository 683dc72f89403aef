/* Arithmetic with significands of 64 bits. What does not fit is cut off, so that a result is too small by at most two units of its
   last bit, which is 2^11 times smaller than the last bit of a double. */
#include "wide.h"
#include "ieee.h"
#include <errno.h>
#include <math.h>

#define FIRST_BIT (1ull << 63)
#define DROPPED (63 - DOUBLE_FRACTION_BITS)     /* bits of a significand that a double has no room for */

uint64_t _full_product(uint64_t left, uint64_t right, uint64_t *lower) {
    uint32_t a = left >> 32, b = left, c = right >> 32, d = right;
    uint64_t first = (uint64_t) b * d, middle = (uint64_t) a * d, other = (uint64_t) b * c;
    uint64_t carries = (first >> 32) + (uint32_t) middle + (uint32_t) other;
    *lower = carries << 32 | (uint32_t) first;
    return (uint64_t) a * c + (middle >> 32) + (other >> 32) + (carries >> 32);
}

uint64_t _upper_product(uint64_t left, uint64_t right) {
    uint64_t lower;
    return _full_product(left, right, &lower);
}

uint64_t _sum_of_powers(const uint64_t *coefficient, int count, uint64_t x, int is_alternating) {
    uint64_t sum = coefficient[--count];
    while (count--) {
        uint64_t product = _upper_product(sum, x);
        sum = is_alternating ? coefficient[count] - product : coefficient[count] + product;
    }
    return sum;
}

struct wide _wide_normal(struct wide x) {
    if (x.significand) {
        int zeros = __builtin_clzll(x.significand);
        x.significand <<= zeros;
        x.power -= zeros;
    }
    return x;
}

struct wide _wide_of(double x) {
    union double_bits number = {x};
    int exponent = double_exponent(number);
    struct wide it = {double_fraction(number), exponent - DOUBLE_BIAS - DOUBLE_FRACTION_BITS, number.word.upper >> 31};
    if (exponent)
        it.significand |= DOUBLE_ONE;
    else
        it.power++;
    return _wide_normal(it);
}

/* Rounds; subnormal numbers have fewer bits. */
double _double_of(struct wide x) {
    int exponent = x.power + 63 + DOUBLE_BIAS, dropped = exponent > 0 ? DROPPED : DROPPED + 1 - exponent;
    union double_bits number = {.bits = 0};
    if (exponent >= DOUBLE_SPECIAL) {
        number.bits = DOUBLE_INFINITY;
    } else if (dropped <= 64) {
        uint64_t rest = x.significand << (64 - dropped);
        number.bits = dropped == 64 ? 0 : x.significand >> dropped;
        number.bits += rest > FIRST_BIT || (rest == FIRST_BIT && number.bits & 1);
        if (exponent > 0)
            number.bits += (uint64_t) (exponent - 1) << DOUBLE_FRACTION_BITS;
    }
    if (!x.significand)
        number.bits = 0;
    else if (number.bits == 0 || number.bits == DOUBLE_INFINITY)
        errno = ERANGE;
    if (x.is_negative)
        number.word.upper |= SIGN;
    return number.value;
}

float _float_of(double x) {
    float rounded = x;
    if (rounded == 0 ? x != 0 : isinf(rounded) && isfinite(x))
        errno = ERANGE;
    return rounded;
}

int _wide_is_less(struct wide left, struct wide right) {
    if (!left.significand || !right.significand)
        return left.significand < right.significand;
    return left.power < right.power || (left.power == right.power && left.significand < right.significand);
}

struct wide _wide_add(struct wide left, struct wide right) {
    struct wide large = left, small = right;
    if (_wide_is_less(left, right)) {
        large = right;
        small = left;
    }
    int shift = large.power - small.power;
    uint64_t added = small.significand && shift < 64 ? small.significand >> shift : 0;
    if (large.is_negative != small.is_negative) {
        large.significand -= added;
        return _wide_normal(large);
    }
    large.significand += added;
    if (large.significand < added) {
        large.significand = large.significand >> 1 | FIRST_BIT;
        large.power++;
    }
    return large;
}

struct wide _wide_subtract(struct wide left, struct wide right) {
    right.is_negative = !right.is_negative;
    return _wide_add(left, right);
}

struct wide _wide_multiply(struct wide left, struct wide right) {
    struct wide product = {
        _upper_product(left.significand, right.significand),
        left.power + right.power + 64,
        left.is_negative ^ right.is_negative,
    };
    if (!(product.significand >> 63)) {
        product.significand <<= 1;
        product.power--;
    }
    return product;
}

/* A bit of the quotient at a time. */
struct wide _wide_divide(struct wide left, struct wide right) {
    uint64_t rest = left.significand, quotient = 0;
    int is_whole = rest >= right.significand, steps = is_whole ? 63 : 64;
    if (is_whole) {
        rest -= right.significand;
        quotient = 1;
    }
    if (!left.significand)
        return left;
    for (int i = 0; i < steps; i++) {
        int carry = rest >> 63;
        rest <<= 1;
        quotient <<= 1;
        if (carry || rest >= right.significand) {
            rest -= right.significand;
            quotient |= 1;
        }
    }
    return (struct wide){quotient, left.power - right.power - steps, left.is_negative ^ right.is_negative};
}

/* The first 32 bits one at a time; what is left, divided by twice these, are the others. */
struct wide _wide_root(struct wide x) {
    uint64_t from = x.significand, root = 0, rest = 0, others = 0;
    if (!from)
        return x;
    if (x.power & 1) {
        from >>= 1;
        x.power++;
    }
    for (int i = 0; i < 32; i++) {
        rest = rest << 2 | from >> 62;
        from <<= 2;
        root <<= 1;
        if (rest >= (root << 1 | 1)) {
            rest -= root << 1 | 1;
            root |= 1;
        }
    }
    for (int i = 0; i < 32; i++) {
        rest <<= 1;
        others <<= 1;
        if (rest >= root << 1) {
            rest -= root << 1;
            others |= 1;
        }
    }
    return _wide_normal((struct wide){(root << 32) + others, x.power / 2 - 32, 0});
}

struct wide _wide_scale(struct wide x, int power) {
    x.power += power;
    return x;
}

uint64_t _wide_fraction(struct wide x) {
    int shift = -64 - x.power;
    return x.significand && shift < 64 ? x.significand >> shift : 0;
}

double _domain_error(void) {
    errno = EDOM;
    return NAN;
}

double _pole_error(int is_negative) {
    errno = ERANGE;
    return is_negative ? -HUGE_VAL : HUGE_VAL;
}
