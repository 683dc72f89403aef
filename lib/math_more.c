/* More functions of floating numbers whose answers are exact, or rounded once. */
#include "ieee.h"
#include "wide.h"
#include <errno.h>
#include <limits.h>
#include <math.h>
#include <stddef.h>

double fdim(double x, double y) {
    if (isnan(x) || isnan(y))
        return x + y;
    if (!(x > y))
        return 0;
    double difference = x - y;
    if (isinf(difference) && isfinite(x) && isfinite(y))
        errno = ERANGE;
    return difference;
}

long long llround(double x) {
    return round(x);
}

long long llrint(double x) {
    return rint(x);
}

double scalbln(double x, long exponent) {
    return scalbn(x, exponent);
}

double nan(const char *text) {
    (void) text;
    return NAN;
}

float nanf(const char *text) {
    (void) text;
    return NAN;
}

int ilogb(double x) {
    int exponent;
    if (x == 0 || !isfinite(x)) {
        errno = EDOM;
        return x == 0 ? FP_ILOGB0 : isnan(x) ? FP_ILOGBNAN : INT_MAX;
    }
    frexp(x, &exponent);
    return exponent - 1;
}

double logb(double x) {
    if (x == 0)
        return _pole_error(1);
    if (!isfinite(x))
        return x * x;
    return ilogb(x);
}

double nextafter(double x, double y) {
    union double_bits number = {x};
    if (isnan(x) || isnan(y))
        return x + y;
    if (x == y)
        return y;
    if (x == 0) {
        number.value = 0;
        number.bits = 1;
        number.value = copysign(number.value, y);
    } else {
        number.bits += (x < y) == (x > 0) ? 1 : -1ull;
    }
    if (!isnormal(number.value))
        errno = ERANGE;
    return number.value;
}

#define LARGE_DIVISOR 0x1p1020      /* eight times more may be out of range */
#define SMALLER 0x1p-4

/* What is left of x, of which the multiples of the divisor are taken that are below it, and the last bits of their number. */
static double rest_and_count(double x, double divisor, int *count) {
    double rest = fmod(x, 8 * divisor);
    *count = 0;
    for (int step = 4; step; step >>= 1)
        if (rest >= step * divisor) {
            rest -= step * divisor;
            *count += step;
        }
    return rest;
}

/* The remainder is nearest to 0, and the quotient even where two are as near; of the quotient the last bits are kept. */
double remquo(double x, double y, int *quotient) {
    *quotient = 0;
    if (isnan(x) || isnan(y))
        return x + y;
    if (isinf(x) || y == 0)
        return _domain_error();
    int is_negative = !signbit(x) != !signbit(y), count = 0;
    double rest = fabs(x), divisor = fabs(y), scale = 1;
    if (isinf(divisor) || (divisor >= LARGE_DIVISOR && rest < divisor / 2))
        return x;
    if (divisor >= LARGE_DIVISOR) {
        rest *= SMALLER;
        divisor *= SMALLER;
        scale = 1 / SMALLER;
    }
    rest = rest_and_count(rest, divisor, &count);
    if (rest > divisor - rest || (rest == divisor - rest && count & 1)) {
        rest -= divisor;
        count++;
    }
    *quotient = is_negative ? -(count & 7) : count & 7;
    rest = rest == 0 ? 0 : rest * scale;
    return signbit(x) ? -rest : rest;
}

double remainder(double x, double y) {
    int quotient;
    return remquo(x, y, &quotient);
}

/* The last bit of a number says also whether what is after it was not 0. */
static void shift_with_trace(struct long_wide *x, int count) {
    struct long_wide before = *x;
    if (count <= 0)
        return;
    _shift_long(&x->upper, &x->lower, count);
    int is_lost = count >= 128 ? (before.upper | before.lower) != 0
                  : count > 64 ? (before.lower | before.upper << (128 - count)) != 0
                  : count == 64 ? before.lower != 0 : before.lower << (64 - count) != 0;
    x->lower |= is_lost;
}

static int is_smaller(const struct long_wide *left, const struct long_wide *right) {
    return left->upper < right->upper || (left->upper == right->upper && left->lower < right->lower);
}

/* The exact product has 106 bits; sums are made of 128 bits with a trace, and rounded once. */
static double sum_of_long(struct long_wide large, struct long_wide small) {
    if (large.power < small.power || (large.power == small.power && is_smaller(&large, &small))) {
        struct long_wide other = large;
        large = small;
        small = other;
    }
    /* One bit is left free for a carry, and the others for a borrow from the trace. */
    int distance = large.power - small.power;
    shift_with_trace(&large, 1);
    shift_with_trace(&small, distance + 1);
    if (large.is_negative == small.is_negative) {
        large.lower += small.lower;
        large.upper += small.upper + (large.lower < small.lower);
    } else {
        uint64_t lower = large.lower - small.lower;
        large.upper -= small.upper + (large.lower < small.lower);
        large.lower = lower;
    }
    if (!(large.upper | large.lower))
        return 0;
    large.power++;
    large = _long_normal(large);
    return _double_of((struct wide){large.upper | (large.lower != 0), large.power + 64, large.is_negative});
}

double fma(double x, double y, double z) {
    if (!isfinite(x) || !isfinite(y) || x == 0 || y == 0)
        return x * y + z;
    if (!isfinite(z))
        return z;
    struct wide left = _wide_of(x), right = _wide_of(y), added = _wide_of(z);
    struct long_wide product = {0, 0, left.power + right.power, left.is_negative ^ right.is_negative};
    product.upper = _full_product(left.significand, right.significand, &product.lower);
    product = _long_normal(product);
    if (z == 0)
        return _double_of((struct wide){product.upper | (product.lower != 0), product.power + 64, product.is_negative});
    return sum_of_long(product, (struct long_wide){added.significand, 0, added.power - 64, added.is_negative});
}
