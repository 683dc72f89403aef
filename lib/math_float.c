/* Functions of float by those of double, of which one rounding more is not seen, and those that work on the bits. */
#include "ieee.h"
#include "wide.h"
#include <math.h>

float fdimf(float x, float y) {
    return _float_of(fdim(x, y));
}

float rintf(float x) {
    return rint(x);
}

float nearbyintf(float x) {
    return rint(x);
}

long lroundf(float x) {
    return lround(x);
}

long lrintf(float x) {
    return lrint(x);
}

long long llroundf(float x) {
    return llround(x);
}

long long llrintf(float x) {
    return llrint(x);
}

float modff(float x, float *whole) {
    double part, rest = modf(x, &part);
    *whole = part;
    return rest;
}

float frexpf(float x, int *exponent) {
    return frexp(x, exponent);
}

float ldexpf(float x, int exponent) {
    return _float_of(scalbn(x, exponent));
}

float scalbnf(float x, int exponent) {
    return _float_of(scalbn(x, exponent));
}

float scalblnf(float x, long exponent) {
    return _float_of(scalbn(x, exponent));
}

int ilogbf(float x) {
    return ilogb(x);
}

float logbf(float x) {
    return logb(x);
}

float remainderf(float x, float y) {
    return remainder(x, y);
}

float remquof(float x, float y, int *quotient) {
    return remquo(x, y, quotient);
}

float nexttowardf(float x, long double y) {
    union single_bits number = {x};
    if (isnan(x) || isnan(y))
        return x + y;
    if (x == y)
        return y;
    if (x == 0) {
        number.bits = 1;
        return copysignf(number.value, y);
    }
    number.bits += (x < y) == (x > 0) ? 1 : -1u;
    return number.value;
}

float nextafterf(float x, float y) {
    return nexttowardf(x, y);
}

/* The exact product is a double; a sum of doubles that is rounded to odd is right as a float. */
float fmaf(float x, float y, float z) {
    double product = (double) x * y, sum = product + z;
    union double_bits number = {sum};
    if (!isfinite(sum))
        return sum;
    double back = sum - product, error = (product - (sum - back)) + (z - back);
    if (error != 0 && !(number.bits & 1))
        number.bits += (error > 0) == (sum > 0) ? 1 : -1ull;
    return number.value;
}
