/* Functions of floating numbers whose answers are exact, or rounded to the nearest: they work on the bits. */
#include "ieee.h"
#include "wide.h"
#include <errno.h>
#include <limits.h>
#include <math.h>

typedef union double_bits bits;

static double of_bits(uint64_t value) {
    bits number;
    number.bits = value;
    return number.value;
}

/* Turns a NaN quiet, by the arithmetic. */
static double quiet(double x) {
    return x + x;
}

int _classify(double x) {
    bits number = {x};
    int exponent = double_exponent(number);
    uint64_t fraction = double_fraction(number);
    if (exponent == DOUBLE_SPECIAL)
        return fraction ? FP_NAN : FP_INFINITE;
    return exponent ? FP_NORMAL : fraction ? FP_SUBNORMAL : FP_ZERO;
}

int _classifyf(float x) {
    union single_bits number = {x};
    int exponent = single_exponent(number);
    uint32_t fraction = single_fraction(number);
    if (exponent == SINGLE_SPECIAL)
        return fraction ? FP_NAN : FP_INFINITE;
    return exponent ? FP_NORMAL : fraction ? FP_SUBNORMAL : FP_ZERO;
}

double fabs(double x) {
    bits number = {x};
    number.word.upper &= ~SIGN;
    return number.value;
}

double copysign(double x, double sign) {
    bits number = {x}, other = {sign};
    number.word.upper = (number.word.upper & ~SIGN) | (other.word.upper & SIGN);
    return number.value;
}

/* The bits after the point, as a mask; none where the number is whole or special. */
static uint64_t behind_point(bits number) {
    int power = double_exponent(number) - DOUBLE_BIAS;
    if (power < 0)
        return ~0ull >> 1;
    return power >= DOUBLE_FRACTION_BITS ? 0 : (DOUBLE_ONE - 1) >> power;
}

double trunc(double x) {
    bits number = {x};
    if (_classify(x) == FP_NAN)
        return quiet(x);
    number.bits &= ~behind_point(number);
    return number.value;
}

double floor(double x) {
    double whole = trunc(x);
    return x < whole ? whole - 1 : whole;
}

double ceil(double x) {
    double whole = trunc(x);
    return x > whole ? copysign(whole + 1, x) : whole;
}

double round(double x) {
    double whole = trunc(x);
    return fabs(x - whole) >= 0.5 ? whole + copysign(1, x) : whole;
}

double rint(double x) {
    double whole = trunc(x), rest = fabs(x - whole);
    bits half = {whole / 2};
    int is_odd = (half.bits & behind_point(half)) != 0 && whole != 0;
    return rest > 0.5 || (rest == 0.5 && is_odd) ? whole + copysign(1, x) : whole;
}

double nearbyint(double x) {
    return rint(x);
}

long lround(double x) {
    return round(x);
}

long lrint(double x) {
    return rint(x);
}

double modf(double x, double *whole) {
    *whole = trunc(x);
    return copysign(_classify(x) == FP_INFINITE ? 0 : x - *whole, x);
}

double frexp(double x, int *exponent) {
    bits number = {x};
    *exponent = 0;
    if (_classify(x) <= FP_ZERO)
        return x;
    if (_classify(x) == FP_SUBNORMAL) {
        number.value = x * 0x1p54;
        *exponent = -54;
    }
    *exponent += double_exponent(number) - (DOUBLE_BIAS - 1);
    number.word.upper = (number.word.upper & ~(DOUBLE_INFINITY >> 32)) | (DOUBLE_BIAS - 1u) << 20;
    return number.value;
}

static double power_of_two(int exponent) {
    return of_bits((uint64_t) (exponent + DOUBLE_BIAS) << DOUBLE_FRACTION_BITS);
}

/* In steps that stay in the range until the last one, so that it is rounded once. */
double scalbn(double x, int exponent) {
    if (exponent > 3000)
        exponent = 3000;
    if (exponent < -3000)
        exponent = -3000;
    for (; exponent > 1023; exponent -= 1023)
        x *= power_of_two(1023);
    for (; exponent < -1022 + 53; exponent += 1022 - 53)
        x *= power_of_two(-1022 + 53);
    return x * power_of_two(exponent);
}

double ldexp(double x, int exponent) {
    return scalbn(x, exponent);
}

double fmin(double x, double y) {
    if (_classify(x) == FP_NAN)
        return y;
    return y < x ? y : x;
}

double fmax(double x, double y) {
    if (_classify(x) == FP_NAN)
        return y;
    return y > x ? y : x;
}

/* x less as often y as it fits: a bit of the quotient at a time. */
static uint64_t rest_of(uint64_t dividend, uint64_t divisor, int shifts) {
    for (; shifts > 0; shifts--) {
        if (dividend >= divisor)
            dividend -= divisor;
        dividend <<= 1;
    }
    return dividend >= divisor ? dividend - divisor : dividend;
}

/* The significand, and the power of two of its last bit. */
static uint64_t significand_of(double x, int *power) {
    double fraction = frexp(fabs(x), power);
    bits number = {fraction};
    *power -= DOUBLE_FRACTION_BITS + 1;
    return double_fraction(number) | DOUBLE_ONE;
}

double fmod(double x, double y) {
    int power, divisor_power;
    if (_classify(x) == FP_NAN || _classify(y) == FP_NAN)
        return x + y;
    if (_classify(x) == FP_INFINITE || y == 0)
        return _domain_error();
    if (fabs(x) < fabs(y) || x == 0)
        return x;
    uint64_t dividend = significand_of(x, &power), divisor = significand_of(y, &divisor_power);
    uint64_t rest = rest_of(dividend, divisor, power - divisor_power);
    return copysign(scalbn(rest, divisor_power), x);
}

/* The root of a number of 2 * bits bits, a bit at a time; the last bit is also set where something is left. */
static uint64_t root_of(uint64_t significand, int steps) {
    uint64_t root = 0, rest = 0;
    for (int i = 0; i < steps; i++) {
        rest = rest << 2 | significand >> 62;
        significand <<= 2;
        root <<= 1;
        if (rest >= (root << 1 | 1)) {
            rest -= root << 1 | 1;
            root |= 1;
        }
    }
    return root << 1 | (rest != 0);
}

double sqrt(double x) {
    int power;
    if (_classify(x) == FP_NAN || x == 0 || x == HUGE_VAL)
        return x == x ? x : quiet(x);
    if (x < 0) {
        errno = EDOM;
        return of_bits(DOUBLE_NAN);
    }
    uint64_t significand = significand_of(x, &power);
    if (power & 1) {
        significand <<= 1;
        power--;
    }
    /* 54 bits of the root and a trace, which is rounded as it becomes a double. */
    uint64_t root = root_of(significand << 10, 54);
    return scalbn((double) root, (power - 54) / 2 - 1);
}

float fabsf(float x) {
    union single_bits number = {x};
    number.bits &= ~SIGN;
    return number.value;
}

float copysignf(float x, float sign) {
    union single_bits number = {x}, other = {sign};
    number.bits = (number.bits & ~SIGN) | (other.bits & SIGN);
    return number.value;
}

float floorf(float x) {
    return floor(x);
}

float ceilf(float x) {
    return ceil(x);
}

float truncf(float x) {
    return trunc(x);
}

float roundf(float x) {
    return round(x);
}

float fmodf(float x, float y) {
    return fmod(x, y);
}

float fminf(float x, float y) {
    return fmin(x, y);
}

float fmaxf(float x, float y) {
    return fmax(x, y);
}

/* The root of a float has more than twice the bits that a double's rounding could hide. */
float sqrtf(float x) {
    return sqrt(x);
}
