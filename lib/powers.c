/* Powers, and roots that are powers. */
#include "wide.h"
#include <math.h>

double exp(double x) {
    if (isnan(x) || isinf(x))
        return x == -HUGE_VAL ? 0 : x;
    return _double_of(_wide_exp(_wide_of(x)));
}

double exp2(double x) {
    if (isnan(x) || isinf(x))
        return x == -HUGE_VAL ? 0 : x;
    struct wide it = _wide_of(x);
    return _double_of(_wide_exp2((struct long_wide){it.significand, 0, it.power - 64, it.is_negative}));
}

double expm1(double x) {
    if (isnan(x) || isinf(x))
        return x == -HUGE_VAL ? -1 : x;
    return _double_of(_wide_expm1(_wide_of(x)));
}

/* 0 for a number that is not whole, 1 for an odd one, 2 for an even one. */
static int evenness(double y) {
    double half = y / 2;
    return trunc(y) != y ? 0 : trunc(half) == half ? 2 : 1;
}

/* Where x is 0 or infinite, or y is infinite. */
static double special_power(double x, double y) {
    if (isinf(y)) {
        if (fabs(x) == 1)
            return 1;
        return (fabs(x) > 1) == (y > 0) ? HUGE_VAL : 0;
    }
    int is_negative = signbit(x) && evenness(y) == 1;
    if (x == 0 && y < 0)
        return _pole_error(is_negative);
    double magnitude = (x == 0) == (y > 0) ? 0 : HUGE_VAL;
    return is_negative ? -magnitude : magnitude;
}

double pow(double x, double y) {
    if (y == 0 || x == 1)
        return 1;
    if (isnan(x) || isnan(y))
        return x + y;
    if (x == 0 || isinf(x) || isinf(y))
        return special_power(x, y);
    int evenness_of_y = x < 0 ? evenness(y) : 2;
    if (evenness_of_y == 0)
        return _domain_error();
    struct wide base = _wide_of(fabs(x));
    struct wide power = _wide_exp2(_long_multiply(_wide_log2(base), _wide_of(y)));
    power.is_negative = evenness_of_y == 1;
    return _double_of(power);
}

/* A third is 2^65 / 3, rounded down, in units of 2^-65, and of that in units of 2^-129 once more. */
static struct long_wide third_of(struct long_wide x) {
    struct long_wide third = _long_multiply(x, (struct wide){0xaaaaaaaaaaaaaaaa, -65, 0});
    third.lower += third.upper;
    third.upper += third.lower < third.upper;
    return third;
}

double cbrt(double x) {
    if (x == 0 || !isfinite(x))
        return x;
    struct wide root = _wide_exp2(third_of(_wide_log2(_wide_of(fabs(x)))));
    root.is_negative = x < 0;
    return _double_of(root);
}

double hypot(double x, double y) {
    if (isinf(x) || isinf(y))
        return HUGE_VAL;
    if (isnan(x) || isnan(y))
        return x + y;
    struct wide a = _wide_of(x), b = _wide_of(y);
    return _double_of(_wide_root(_wide_add(_wide_multiply(a, a), _wide_multiply(b, b))));
}

float expf(float x) {
    return _float_of(exp(x));
}

float exp2f(float x) {
    return _float_of(exp2(x));
}

float expm1f(float x) {
    return _float_of(expm1(x));
}

float powf(float x, float y) {
    return _float_of(pow(x, y));
}

float cbrtf(float x) {
    return cbrt(x);
}

float hypotf(float x, float y) {
    return _float_of(hypot(x, y));
}
