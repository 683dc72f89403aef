/* Hyperbolic functions and their inverses. */
#include "wide.h"
#include <math.h>

#define FLAT 23                 /* tanh of more than that is 1 */

static struct wide magnitude_of(double x) {
    return _wide_of(fabs(x));
}

static double with_sign(struct wide value, double x) {
    value.is_negative = x < 0;
    return _double_of(value);
}

/* With m = e^x - 1 it is (m + m / (m + 1)) / 2. */
double sinh(double x) {
    if (x == 0 || !isfinite(x))
        return x;
    struct wide more = _wide_expm1(magnitude_of(x));
    return with_sign(_wide_scale(_wide_add(more, _wide_divide(more, _wide_add(WIDE_ONE, more))), -1), x);
}

double cosh(double x) {
    if (!isfinite(x))
        return fabs(x);
    struct wide power = _wide_exp(magnitude_of(x));
    return _double_of(_wide_scale(_wide_add(power, _wide_divide(WIDE_ONE, power)), -1));
}

/* With m = e^2x - 1 it is m / (m + 2). */
double tanh(double x) {
    if (isnan(x) || x == 0)
        return x;
    if (fabs(x) > FLAT)
        return copysign(1, x);
    struct wide more = _wide_expm1(_wide_scale(magnitude_of(x), 1));
    return with_sign(_wide_divide(more, _wide_add(_wide_scale(WIDE_ONE, 1), more)), x);
}

/* log1p(x + x^2 / (1 + root(1 + x^2))) */
double asinh(double x) {
    if (x == 0 || !isfinite(x))
        return x;
    struct wide it = magnitude_of(x), square = _wide_multiply(it, it);
    struct wide below = _wide_add(WIDE_ONE, _wide_root(_wide_add(WIDE_ONE, square)));
    return with_sign(_wide_log1p(_wide_add(it, _wide_divide(square, below))), x);
}

/* With y = x - 1 it is log1p(y + root(2 y + y^2)). */
double acosh(double x) {
    if (isnan(x) || x == HUGE_VAL)
        return x;
    if (x < 1)
        return _domain_error();
    struct wide above = _wide_subtract(_wide_of(x), WIDE_ONE);
    struct wide root = _wide_root(_wide_add(_wide_scale(above, 1), _wide_multiply(above, above)));
    return _double_of(_wide_log1p(_wide_add(above, root)));
}

/* log1p(2 x / (1 - x)) / 2 */
double atanh(double x) {
    if (isnan(x) || x == 0)
        return x;
    if (fabs(x) > 1)
        return _domain_error();
    if (fabs(x) == 1)
        return _pole_error(x < 0);
    struct wide it = magnitude_of(x);
    struct wide quotient = _wide_divide(_wide_scale(it, 1), _wide_subtract(WIDE_ONE, it));
    return with_sign(_wide_scale(_wide_log1p(quotient), -1), x);
}

float sinhf(float x) {
    return _float_of(sinh(x));
}

float coshf(float x) {
    return _float_of(cosh(x));
}

float tanhf(float x) {
    return tanh(x);
}

float asinhf(float x) {
    return asinh(x);
}

float acoshf(float x) {
    return acosh(x);
}

float atanhf(float x) {
    return atanh(x);
}
