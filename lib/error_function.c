/* The error function and its complement. */
#include "wide.h"
#include <math.h>

#define NEAR 1.0                    /* below it the complement is 1 less the function */
#define SERIES 2.5                  /* below it the function is a series */
#define FAR 28                      /* from here on the complement is 0 */

static const struct wide twice_per_root = {0x906eba8214db688d, -63, 0}, per_root = {0x906eba8214db688d, -64, 0};

/* e^-x^2: the square of the first 26 bits is exact, and what is left of the square is small. */
static struct wide bell(double x) {
    double first = (float) x;
    struct wide square = _wide_multiply(_wide_of(first), _wide_of(first)), rest = _wide_multiply(_wide_of(x - first), _wide_of(x + first));
    square.is_negative = 1;
    rest.is_negative = !rest.is_negative;
    return _wide_multiply(_wide_exp(square), _wide_exp(rest));
}

/* 2 / root(pi) * e^-x^2 * (x + 2 x^3 / 3 + 4 x^5 / 15 + ..), of which all terms are positive. */
static struct wide series(double x) {
    struct wide it = _wide_of(x), square = _wide_scale(_wide_multiply(it, it), 1), term = it, sum = it;
    for (int i = 3; term.significand && term.power > sum.power - 66; i += 2) {
        term = _wide_divide(_wide_multiply(term, square), _wide_of(i));
        sum = _wide_add(sum, term);
    }
    return _wide_multiply(_wide_multiply(sum, bell(x)), twice_per_root);
}

/* e^-x^2 / root(pi) / (x + 1/2 / (x + 1 / (x + 3/2 / ..))) */
static struct wide fraction(double x) {
    int steps = (int) (250 / (x * x)) + 12;
    struct wide it = _wide_of(x), below = it;
    for (; steps > 0; steps--)
        below = _wide_add(it, _wide_divide(_wide_scale(_wide_of(steps), -1), below));
    return _wide_divide(_wide_multiply(bell(x), per_root), below);
}

double erf(double x) {
    double magnitude = fabs(x);
    if (isnan(x) || x == 0)
        return x;
    if (magnitude > 6)
        return copysign(1, x);
    struct wide value = magnitude < SERIES ? series(magnitude) : _wide_subtract(WIDE_ONE, fraction(magnitude));
    value.is_negative = x < 0;
    return _double_of(value);
}

double erfc(double x) {
    if (isnan(x))
        return x;
    if (x > FAR)
        return isinf(x) ? 0 : _double_of((struct wide){1ull << 63, -2000, 0});
    if (x < -6)
        return 2;
    if (x < 0)
        return _double_of(_wide_add(WIDE_ONE, series(-x)));
    return _double_of(x < NEAR ? _wide_subtract(WIDE_ONE, series(x)) : fraction(x));
}

float erff(float x) {
    return erf(x);
}

float erfcf(float x) {
    return erfc(x);
}
