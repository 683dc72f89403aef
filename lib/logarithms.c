/* Logarithms. */
#include "wide.h"
#include <math.h>

static const struct wide natural = {0xb17217f7d1cf79ac, -64, 0}, common = {0x9a209a84fbcff799, -65, 0};

/* Whether the answer needs no computation: it is then in *answer. */
static int is_simple(double x, double *answer) {
    if (x == 0)
        *answer = _pole_error(1);
    else if (x < 0)
        *answer = _domain_error();
    else if (!isfinite(x))
        *answer = x;
    else
        return 0;
    return 1;
}

double log(double x) {
    double answer;
    return is_simple(x, &answer) ? answer : _double_of(_wide_multiply(_wide_of_long(_wide_log2(_wide_of(x))), natural));
}

double log2(double x) {
    double answer;
    return is_simple(x, &answer) ? answer : _double_of(_wide_of_long(_wide_log2(_wide_of(x))));
}

double log10(double x) {
    double answer;
    return is_simple(x, &answer) ? answer : _double_of(_wide_multiply(_wide_of_long(_wide_log2(_wide_of(x))), common));
}

double log1p(double x) {
    if (x == -1)
        return _pole_error(1);
    if (x < -1)
        return _domain_error();
    return isfinite(x) ? _double_of(_wide_log1p(_wide_of(x))) : x;
}

float logf(float x) {
    return log(x);
}

float log2f(float x) {
    return log2(x);
}

float log10f(float x) {
    return log10(x);
}

float log1pf(float x) {
    return log1p(x);
}
