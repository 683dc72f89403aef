/* The gamma function and its logarithm, by Stirling's series of a number that is large enough. */
#include "wide.h"
#include <errno.h>
#include <math.h>

#define LARGE 20                    /* from here on the series is exact enough */
#define MOST 172                    /* of which the gamma function is out of range */
#define LEAST (-185)

/* B(2 k) / (2 k (2 k - 1)) */
static const struct wide stirling[] = {
    {0xaaaaaaaaaaaaaaab, -67, 0}, {0xb60b60b60b60b60b, -72, 1}, {0xd00d00d00d00d00d, -74, 0},
    {0x9c09c09c09c09c0a, -74, 1}, {0xdca8f158c7f91ab8, -74, 0}, {0xfb5586ccc9e3e410, -73, 1},
    {0xd20d20d20d20d20d, -71, 0}, {0xf21436587a9cbee1, -69, 1}, {0xb7f4b1c0f033ffd1, -66, 0},
    {0xb23b3808c0f9cf6e, -63, 1},
};

static const struct wide root_of_two_pi = {0xa06c98ffb1382cb3, -62, 0}, half_turn = {0xc90fdaa22168c235, -62, 0};

/* 1 / 12 x - 1 / 360 x^3 .. */
static struct wide stirling_of(struct wide x) {
    struct wide inverse = _wide_divide(WIDE_ONE, x), square = _wide_multiply(inverse, inverse);
    struct wide sum = stirling[sizeof stirling / sizeof *stirling - 1];
    for (int i = sizeof stirling / sizeof *stirling - 2; i >= 0; i--)
        sum = _wide_add(_wide_multiply(sum, square), stirling[i]);
    return _wide_multiply(sum, inverse);
}

/* x^(x - 1/2) * e^-x * root(2 pi) * e^(1 / 12 x - ..) */
static struct wide gamma_of_large(struct wide x) {
    struct wide half = _wide_scale(WIDE_ONE, -1), minus = x;
    minus.is_negative = 1;
    struct wide power = _wide_exp2(_long_multiply(_wide_log2(x), _wide_subtract(x, half)));
    power = _wide_multiply(power, _wide_exp(minus));
    return _wide_multiply(_wide_multiply(power, _wide_exp(stirling_of(x))), root_of_two_pi);
}

/* Of a positive number: that of a larger one, divided by the numbers between. */
static struct wide gamma_of(struct wide x) {
    struct wide product = WIDE_ONE, large = _wide_of(LARGE);
    while (_wide_is_less(x, large)) {
        product = _wide_multiply(product, x);
        x = _wide_add(x, WIDE_ONE);
    }
    return _wide_divide(gamma_of_large(x), product);
}

/* The sine of pi times a number that is not whole, by the series of what is left to the nearest whole number. */
static struct wide sine_of_half_turns(double x) {
    double nearest = rint(x);
    struct wide angle = _wide_multiply(_wide_of(x - nearest), half_turn), square = _wide_multiply(angle, angle), term = angle, sum = angle;
    for (int i = 2; term.significand && term.power > sum.power - 66; i += 2) {
        term = _wide_divide(_wide_multiply(term, square), _wide_of(i * (i + 1)));
        term.is_negative = !term.is_negative;
        sum = _wide_add(sum, term);
    }
    sum.is_negative ^= fmod(nearest, 2) != 0;
    return sum;
}

double tgamma(double x) {
    if (x == 0)
        return _pole_error(signbit(x));
    if (isnan(x) || x == HUGE_VAL)
        return x;
    if (x < 0 && trunc(x) == x)
        return _domain_error();
    if (x > MOST)
        return _pole_error(0);
    if (x > 0)
        return _double_of(gamma_of(_wide_of(x)));
    if (x < LEAST) {
        errno = ERANGE;
        return fmod(trunc(x), 2) == 0 ? -0.0 : 0;
    }
    struct wide other = gamma_of(_wide_subtract(WIDE_ONE, _wide_of(x)));
    return _double_of(_wide_divide(_wide_divide(half_turn, sine_of_half_turns(x)), other));
}

float tgammaf(float x) {
    return _float_of(tgamma(x));
}

/* The logarithm of the gamma function: of numbers near 2 the series with these coefficients, so that it has all its bits where it is
   near 0; they are 1 - Euler's constant, and (zeta(k) - 1) / k with alternating signs. */
static const struct wide near_two[] = {
    {0xd8773039049e70b6, -65, 0}, {0xa51a6625307d3231, -65, 0}, {0x89f000d2abb03409, -67, 1},
    {0xa8991563ec241b60, -69, 0}, {0xf2027e10c7af8c37, -71, 1}, {0xbd6eb756db617ea5, -72, 0},
    {0x9c562e15fc703e76, -73, 1}, {0x859b57c31cb745f3, -74, 0}, {0xe9fea63b697e3e38, -76, 1},
    {0xd093d878beb2d19d, -77, 0}, {0xbc6f2debe40f7797, -78, 1}, {0xac06e77337581126, -79, 0},
    {0x9e5e4b1e7112142b, -80, 1}, {0x92cbd1cf9a555c81, -81, 0}, {0x88d975bb3caa08e4, -82, 1},
    {0x803266f5917879d0, -83, 0}, {0xf13006c9e7e975da, -85, 1}, {0xe3b5dd9f83d26bb3, -86, 0},
    {0xd7ad365dfc54bb2c, -87, 1}, {0xccdc9e1038587a06, -88, 0}, {0xc31639a6f9f56366, -89, 1},
    {0xba34ed667d6e6593, -90, 0}, {0xb21a54223d75681b, -91, 1}, {0xaaad43bffe9614f1, -92, 0},
    {0xa3d8b3c92c68720a, -93, 1}, {0x9d8ae9597e085e28, -94, 0}, {0x97b4d4fd5f1efcbd, -95, 1},
    {0x92499519ba1a620c, -96, 0}, {0x8d3e13761291e29f, -97, 1}, {0x8888b7349f6cbc72, -98, 0},
    {0x8421265e2a1ec141, -99, 1}, {0x80001371fb227a6b, -100, 0}, {0xf83e28a7e4f8505d, -102, 1},
};

static const struct wide natural = {0xb17217f7d1cf79ac, -64, 0}, log_of_root = {0xeb3f8e4325f5a535, -64, 0};

int signgam;

static struct wide log_of(struct wide x) {
    return _wide_multiply(_wide_of_long(_wide_log2(x)), natural);
}

static struct wide log_near_two(struct wide z) {
    struct wide sum = near_two[sizeof near_two / sizeof *near_two - 1];
    for (int i = sizeof near_two / sizeof *near_two - 2; i >= 0; i--)
        sum = _wide_add(_wide_multiply(sum, z), near_two[i]);
    return _wide_multiply(sum, z);
}

/* (x - 1/2) ln x - x + ln root(2 pi) + 1 / 12 x - .. */
static struct wide log_of_large(struct wide x) {
    struct wide product = _wide_multiply(_wide_subtract(x, _wide_scale(WIDE_ONE, -1)), log_of(x));
    return _wide_add(_wide_subtract(product, x), _wide_add(log_of_root, stirling_of(x)));
}

/* Of a positive number. */
static struct wide log_gamma_of(struct wide x) {
    struct wide product = WIDE_ONE, two = _wide_of(2), half = _wide_scale(WIDE_ONE, -1), large = _wide_of(LARGE);
    if (!_wide_is_less(x, large))
        return log_of_large(x);
    if (_wide_is_less(x, half))
        return _wide_subtract(log_near_two(x), log_of(_wide_multiply(x, _wide_add(x, WIDE_ONE))));
    struct wide over = _wide_subtract(x, WIDE_ONE);
    if (_wide_is_less(over, half) || over.is_negative)
        return _wide_subtract(log_near_two(over), _wide_log1p(over));
    if (_wide_is_less(x, _wide_of(2.5)))
        return log_near_two(_wide_subtract(x, two));
    while (_wide_is_less(x, large)) {
        product = _wide_multiply(product, x);
        x = _wide_add(x, WIDE_ONE);
    }
    return _wide_subtract(log_of_large(x), log_of(product));
}

double lgamma(double x) {
    signgam = x == 0 && signbit(x) ? -1 : 1;
    if (!isfinite(x))
        return x * x;
    if (trunc(x) == x && x <= 0)
        return _pole_error(0);
    if (x < 0 && fmod(floor(x), 2) != 0)
        signgam = -1;
    if (x > 0)
        return _double_of(log_gamma_of(_wide_of(x)));
    struct wide sine = sine_of_half_turns(x);
    sine.is_negative = 0;
    return _double_of(_wide_subtract(log_of(_wide_divide(half_turn, sine)), log_gamma_of(_wide_subtract(WIDE_ONE, _wide_of(x)))));
}

float lgammaf(float x) {
    return _float_of(lgamma(x));
}
