/* Inverse functions of sine, cosine and tangent. */
#include "wide.h"
#include <math.h>

static const struct wide half_turn = {0xc90fdaa22168c235, -62, 0};

static struct wide magnitude_of(double x) {
    return _wide_of(fabs(x));
}

double atan(double x) {
    if (isnan(x) || x == 0)
        return x;
    if (isinf(x))
        return copysign(M_PI_2, x);
    struct wide angle = _wide_angle(magnitude_of(x), WIDE_ONE);
    angle.is_negative = x < 0;
    return _double_of(angle);
}

double atan2(double y, double x) {
    if (isnan(x) || isnan(y))
        return x + y;
    if (y == 0 || (isinf(x) && !isinf(y)))
        return copysign(signbit(x) ? M_PI : 0, y);
    if (isinf(x))
        return copysign(x < 0 ? 3 * M_PI_4 : M_PI_4, y);
    if (isinf(y))
        return copysign(M_PI_2, y);
    struct wide angle = _wide_angle(magnitude_of(y), magnitude_of(x));
    if (x < 0)
        angle = _wide_subtract(half_turn, angle);
    angle.is_negative = y < 0;
    return _double_of(angle);
}

/* The root of 1 - x^2. */
static struct wide other_side(struct wide x) {
    return _wide_root(_wide_multiply(_wide_subtract(WIDE_ONE, x), _wide_add(WIDE_ONE, x)));
}

double asin(double x) {
    if (isnan(x) || x == 0)
        return x;
    struct wide sine = magnitude_of(x);
    if (fabs(x) > 1)
        return _domain_error();
    struct wide angle = _wide_angle(sine, other_side(sine));
    angle.is_negative = x < 0;
    return _double_of(angle);
}

double acos(double x) {
    if (isnan(x))
        return x;
    struct wide cosine = magnitude_of(x);
    if (fabs(x) > 1)
        return _domain_error();
    struct wide angle = _wide_angle(other_side(cosine), cosine);
    return _double_of(x < 0 ? _wide_subtract(half_turn, angle) : angle);
}

float atanf(float x) {
    return atan(x);
}

float atan2f(float y, float x) {
    return atan2(y, x);
}

float asinf(float x) {
    return asin(x);
}

float acosf(float x) {
    return acos(x);
}
