/* Arc tangents: of a quotient that is at most 1, less that of the nearest sixteenth. */
#include "wide.h"

#define SIXTEENTH (-4)

/* The arc tangents of i / 16, in units of 2^-64. */
static const uint64_t angles[] = {
    0x0000000000000000, 0x0ffaaddb967ef4e3, 0x1fd5ba9aac2f6dc6, 0x2f72f6979cb6044d, 0x3eb6ebf25901bac5,
    0x4d89dcdc1faf2f35, 0x5bd86507937bc23a, 0x6993bb0f308ff2db, 0x76b19c1586ed3da3, 0x832bf4a6d9867e2a,
    0x8f005d5ef7f59f9b, 0x9a2f80e671bdda20, 0xa4bc7d1934f70924, 0xaeac4c38b4d8c080, 0xb8053e2bc2319e74,
    0xc0ce85b8ac526641, 0xc90fdaa22168c235,
};

/* 1 / (2 k + 3) */
static const uint64_t series[] = {
    0x5555555555555555, 0x3333333333333333, 0x2492492492492492, 0x1c71c71c71c71c72, 0x1745d1745d1745d1,
    0x13b13b13b13b13b1, 0x1111111111111111,
};

/* Of a number of at most 1/32. */
static struct wide small_angle(struct wide x) {
    uint64_t fraction = _wide_fraction(x), square = _upper_product(fraction, fraction);
    uint64_t less = _upper_product(_sum_of_powers(series, sizeof series / sizeof *series, square, 1), square);
    return _wide_multiply(x, (struct wide){-(less + 1), -64, 0});
}

static struct wide angle_of(struct wide quotient) {
    if (!quotient.significand || quotient.power < -64 - 5)
        return small_angle(quotient);
    int step = quotient.power > -64 ? 16 : (int) ((_wide_fraction(quotient) >> 59) + 1) >> 1;
    struct wide near = _wide_normal((struct wide){step, SIXTEENTH, 0});
    struct wide above = _wide_subtract(quotient, near), below = _wide_add(WIDE_ONE, _wide_multiply(quotient, near));
    struct wide base = _wide_normal((struct wide){angles[step], -64, 0});
    return _wide_add(base, small_angle(_wide_divide(above, below)));
}

struct wide _wide_angle(struct wide y, struct wide x) {
    static const struct wide right_angle = {0xc90fdaa22168c235, -63, 0};
    if (_wide_is_less(x, y))
        return _wide_subtract(right_angle, angle_of(_wide_divide(x, y)));
    return angle_of(_wide_divide(y, x));
}
