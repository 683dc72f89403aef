/* Logarithms to base 2, with more than 72 correct bits, as pow needs them. A number is divided by the power of two nearest to it
   and by a number near the quotient, of which the logarithm is in a table; a series gives that of the rest. */
#include "wide.h"

#define FIRST_STEP 45               /* quotients are 45 / 64 to 91 / 64 */
#define STEPS_OF_ONE 64
#define UNIT_POWER (-116)           /* of a fixed-point logarithm, which has 12 bits of a whole part */

static const uint64_t root_of_two = 0xb504f333f9de6484;

/* 256 * 64 / i, rounded; their product with the quotient is 1 + z with |z| < 2^-6. */
static const uint16_t reciprocal[] = {
    364, 356, 349, 341, 334, 328, 321, 315, 309, 303, 298, 293, 287, 282, 278, 273, 269, 264, 260, 256, 252, 248, 245, 241,
    237, 234, 231, 228, 224, 221, 218, 216, 213, 210, 207, 205, 202, 200, 197, 195, 193, 191, 188, 186, 184, 182, 180,
};

/* Minus the logarithm of reciprocal[i] / 256, in units of 2^-116. */
static const struct {
    uint64_t upper, lower;
} logarithm[] = {
    {0xfff7e012ba343340, 0x6635e5cdfd4c2970}, {0xfff8636557862acb, 0x7ceb987b42e3bb33},
    {0xfff8d8bf424d6e13, 0x0b200e1715e0f7ba}, {0xfff961c7ae421042, 0xeb5f7e95a3daee41},
    {0xfff9dc58e347d376, 0x96d266d6cdc95915}, {0xfffa47778c98bcc8, 0x6a1cab7d2ec23f0f},
    {0xfffac6f1dfc5c125, 0x8110a38f4e9157dd}, {0xfffb3671a72535f2, 0x9947070fc4aa8439},
    {0xfffba81662513dc0, 0x29a071eeb0f8e6f8}, {0xfffc1bf598dbee1b, 0x17115ab319ce62b6},
    {0xfffc7e492644d642, 0x37e3b24cecc60218}, {0xfffce246a2f95a92, 0x894657bccd6cc964},
    {0xfffd5c8a8df0b46e, 0xb6e9feecf48100b4}, {0xfffdc465cd155a90, 0x942b7579f0f8d3d5},
    {0xfffe18d13ee805a4, 0xde3424a2623d60e0}, {0xfffe8411169475d7, 0xec3be51cdcabc0b6},
    {0xfffedb4a481eca5c, 0x3765d30caea09a5f}, {0xffff4a2964538813, 0xc6764fc87b4a41f8},
    {0xffffa461a5e8f4b7, 0x59d6476077b9fbd4}, {0x0000000000000000, 0x0000000000000000},
    {0x00005d0fba187cd5, 0x58d9520d847df030}, {0x0000bb9ca64ecac6, 0xaaef2e1c07f0438f},
    {0x00010387efbca869, 0xda085be1cbaa1754}, {0x000164ce26c06715, 0x6b43e42925a938db},
    {0x0001c7b528b70f1c, 0x4fa1b273b9dd9bb4}, {0x000212fc719cc0c9, 0x257490fbf64c9655},
    {0x00025f3c65ab7fba, 0x1343a3384109039d}, {0x0002ac7b853ff596, 0x4190e41bca6ef95e},
    {0x000315130157f7a6, 0x4ccd536fc5bec1a5}, {0x000364c0492faa68, 0xb19bcd2611792255},
    {0x0003b5845a7c883a, 0x5fc8ae9c1372a9dc}, {0x0003ebfb1520c7c6, 0x9211fdec9e1ec5cf},
    {0x00043ea120112cd4, 0x421bc0f6d0aaadd0}, {0x000492734ac4f35b, 0x134107c0e54aecf4},
    {0x0004e77a385567db, 0xdfcad2f4710dff9a}, {0x000520d979a575e5, 0xaa8a607f6eeed318},
    {0x000577f73c7bab83, 0x910b5b643a6ecb71}, {0x0005b2c3da19723a, 0x80db6a0480592812},
    {0x00060c13643047f4, 0xca8eac292d569c96}, {0x000648600249374e, 0xdfdc46af57199319},
    {0x0006854bc50a606c, 0xf5ec39974b36773a}, {0x0006c2d9fd3d1a03, 0xfd43d88f8e28b063},
    {0x0007206770b517f9, 0x0e25762b11993c90}, {0x00075f9b02af0d5e, 0x30f52d6ae74fdad4},
    {0x00079f7d7f94e2ac, 0xd3bed456b24ed10f}, {0x0007e012ba343340, 0x6635e5cdfd4c2970},
    {0x0008215ea5cd3e4c, 0x4c79b39ffeebc293},
};

/* 1 / (k + 3) */
static const uint64_t series[] = {
    0x5555555555555555, 0x4000000000000000, 0x3333333333333333, 0x2aaaaaaaaaaaaaab, 0x2492492492492492,
    0x2000000000000000, 0x1c71c71c71c71c72, 0x199999999999999a, 0x1745d1745d1745d1, 0x1555555555555555,
};

/* 1 / ln 2 */
static const struct long_wide per_natural = {0xb8aa3b295c17f0bb, 0xbe87fed0691d3e89, -127, 0};

void _shift_long(uint64_t *upper, uint64_t *lower, int count) {
    if (count >= 64) {
        *lower = count < 128 ? *upper >> (count - 64) : 0;
        *upper = 0;
    } else if (count > 0) {
        *lower = *upper << (64 - count) | *lower >> count;
        *upper >>= count;
    }
}

static void add_long(struct long_wide *sum, uint64_t upper, uint64_t lower) {
    sum->lower += lower;
    sum->upper += upper + (sum->lower < lower);
}

static void negate_long(struct long_wide *x) {
    x->lower = -x->lower;
    x->upper = ~x->upper + (x->lower == 0);
}

struct long_wide _long_normal(struct long_wide x) {
    if (!x.upper) {
        x.upper = x.lower;
        x.lower = 0;
        x.power -= 64;
    }
    int zeros = x.upper ? __builtin_clzll(x.upper) : 0;
    if (zeros) {
        x.upper = x.upper << zeros | x.lower >> (64 - zeros);
        x.lower <<= zeros;
        x.power -= zeros;
    }
    return x;
}

struct long_wide _long_multiply(struct long_wide left, struct wide right) {
    struct long_wide product = {0, 0, left.power + right.power + 64, left.is_negative ^ right.is_negative};
    product.upper = _full_product(left.upper, right.significand, &product.lower);
    add_long(&product, 0, _upper_product(left.lower, right.significand));
    return _long_normal(product);
}

struct wide _wide_of_long(struct long_wide x) {
    return (struct wide){x.upper, x.power + 64, x.is_negative};
}

/* log2(1 + z) for |z| < 2^-6: z * (1 - z / 2 + z^2 * (1/3 - z / 4 + ..)) / ln 2, where z = Z * 2^(-64 - s). */
static struct long_wide log2_near_one(struct wide z) {
    int s = -64 - z.power;
    uint64_t square = _upper_product(z.significand, z.significand);
    uint64_t sum = _sum_of_powers(series, sizeof series / sizeof *series, _wide_fraction(z), !z.is_negative);
    uint64_t upper = z.significand, lower = 0;
    struct long_wide factor = {1ull << 63, 0, -127, 0};
    _shift_long(&upper, &lower, s + 2);
    if (!z.is_negative) {
        lower = -lower;
        upper = ~upper + (lower == 0);
    }
    add_long(&factor, upper, lower);
    upper = _upper_product(square, sum);
    lower = 0;
    _shift_long(&upper, &lower, 2 * s + 1);
    add_long(&factor, upper, lower);
    /* The factor is near 1, so that the product has the unit 2^-127, and that of the lower half of 1 / ln 2 the unit 2^-126. */
    struct long_wide product = _long_multiply(factor, (struct wide){per_natural.upper, -63, 0});
    uint64_t rest = _upper_product(factor.upper, per_natural.lower);
    add_long(&product, rest >> 63, rest << 1);
    return _long_multiply(product, z);
}

struct long_wide _wide_log2(struct wide x) {
    int exponent = x.power + 63, is_halved = x.significand > root_of_two, shift = 2 + is_halved;
    uint64_t quotient = x.significand >> shift;
    int step = (int) ((x.significand >> (54 + shift)) + 1) >> 1;
    exponent += is_halved;
    /* In units of 2^-69, of which 1 has so many that it is 0 in a word of 64 bits. */
    int64_t rest = quotient * reciprocal[step - FIRST_STEP];
    struct wide z = _wide_normal((struct wide){rest < 0 ? -rest : rest, -69, rest < 0});
    struct long_wide sum = {(uint64_t) exponent << 52, 0, UNIT_POWER, 0}, small = {0, 0, 0, 0};
    if (rest)
        small = log2_near_one(z);
    if (exponent == 0 && step == STEPS_OF_ONE)
        return small;
    add_long(&sum, logarithm[step - FIRST_STEP].upper, logarithm[step - FIRST_STEP].lower);
    _shift_long(&small.upper, &small.lower, UNIT_POWER - small.power);
    if (small.is_negative)
        negate_long(&small);
    add_long(&sum, small.upper, small.lower);
    sum.is_negative = sum.upper >> 63;
    if (sum.is_negative)
        negate_long(&sum);
    return _long_normal(sum);
}

/* Near 1 the series takes the number itself. */
struct wide _wide_log1p(struct wide x) {
    static const struct wide natural = {0xb17217f7d1cf79ac, -64, 0};
    if (!x.significand)
        return x;
    struct long_wide logarithm = x.power < -64 - 6 ? log2_near_one(x) : _wide_log2(_wide_add(WIDE_ONE, x));
    return _wide_multiply(_wide_of_long(logarithm), natural);
}
