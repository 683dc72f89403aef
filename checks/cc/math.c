/* The functions of math.h: those that are exact told as bits, the others by eleven digits, on special values and on
   operands that are drawn from the number in the input. */
#include <math.h>
#include <stdint.h>
#include <stdio.h>

#define DRAWN 24

typedef union {
    double number;
    uint64_t bits;
} wide;

static uint32_t state;

static uint32_t draw(void) {
    state ^= state << 13;
    state ^= state >> 17;
    state ^= state << 5;
    return state;
}

static const uint64_t specials[] = {
    0x0000000000000000, 0x8000000000000000, 0x0000000000000001, 0x000fffffffffffff, 0x0010000000000000, 0x3fe0000000000000,
    0xbfe0000000000000, 0x3fdfffffffffffff, 0x3ff0000000000000, 0x3ff8000000000000, 0xc004000000000000, 0x432fffffffffffff,
    0x4330000000000001, 0x7fefffffffffffff, 0x7ff0000000000000, 0xfff0000000000000, 0x7ff7ffffffffffff,
};
#define SPECIALS (int) (sizeof specials / sizeof *specials)

static double number(int i) {
    wide drawn = {.bits = (uint64_t) draw() << 32 | draw()};
    if (i < SPECIALS)
        drawn.bits = specials[i];
    else if (i & 3)
        drawn.bits = (drawn.bits & 0x800fffffffffffff) | (uint64_t) (1023 - 8 + (drawn.bits >> 52) % 60) << 52;
    return drawn.number;
}

static void tell(double value) {
    wide bits = {value};
    printf(" %llx", (unsigned long long) bits.bits);
}

static void exact(double x, double y) {
    int power = 0;
    double whole, fraction = modf(x, &whole);
    tell(floor(x));
    tell(ceil(x));
    tell(trunc(x));
    tell(round(x));
    tell(rint(x));
    tell(sqrt(fabs(x)));
    tell(whole);
    tell(fraction);
    tell(frexp(x, &power));
    tell(ldexp(x, (int) (draw() % 2200) - 1100));
    tell(copysign(x, y));
    if (x == x && y == y) {
        tell(fmin(x, y + 1));
        tell(fmax(x, y - 1));
    }
    tell(fmod(x, y));
    printf(" %d %d %d %d\n", isfinite(x) ? power : 0, !!isnan(x) + 2 * !!isinf(x) + 4 * !!isnormal(x), !!signbit(x), fpclassify(x) == FP_ZERO);
}

/* Of numbers that are not large, for which the functions have an answer. */
static void near(void) {
    double x = (int) draw() / 400000000.0, y = (draw() >> 8) / 4000000.0 + 0.01;
    printf("%.11g %.11g %.11g %.11g %.11g ", exp(x), log(y), sin(x), cos(x), tan(x));
    printf("%.11g %.11g %.11g %.11g ", atan(x), atan2(x, y), asin(x / 6), acos(x / 6));
    printf("%.11g %.11g %.11g %.11g ", pow(y, x), exp2(x), log2(y), log10(y));
    printf("%.11g %.11g %.11g %.11g %.6g\n", sinh(x), cosh(x), tanh(x), hypot(x, y), sinf((float) x));
}

int main(void) {
    unsigned seed;
    if (scanf("%u", &seed) != 1)
        return 1;
    state = seed * 2654435761u + 88172645;
    for (int i = 0; i < DRAWN; i++) {
        double x = number(i), y = number(DRAWN - i);
        exact(x, y);
    }
    for (int i = 0; i < DRAWN; i++)
        near();
    printf("%g %g %g %g\n", pow(-2, 3), pow(-8, -1), pow(0, 0), pow(2, 0.5));
    return 0;
}
