/* Functions of math.h that were wrong: large angles, subnormal powers, logarithms of powers of ten, special values, errno. */
#include <errno.h>
#include <math.h>
#include <stdio.h>

static void show(const char *text, double value) {
    printf("%s %.15g%s\n", text, value, errno == EDOM ? " EDOM" : errno == ERANGE && !(fabs(value) > 0 && fabs(value) < 1e-300) ? " ERANGE" : "");
    errno = 0;
}

#define SHOW(it) show(#it, it)
#define SHOW_SIGNLESS(it) show(#it, fabs(it))

int main(void) {
    volatile double none = 0, one = 1, infinite = HUGE_VAL, unordered = HUGE_VAL - HUGE_VAL;
    SHOW(sin(1e22 * one));
    SHOW(cos(1e22 * one));
    SHOW(sin(1e8 * one));
    SHOW(tan(1e300 * one));
    SHOW((int) log10(1000 * one) * one);
    SHOW(pow(2, -1024 * one));
    SHOW(pow(10, -310 * one));
    SHOW(pow(1.001, 1000 * one));
    SHOW(pow(0.7, 123.4 * one));
    SHOW(tanh(1e-5 * one));
    SHOW(tanh(0.3 * one));
    SHOW(hypot(infinite, unordered));
    SHOW(hypot(unordered, -infinite));
    SHOW(hypot(3e200 * one, 4e200));
    SHOW(pow(unordered, none));
    SHOW(pow(one, unordered));
    SHOW(pow(-one, infinite));
    SHOW(pow(-infinite, 3));
    SHOW(pow(-infinite, -3));
    SHOW(pow(-2 * one, -2001));
    SHOW(pow(none, -one));
    SHOW_SIGNLESS(pow(-2 * one, 0.5));
    SHOW(exp(1000 * one));
    SHOW(exp(-1000 * one));
    SHOW(exp(-infinite));
    SHOW(log(none));
    SHOW_SIGNLESS(log(-one));
    SHOW_SIGNLESS(sin(infinite));
    SHOW_SIGNLESS(acos(2 * one));
    SHOW(cosh(800 * one));
    SHOW(cbrt(-27 * one));
    SHOW(expm1(1e-10 * one));
    SHOW(log1p(1e-10 * one));
    SHOW(asinh(1e-3 * one));
    SHOW(acosh(1.5 * one));
    SHOW(atanh(0.5 * one));
    SHOW(tgamma(5.5 * one));
    SHOW(tgamma(-1.5 * one));
    SHOW(erf(0.5 * one));
    SHOW(erfc(3 * one));
    SHOW(fma(one + 0x1p-30, one - 0x1p-30, -1));
    SHOW(remainder(7.5 * one, 2));
    SHOW(nextafter(one, 2) - 1);
    SHOW(fdim(3 * one, 1) + ilogb(1e10 * one) + llround(2.5 * one) + isgreater(one, none));
    SHOW(fmaf(3 * one, 2, 1) + floorf(sinhf(one)) + tgammaf(4 * one) + rintf(2.5f * one));
    return 0;
}
