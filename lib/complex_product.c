/* What gcc calls for products and quotients of complex numbers. Where both parts would be no numbers, though a factor is infinite, the
   result is infinite, as C says it. Those of float are computed in double, and rounded once more. */
#include <math.h>

typedef double _Complex complex_double;

/* 1 or 0 with the sign of x: what an infinite part and a finite one count for. */
static double unit_of(double x) {
    return copysign(isinf(x) ? 1 : 0, x);
}

static double without_nan(double x) {
    return isnan(x) ? copysign(0, x) : x;
}

static complex_double infinite_product(double a, double b, double c, double d) {
    int is_infinite = isinf(a * c) || isinf(b * d) || isinf(a * d) || isinf(b * c);
    if (isinf(a) || isinf(b)) {
        a = unit_of(a);
        b = unit_of(b);
        c = without_nan(c);
        d = without_nan(d);
        is_infinite = 1;
    }
    if (isinf(c) || isinf(d)) {
        c = unit_of(c);
        d = unit_of(d);
        a = without_nan(a);
        b = without_nan(b);
        is_infinite = 1;
    }
    if (!is_infinite)
        return __builtin_complex((double) NAN, (double) NAN);
    a = without_nan(a);
    b = without_nan(b);
    c = without_nan(c);
    d = without_nan(d);
    return __builtin_complex(INFINITY * (a * c - b * d), INFINITY * (a * d + b * c));
}

complex_double __muldc3(double a, double b, double c, double d) {
    double real = a * c - b * d, imaginary = a * d + b * c;
    return isnan(real) && isnan(imaginary) ? infinite_product(a, b, c, d) : __builtin_complex(real, imaginary);
}

static complex_double special_quotient(double a, double b, double c, double d, double real, double imaginary) {
    if (c == 0 && d == 0 && (!isnan(a) || !isnan(b))) {
        real = copysign(INFINITY, c) * a;
        imaginary = copysign(INFINITY, c) * b;
    } else if ((isinf(a) || isinf(b)) && isfinite(c) && isfinite(d)) {
        real = INFINITY * (unit_of(a) * c + unit_of(b) * d);
        imaginary = INFINITY * (unit_of(b) * c - unit_of(a) * d);
    } else if ((isinf(c) || isinf(d)) && isfinite(a) && isfinite(b)) {
        real = 0 * (a * unit_of(c) + b * unit_of(d));
        imaginary = 0 * (b * unit_of(c) - a * unit_of(d));
    }
    return __builtin_complex(real, imaginary);
}

/* part * 2^power: products and sums of such numbers stay in range. */
struct scaled {
    double part;
    int power;
};

static struct scaled scaled(double x) {
    struct scaled it;
    it.part = frexp(x, &it.power);
    return it;
}

static struct scaled times(struct scaled x, struct scaled y) {
    x.part *= y.part;
    x.power += y.power;
    return x;
}

static struct scaled plus(struct scaled x, struct scaled y) {
    if (x.part == 0 || (y.part != 0 && x.power < y.power)) {
        struct scaled less = x;
        x = y;
        y = less;
    }
    x.part += scalbn(y.part, y.power - x.power);
    return x;
}

static double over(struct scaled x, struct scaled y) {
    return scalbn(x.part / y.part, x.power - y.power);
}

complex_double __divdc3(double a, double b, double c, double d) {
    double real = NAN, imaginary = NAN;
    if (isfinite(a) && isfinite(b) && isfinite(c) && isfinite(d)) {
        struct scaled p = scaled(a), q = scaled(b), r = scaled(c), s = scaled(d), minus_p = scaled(-a);
        struct scaled square = plus(times(r, r), times(s, s));
        real = over(plus(times(p, r), times(q, s)), square);
        imaginary = over(plus(times(q, r), times(minus_p, s)), square);
    }
    return isnan(real) && isnan(imaginary) ? special_quotient(a, b, c, d, real, imaginary) : __builtin_complex(real, imaginary);
}

float _Complex __mulsc3(float a, float b, float c, float d) {
    return __muldc3(a, b, c, d);
}

float _Complex __divsc3(float a, float b, float c, float d) {
    return __divdc3(a, b, c, d);
}
