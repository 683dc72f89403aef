/* Functions of complex numbers, by those of real ones. */
#include <complex.h>
#include <math.h>

#define LARGE_TANGENT 20            /* from here on a hyperbolic tangent is 1 */
#define LARGE_ROOT 0x1p1020         /* above, a number is divided by 16 before its root is taken */

typedef double complex number;

double creal(number z) {
    return __real__ z;
}

double cimag(number z) {
    return __imag__ z;
}

double cabs(number z) {
    return hypot(__real__ z, __imag__ z);
}

double carg(number z) {
    return atan2(__imag__ z, __real__ z);
}

number conj(number z) {
    return CMPLX(__real__ z, -__imag__ z);
}

number cproj(number z) {
    return isinf(__real__ z) || isinf(__imag__ z) ? CMPLX(INFINITY, copysign(0, __imag__ z)) : z;
}

/* i times a number, and divided by i. */
static number turned(number z) {
    return CMPLX(-__imag__ z, __real__ z);
}

static number turned_back(number z) {
    return CMPLX(__imag__ z, -__real__ z);
}

number csqrt(number z) {
    double x = __real__ z, y = __imag__ z, scale = 1;
    if (x == 0 && y == 0)
        return CMPLX(0, y);
    if (isinf(y))
        return CMPLX(INFINITY, y);
    if (fabs(x) > LARGE_ROOT || fabs(y) > LARGE_ROOT) {
        x /= 16;
        y /= 16;
        scale = 4;
    }
    double larger = sqrt((hypot(x, y) + fabs(x)) / 2), smaller = larger == 0 || isinf(larger) ? 0 : fabs(y) / (2 * larger);
    if (x >= 0 || isnan(x))
        return CMPLX(larger * scale, copysign(smaller * scale, y));
    return CMPLX(smaller * scale, copysign(larger * scale, y));
}

number cexp(number z) {
    double size = exp(__real__ z);
    return __imag__ z == 0 ? CMPLX(size, __imag__ z) : CMPLX(size * cos(__imag__ z), size * sin(__imag__ z));
}

number clog(number z) {
    return CMPLX(log(cabs(z)), carg(z));
}

number cpow(number base, number power) {
    if (base == 0)
        return power == 0 ? 1 : 0;
    return cexp(power * clog(base));
}

number csinh(number z) {
    double x = __real__ z, y = __imag__ z;
    return CMPLX(sinh(x) * cos(y), cosh(x) * sin(y));
}

number ccosh(number z) {
    double x = __real__ z, y = __imag__ z;
    return CMPLX(cosh(x) * cos(y), sinh(x) * sin(y));
}

number ctanh(number z) {
    double x = __real__ z, y = __imag__ z;
    if (fabs(x) > LARGE_TANGENT)
        return CMPLX(copysign(1, x), 2 * sin(2 * y) * exp(-2 * fabs(x)));
    double divisor = cosh(2 * x) + cos(2 * y);
    return CMPLX(sinh(2 * x) / divisor, sin(2 * y) / divisor);
}

number csin(number z) {
    return turned_back(csinh(turned(z)));
}

number ccos(number z) {
    return ccosh(turned(z));
}

number ctan(number z) {
    return turned_back(ctanh(turned(z)));
}

/* The root stands where it cancels nothing: of a number on the left its opposite is taken. */
number casinh(number z) {
    if (__real__ z < 0)
        return -casinh(-z);
    return clog(z + csqrt(z * z + 1));
}

number casin(number z) {
    return turned_back(casinh(turned(z)));
}

number cacos(number z) {
    return M_PI_2 - casin(z);
}

number cacosh(number z) {
    return clog(z + csqrt(z + 1) * csqrt(z - 1));
}

number catanh(number z) {
    return (clog(1 + z) - clog(1 - z)) / 2;
}

number catan(number z) {
    return turned_back(catanh(turned(z)));
}

#define OF_FLOAT(result, name)               \
    float result name##f(float complex z) {  \
        return name(z);                      \
    }

OF_FLOAT(, creal)
OF_FLOAT(, cimag)
OF_FLOAT(, cabs)
OF_FLOAT(, carg)
OF_FLOAT(complex, conj)
OF_FLOAT(complex, cproj)
OF_FLOAT(complex, csqrt)
OF_FLOAT(complex, cexp)
OF_FLOAT(complex, clog)
OF_FLOAT(complex, csin)
OF_FLOAT(complex, ccos)
OF_FLOAT(complex, ctan)
OF_FLOAT(complex, csinh)
OF_FLOAT(complex, ccosh)
OF_FLOAT(complex, ctanh)
OF_FLOAT(complex, casin)
OF_FLOAT(complex, cacos)
OF_FLOAT(complex, catan)
OF_FLOAT(complex, casinh)
OF_FLOAT(complex, cacosh)
OF_FLOAT(complex, catanh)

float complex cpowf(float complex base, float complex power) {
    return cpow(base, power);
}
