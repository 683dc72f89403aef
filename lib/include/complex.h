/* Functions of complex numbers. */
#ifndef _COMPLEX_H
#define _COMPLEX_H

#define complex _Complex
#define _Complex_I (__extension__ 1.0iF)
#define I _Complex_I
#define CMPLX(real, imaginary) __builtin_complex((double) (real), (double) (imaginary))
#define CMPLXF(real, imaginary) __builtin_complex((float) (real), (float) (imaginary))
#define CMPLXL(real, imaginary) __builtin_complex((long double) (real), (long double) (imaginary))

#define _OF_COMPLEX(result, name)              \
    double result name(double complex z);      \
    float result name##f(float complex z);     \
    long double result name##l(long double complex z) __asm__(#name);

_OF_COMPLEX(, creal)
_OF_COMPLEX(, cimag)
_OF_COMPLEX(, cabs)
_OF_COMPLEX(, carg)
_OF_COMPLEX(complex, conj)
_OF_COMPLEX(complex, cproj)
_OF_COMPLEX(complex, csqrt)
_OF_COMPLEX(complex, cexp)
_OF_COMPLEX(complex, clog)
_OF_COMPLEX(complex, csin)
_OF_COMPLEX(complex, ccos)
_OF_COMPLEX(complex, ctan)
_OF_COMPLEX(complex, csinh)
_OF_COMPLEX(complex, ccosh)
_OF_COMPLEX(complex, ctanh)
_OF_COMPLEX(complex, casin)
_OF_COMPLEX(complex, cacos)
_OF_COMPLEX(complex, catan)
_OF_COMPLEX(complex, casinh)
_OF_COMPLEX(complex, cacosh)
_OF_COMPLEX(complex, catanh)
#undef _OF_COMPLEX

double complex cpow(double complex base, double complex power);
float complex cpowf(float complex base, float complex power);
long double complex cpowl(long double complex base, long double complex power) __asm__("cpow");

#endif
