/* Numbers with a significand of 64 bits: the functions of math.h compute with them, and round once at their end. A product
   of two significands costs fewer statements than a product of doubles, and a sum of two fixed-point numbers far fewer. */
#ifndef _WIDE_H
#define _WIDE_H

#include <stdint.h>

/* significand * 2^power. The first bit of a significand is set, unless it is 0. */
struct wide {
    uint64_t significand;
    int power, is_negative;
};

/* (upper * 2^64 + lower) * 2^power. */
struct long_wide {
    uint64_t upper, lower;
    int power, is_negative;
};

#define WIDE_ONE ((struct wide){1ull << 63, -63, 0})

/* The upper half of a product of 128 bits, and all of it. */
uint64_t _upper_product(uint64_t left, uint64_t right);
uint64_t _full_product(uint64_t left, uint64_t right, uint64_t *lower);

/* The sum of coefficient[i] * x^i for numbers below 1 in units of 2^-64; signs alternate where `is_alternating` is set. */
uint64_t _sum_of_powers(const uint64_t *coefficient, int count, uint64_t x, int is_alternating);

struct wide _wide_of(double x);                 /* exact */
double _double_of(struct wide x);               /* rounded to nearest; sets errno where the range of double is left */
float _float_of(double x);                      /* likewise, for the range of float */
struct wide _wide_normal(struct wide x);        /* with the first bit of the significand set */
struct wide _wide_add(struct wide left, struct wide right);
struct wide _wide_subtract(struct wide left, struct wide right);
struct wide _wide_multiply(struct wide left, struct wide right);
struct wide _wide_divide(struct wide left, struct wide right);
struct wide _wide_root(struct wide x);
struct wide _wide_scale(struct wide x, int power);
int _wide_is_less(struct wide left, struct wide right);   /* of magnitudes */
uint64_t _wide_fraction(struct wide x);         /* the magnitude of a number below 1, in units of 2^-64 */

struct long_wide _long_normal(struct long_wide x);
struct long_wide _long_multiply(struct long_wide left, struct wide right);
void _shift_long(uint64_t *upper, uint64_t *lower, int count);     /* right */
struct wide _wide_of_long(struct long_wide x);

struct long_wide _wide_log2(struct wide x);     /* of a positive number */
struct wide _wide_exp2(struct long_wide x);
struct wide _wide_exp(struct wide x);
struct wide _wide_expm1(struct wide x);
struct wide _wide_log1p(struct wide x);         /* of a number above -1 */

/* The angle of a point with coordinates that are not negative, and not both 0. */
struct wide _wide_angle(struct wide y, struct wide x);

double _domain_error(void);                     /* a NaN, and errno is EDOM */
double _pole_error(int is_negative);            /* an infinity, and errno is ERANGE */

#endif
