/* Numbers in decimal, exactly: limbs of nine digits, the most significant first, and a point between two of them. */
#ifndef _DECIMAL_H
#define _DECIMAL_H

#include <stdint.h>

#define LIMB_DIGITS 9
#define LIMB 1000000000u
/* Room for each double and for what strtod reads: 2^1024 has 35 limbs, and 2^-1074 has 120 behind the point. */
#define WHOLE_LIMBS 40
#define ALL_LIMBS 180

struct decimal {
    int first, past;            /* limb[first] to limb[past - 1]; all others are 0 */
    uint32_t limb[ALL_LIMBS];   /* the point stands before limb[WHOLE_LIMBS] */
};

extern const uint32_t _powers_of_ten[LIMB_DIGITS];

void _decimal_of_integer(struct decimal *number, uint64_t value);
/* Times 2^exponent. Limbs that find no room on the right leave a trace in the last one. */
void _decimal_scale(struct decimal *number, int exponent);
/* The number significand * 2^power, which is not 0, rounded to so many digits, or to so many places after the point where `digits` is 0.
   Answers 0 where it has to be found exactly. */
int _decimal_near(struct decimal *number, uint64_t significand, int power, int digits, int places);
/* Leaves `places` digits behind the point, or takes digits before it where `places` is negative; to the nearest, and to
   the even one of two. */
void _decimal_round(struct decimal *number, int places);
/* Writes the nine digits of a limb. */
void _limb_digits(uint32_t limb, char *to);
/* Digits before the point without leading zeros: of 0.001 it is -2. Of 0 it is 1. */
int _decimal_digits(const struct decimal *number);

#endif
