/* The first digits of a number from a product of 128 bits with a power of ten. Where what is left of the product is so near to a half of the
   last digit that its error could decide, nothing is said, and the exact digits have to be found. */
#include "decimal.h"
#include "wide.h"
#include <string.h>

#define STEP 28                     /* powers of ten between two of the coarse ones */
#define COARSE_OF_ONE 11            /* where 10^0 is among them */
#define MOST_DIGITS 17              /* that are found in this way */
#define FIRST_DIGITS 18             /* of the whole part of a product, or one more */
#define TOLERANCE 64u               /* more than the error of a product, in units of 2^-64 */

/* 10^(28 (i - 11)) */
static const struct long_wide coarse[] = {
    {0xe61acf033d1a45df, 0x6fb92487298e33bd, -1151, 0},
    {0xe858ad248f5c22c9, 0xd1b3400f8f9cff68, -1058, 0},
    {0xea9c227723ee8bcb, 0x465e15a979c1cadc, -965, 0},
    {0xece53cec4a314ebd, 0xa4f8bf5635246428, -872, 0},
    {0xef340a98172aace4, 0x86fb897116c87c34, -779, 0},
    {0xf18899b1bc3f8ca1, 0xdc44e6c3cb279ac1, -686, 0},
    {0xf3e2f893dec3f126, 0x5a89dba3c3efccfa, -593, 0},
    {0xf64335bcf065d37d, 0x4d4617b5ff4a16d5, -500, 0},
    {0xf8a95fcf88747d94, 0x75a44c6397ce912a, -407, 0},
    {0xfb158592be068d2e, 0xeed6e2f0f0d56712, -314, 0},
    {0xfd87b5f28300ca0d, 0x8bca9d6e188853fc, -221, 0},
    {0x8000000000000000, 0x0000000000000000, -127, 0},
    {0x813f3978f8940984, 0x4000000000000000, -34, 0},
    {0x82818f1281ed449f, 0xbff8f10e7a8921a4, 59, 0},
    {0x83c7088e1aab65db, 0x792667c6da79e0fa, 152, 0},
    {0x850fadc09923329e, 0x03e2cf6bc604ddb0, 245, 0},
    {0x865b86925b9bc5c2, 0x0b8a2392ba45a9b2, 338, 0},
    {0x87aa9aff79042286, 0x90fb44d2f05d0842, 431, 0},
    {0x88fcf317f22241e2, 0x441fece3bdf81f03, 524, 0},
    {0x8a5296ffe33cc92f, 0x82bd6b70d99aaa6f, 617, 0},
    {0x8bab8eefb6409c1a, 0x1ad089b6c2f7548e, 710, 0},
    {0x8d07e33455637eb2, 0xdb0b487b6423e1e8, 803, 0},
    {0x8e679c2f5e44ff8f, 0x570f09eaa7ea7648, 896, 0},
    {0x8fcac257558ee4e6, 0x213a4f0aa5e8a7b1, 989, 0},
};

/* 10^i, exactly */
static const struct wide fine[] = {
    {0x8000000000000000, -63, 0}, {0xa000000000000000, -60, 0}, {0xc800000000000000, -57, 0}, {0xfa00000000000000, -54, 0},
    {0x9c40000000000000, -50, 0}, {0xc350000000000000, -47, 0}, {0xf424000000000000, -44, 0}, {0x9896800000000000, -40, 0},
    {0xbebc200000000000, -37, 0}, {0xee6b280000000000, -34, 0}, {0x9502f90000000000, -30, 0}, {0xba43b74000000000, -27, 0},
    {0xe8d4a51000000000, -24, 0}, {0x9184e72a00000000, -20, 0}, {0xb5e620f480000000, -17, 0}, {0xe35fa931a0000000, -14, 0},
    {0x8e1bc9bf04000000, -10, 0}, {0xb1a2bc2ec5000000, -7, 0}, {0xde0b6b3a76400000, -4, 0}, {0x8ac7230489e80000, 0, 0},
    {0xad78ebc5ac620000, 3, 0}, {0xd8d726b7177a8000, 6, 0}, {0x878678326eac9000, 10, 0}, {0xa968163f0a57b400, 13, 0},
    {0xd3c21bcecceda100, 16, 0}, {0x84595161401484a0, 20, 0}, {0xa56fa5b99019a5c8, 23, 0}, {0xcecb8f27f4200f3a, 26, 0},
};

/* The digits of a number from 10^17 to 10^19; answers how many they are. */
static int digits_of(uint64_t value, char *to) {
    static const uint64_t powers[] = {
        1000000000000000000, 100000000000000000, 10000000000000000, 1000000000000000, 100000000000000,
        10000000000000,      1000000000000,      100000000000,      10000000000,      1000000000,
    };
    char *at = to;
    for (unsigned i = 0; i < sizeof powers / sizeof *powers; i++) {
        char digit = '0';
        for (; value >= powers[i]; digit++)
            value -= powers[i];
        if (at > to || digit > '0')
            *at++ = digit;
    }
    _limb_digits(value, at);
    return at + LIMB_DIGITS - to;
}

/* Whether what is after `count` digits is at most the tolerance from a half. */
static int is_near_half(const char *digits, int count, int all, uint64_t fraction) {
    int is_below = digits[count] == '4';
    for (int i = count + 1; i < all; i++)
        if (digits[i] != (is_below ? '9' : '0'))
            return 0;
    return is_below ? fraction > -(uint64_t) TOLERANCE : digits[count] == '5' && fraction < TOLERANCE;
}

/* Adds one to the last of `count` digits; answers 1 where they become 10..0. */
static int count_up(char *digits, int count) {
    while (count-- > 0) {
        if (++digits[count] <= '9')
            return 0;
        digits[count] = '0';
    }
    digits[0] = '1';
    return 1;
}

static void put_digits(struct decimal *number, const char *digits, int count, int top) {
    int position = LIMB_DIGITS * WHOLE_LIMBS - 1 - top;
    int index = position / LIMB_DIGITS, place = position % LIMB_DIGITS;
    memset(number, 0, sizeof *number);
    number->first = index;
    while (count > 0 && digits[count - 1] == '0')
        count--;
    for (; count > 0; count--, digits++) {
        for (char digit = '0'; digit < *digits; digit++)
            number->limb[index] += _powers_of_ten[place];
        number->past = index + 1;
        if (++place == LIMB_DIGITS) {
            place = 0;
            index++;
        }
    }
}

int _decimal_near(struct decimal *number, uint64_t significand, int power, int digits, int places) {
    char text[FIRST_DIGITS + 1 + LIMB_DIGITS];
    struct wide value = _wide_normal((struct wide){significand, power, 0});
    int top = (value.power + 63) * 78913 >> 18;         /* of 2^e it is the exponent of ten */
    int scale = FIRST_DIGITS - 1 - top, row = (scale + STEP * COARSE_OF_ONE) / STEP;
    struct long_wide product = _long_multiply(coarse[row], fine[scale - STEP * (row - COARSE_OF_ONE)]);
    product = _long_multiply(product, value);
    _shift_long(&product.upper, &product.lower, -64 - product.power);
    int all = digits_of(product.upper, text);
    top += all - FIRST_DIGITS;
    if (digits <= 0)
        digits = places + top + 1;
    if (digits < 1 || digits > MOST_DIGITS || is_near_half(text, digits, all, product.lower))
        return 0;
    if (text[digits] >= '5')
        top += count_up(text, digits);
    put_digits(number, text, digits, top);
    return 1;
}
