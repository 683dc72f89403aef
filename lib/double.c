/* What gcc calls for double: IEEE 754, rounded to the nearest and to the even one of two. A number that is neither
   zero nor special is taken apart into its sign, its exponent and its significand with three bits more: the leading
   bit stands at 55, and the last bit is also set where bits behind it were lost. */
#include "ieee.h"
#include "int64.h"

#define EXTRA 3                             /* bits behind the last one of the format */
#define LEADING (DOUBLE_FRACTION_BITS + EXTRA)
#define EXTRA_MASK ((1u << EXTRA) - 1)
#define HALF (1u << (EXTRA - 1))

typedef union double_bits bits;

struct parts {
    uint32_t sign;                          /* SIGN or 0 */
    int exponent;                           /* with its bias; 0 and less for subnormal numbers */
    uint64_t significand;
};

static double of_bits(uint64_t value) {
    bits number;
    number.bits = value;
    return number.value;
}

static double of_words(uint32_t upper, uint32_t lower) {
    bits number;
    number.word.upper = upper;
    number.word.lower = lower;
    return number.value;
}

static double zero(uint32_t sign) {
    return of_words(sign, 0);
}

static double infinity(uint32_t sign) {
    return of_words(sign | DOUBLE_INFINITY >> 32, 0);
}

static int is_zero(bits number) {
    return (number.word.upper << 1 | number.word.lower) == 0;
}

static int is_special(bits number) {
    return double_exponent(number) == DOUBLE_SPECIAL;
}

static int is_nan(bits number) {
    uint32_t upper = number.word.upper & ~SIGN, infinite = DOUBLE_INFINITY >> 32;
    return upper > infinite || (upper == infinite && number.word.lower);
}

/* Shifts right; the last bit keeps a trace of what goes. */
static uint64_t shift_down(uint64_t value, int count) {
    if (count == 0)
        return value;
    if (count > LEADING + 1)
        return value != 0;
    uint64_t kept = value >> count;
    return kept | (kept << count != value);
}

static struct parts unpack(bits number) {
    struct parts parts = {number.word.upper & SIGN, double_exponent(number), double_fraction(number)};
    if (parts.exponent) {
        parts.significand |= DOUBLE_ONE;
    } else {
        int missing = __clzdi2(parts.significand) - (63 - DOUBLE_FRACTION_BITS);
        parts.significand <<= missing;
        parts.exponent = 1 - missing;
    }
    parts.significand <<= EXTRA;
    return parts;
}

/* Rounds, and puts together. */
static double pack(uint32_t sign, int exponent, uint64_t significand) {
    if (exponent >= DOUBLE_SPECIAL)
        return infinity(sign);
    if (exponent <= 0) {
        significand = shift_down(significand, 1 - exponent);
        exponent = 0;
    }
    uint32_t rest = (uint32_t) significand & EXTRA_MASK;
    significand >>= EXTRA;
    if (rest > HALF || (rest == HALF && significand & 1))
        significand++;
    bits number = {.bits = significand};
    if (exponent)
        number.word.upper += (uint32_t) (exponent - 1) << (DOUBLE_FRACTION_BITS - 32);
    number.word.upper |= sign;
    return number.value;
}

static double pack_normalized(uint32_t sign, int exponent, uint64_t significand) {
    int missing = __clzdi2(significand) - (63 - LEADING);
    return pack(sign, exponent - missing, significand << missing);
}

static double add_special(bits left, bits right) {
    if (is_nan(left) || is_nan(right))
        return of_bits(DOUBLE_NAN);
    if (is_special(left) && is_special(right) && left.bits != right.bits)
        return of_bits(DOUBLE_NAN);
    return is_special(left) ? left.value : right.value;
}

static int is_smaller(bits left, bits right) {
    return (left.bits << 1) < (right.bits << 1);
}

static double add(bits left, bits right) {
    if (is_special(left) || is_special(right))
        return add_special(left, right);
    if (is_zero(left))
        return is_zero(right) ? zero(left.word.upper & right.word.upper) : right.value;
    if (is_zero(right))
        return left.value;
    struct parts large = unpack(left), small = unpack(right);
    if (is_smaller(left, right)) {
        struct parts other = large;
        large = small;
        small = other;
    }
    small.significand = shift_down(small.significand, large.exponent - small.exponent);
    if (large.sign == small.sign) {
        large.significand += small.significand;
        if (large.significand >> (LEADING + 1))
            return pack(large.sign, large.exponent + 1, shift_down(large.significand, 1));
        return pack(large.sign, large.exponent, large.significand);
    }
    large.significand -= small.significand;
    if (large.significand == 0)
        return 0;
    return pack_normalized(large.sign, large.exponent, large.significand);
}

double __adddf3(double left, double right) {
    return add((bits){left}, (bits){right});
}

double __subdf3(double left, double right) {
    bits taken = {right};
    taken.word.upper ^= SIGN;
    return add((bits){left}, taken);
}

double __negdf2(double value) {
    bits number = {value};
    number.word.upper ^= SIGN;
    return number.value;
}

/* The upper 64 bits of a product of 128; the last bit keeps a trace of the lower ones. */
static uint64_t multiply_upper(union words left, union words right) {
    union words low, middle, other;
    low.value = (uint64_t) left.word.lower * right.word.lower;
    middle.value = (uint64_t) left.word.upper * right.word.lower;
    other.value = (uint64_t) left.word.lower * right.word.upper;
    uint64_t upper = (uint64_t) left.word.upper * right.word.upper;
    uint64_t carries = (uint64_t) low.word.upper + middle.word.lower + other.word.lower;
    upper += (uint64_t) middle.word.upper + other.word.upper + (carries >> 32);
    return upper | (((uint32_t) carries | low.word.lower) != 0);
}

double __muldf3(double left, double right) {
    bits a = {left}, b = {right};
    uint32_t sign = (a.word.upper ^ b.word.upper) & SIGN;
    if (is_nan(a) || is_nan(b))
        return of_bits(DOUBLE_NAN);
    if (is_special(a) || is_special(b))
        return is_zero(a) || is_zero(b) ? of_bits(DOUBLE_NAN) : infinity(sign);
    if (is_zero(a) || is_zero(b))
        return zero(sign);
    struct parts x = unpack(a), y = unpack(b);
    /* The leading bits stand at 63 and 56, so that of the upper half of the product at 56 or 55. */
    union words first = {x.significand << (63 - LEADING)}, second = {y.significand << 1};
    uint64_t product = multiply_upper(first, second);
    int exponent = x.exponent + y.exponent - DOUBLE_BIAS;
    if (product >> (LEADING + 1))
        return pack(sign, exponent + 1, shift_down(product, 1));
    return pack(sign, exponent, product);
}

/* So many bits of a quotient; the dividend becomes what is left of it, shifted. */
static uint32_t divide_bits(uint64_t *dividend, uint64_t divisor, int count) {
    uint64_t left = *dividend;
    uint32_t quotient = 0;
    for (; count; count--) {
        quotient <<= 1;
        if (left >= divisor) {
            left -= divisor;
            quotient |= 1;
        }
        left <<= 1;
    }
    *dividend = left;
    return quotient;
}

double __divdf3(double left, double right) {
    bits a = {left}, b = {right};
    uint32_t sign = (a.word.upper ^ b.word.upper) & SIGN;
    if (is_nan(a) || is_nan(b))
        return of_bits(DOUBLE_NAN);
    if (is_special(a))
        return is_special(b) ? of_bits(DOUBLE_NAN) : infinity(sign);
    if (is_zero(b))
        return is_zero(a) ? of_bits(DOUBLE_NAN) : infinity(sign);
    if (is_zero(a) || is_special(b))
        return zero(sign);
    struct parts x = unpack(a), y = unpack(b);
    int exponent = x.exponent - y.exponent + DOUBLE_BIAS;
    if (x.significand < y.significand) {
        x.significand <<= 1;
        exponent--;
    }
    union words quotient;
    quotient.word.upper = divide_bits(&x.significand, y.significand, LEADING + 1 - 32);
    quotient.word.lower = divide_bits(&x.significand, y.significand, 32);
    return pack(sign, exponent, quotient.value | (x.significand != 0));
}

/* Less than, equal or more than 0 as the left is to the right; `unordered` where one is a NaN. */
static int compare(bits left, bits right, int unordered) {
    if (is_nan(left) || is_nan(right))
        return unordered;
    if (left.bits == right.bits || (is_zero(left) && is_zero(right)))
        return 0;
    int is_left_negative = left.word.upper >> 31;
    if (is_left_negative != (int) (right.word.upper >> 31))
        return is_left_negative ? -1 : 1;
    return (left.bits < right.bits) != is_left_negative ? -1 : 1;
}

int __eqdf2(double left, double right) {
    return compare((bits){left}, (bits){right}, 1);
}

int __nedf2(double left, double right) {
    return compare((bits){left}, (bits){right}, 1);
}

int __ltdf2(double left, double right) {
    return compare((bits){left}, (bits){right}, 1);
}

int __ledf2(double left, double right) {
    return compare((bits){left}, (bits){right}, 1);
}

int __gtdf2(double left, double right) {
    return compare((bits){left}, (bits){right}, -1);
}

int __gedf2(double left, double right) {
    return compare((bits){left}, (bits){right}, -1);
}

int __unorddf2(double left, double right) {
    return is_nan((bits){left}) || is_nan((bits){right});
}

double __floatunsidf(uint32_t value) {
    if (value == 0)
        return 0;
    int zeros = __clzsi2(value);
    value <<= zeros;
    uint32_t exponent = DOUBLE_BIAS + 31 - zeros;
    return of_words((exponent << 20) + (value >> 11) - (1u << 20), value << 21);
}

double __floatsidf(int32_t value) {
    return value < 0 ? __negdf2(__floatunsidf(-(uint32_t) value)) : __floatunsidf(value);
}

static double of_magnitude(uint32_t sign, uint64_t value) {
    if (value == 0)
        return 0;
    int missing = __clzdi2(value) - (63 - LEADING);
    value = missing < 0 ? shift_down(value, -missing) : value << missing;
    return pack(sign, DOUBLE_BIAS + LEADING - missing, value);
}

double __floatundidf(uint64_t value) {
    return of_magnitude(0, value);
}

double __floatdidf(int64_t value) {
    return value < 0 ? of_magnitude(SIGN, -(uint64_t) value) : of_magnitude(0, value);
}

/* Where a number has no integer of the type, C leaves open what it gives: here it is what the processor's own
   instruction gives, the largest positive one. */
int32_t __fixdfsi(double value) {
    bits number = {value};
    int power = double_exponent(number) - DOUBLE_BIAS;
    if (power < 0)
        return 0;
    if (power > 30)
        return power == 31 && number.word.upper & SIGN && !(double_fraction(number) >> 21) ? INT32_MIN : INT32_MAX;
    uint32_t magnitude = SIGN | number.word.upper << 11 | number.word.lower >> 21;
    magnitude >>= 31 - power;
    return number.word.upper & SIGN ? -magnitude : magnitude;
}

uint32_t __fixunsdfsi(double value) {
    bits number = {value};
    if (!(number.word.upper & SIGN) && !is_nan(number) && double_exponent(number) >= DOUBLE_BIAS + 31)
        return (uint32_t) __fixdfsi(__subdf3(value, 2147483648.0)) ^ SIGN;
    return __fixdfsi(value);
}

/* The whole part of a number below 2^64. */
static uint64_t whole_part(bits number) {
    int power = double_exponent(number) - DOUBLE_BIAS;
    if (power < 0)
        return 0;
    uint64_t significand = double_fraction(number) | DOUBLE_ONE;
    power -= DOUBLE_FRACTION_BITS;
    return power < 0 ? significand >> -power : significand << power;
}

int64_t __fixdfdi(double value) {
    bits number = {value};
    if (double_exponent(number) >= DOUBLE_BIAS + 63)
        return number.word.upper & SIGN ? INT64_MIN : INT64_MAX;
    uint64_t magnitude = whole_part(number);
    return number.word.upper & SIGN ? -magnitude : magnitude;
}

uint64_t __fixunsdfdi(double value) {
    bits number = {value};
    if (number.word.upper & SIGN)
        return __fixdfdi(value);
    return double_exponent(number) >= DOUBLE_BIAS + 64 ? UINT64_MAX : whole_part(number);
}

double __extendsfdf2(float value) {
    union single_bits number = {value};
    uint32_t sign = number.bits & SIGN, fraction = single_fraction(number);
    int exponent = single_exponent(number);
    if (exponent == SINGLE_SPECIAL) {
        if (fraction)
            return of_bits(DOUBLE_NAN);
        exponent = DOUBLE_SPECIAL;
    } else if (exponent) {
        exponent += DOUBLE_BIAS - SINGLE_BIAS;
    } else if (fraction == 0) {
        return zero(sign);
    } else {
        int missing = __clzsi2(fraction) - (31 - SINGLE_FRACTION_BITS);
        fraction = (fraction << missing) & (SINGLE_ONE - 1);
        exponent = 1 - missing + DOUBLE_BIAS - SINGLE_BIAS;
    }
    return of_words(sign | (uint32_t) exponent << 20 | fraction >> 3, fraction << 29);
}
