/* What gcc calls for float: IEEE 754, rounded to the nearest and to the even one of two, in words alone. A number that
   is neither zero nor special is taken apart into its sign, its exponent and its significand with six bits more: the
   leading bit stands at 29, and the last bit is also set where bits behind it were lost. */
#include "ieee.h"
#include "int64.h"

#define EXTRA 6
#define LEADING (SINGLE_FRACTION_BITS + EXTRA)
#define EXTRA_MASK ((1u << EXTRA) - 1)
#define HALF (1u << (EXTRA - 1))

typedef union single_bits bits;

struct parts {
    uint32_t sign;                      /* SIGN or 0 */
    int exponent;                       /* with its bias; 0 and less for subnormal numbers */
    uint32_t significand;
};

static float of_bits(uint32_t value) {
    bits number;
    number.bits = value;
    return number.value;
}

static int is_zero(bits number) {
    return number.bits << 1 == 0;
}

static int is_special(bits number) {
    return single_exponent(number) == SINGLE_SPECIAL;
}

static int is_nan(bits number) {
    return (number.bits & ~SIGN) > SINGLE_INFINITY;
}

/* Shifts right; the last bit keeps a trace of what goes. */
static uint32_t shift_down(uint32_t value, int count) {
    if (count > LEADING + 1)
        return value != 0;
    uint32_t kept = value >> count;
    return kept | (kept << count != value);
}

static struct parts unpack(bits number) {
    struct parts parts = {number.bits & SIGN, single_exponent(number), single_fraction(number)};
    if (parts.exponent) {
        parts.significand |= SINGLE_ONE;
    } else {
        int missing = __clzsi2(parts.significand) - (31 - SINGLE_FRACTION_BITS);
        parts.significand <<= missing;
        parts.exponent = 1 - missing;
    }
    parts.significand <<= EXTRA;
    return parts;
}

/* Rounds, and puts together. */
static float pack(uint32_t sign, int exponent, uint32_t significand) {
    if (exponent >= SINGLE_SPECIAL)
        return of_bits(sign | SINGLE_INFINITY);
    if (exponent <= 0) {
        significand = shift_down(significand, 1 - exponent);
        exponent = 0;
    }
    uint32_t rest = significand & EXTRA_MASK;
    significand >>= EXTRA;
    if (rest > HALF || (rest == HALF && significand & 1))
        significand++;
    if (exponent)
        significand += (uint32_t) (exponent - 1) << SINGLE_FRACTION_BITS;
    return of_bits(sign | significand);
}

static float pack_normalized(uint32_t sign, int exponent, uint32_t significand) {
    int missing = __clzsi2(significand) - (31 - LEADING);
    return pack(sign, exponent - missing, significand << missing);
}

static float add_special(bits left, bits right) {
    if (is_nan(left) || is_nan(right))
        return of_bits(SINGLE_NAN);
    if (is_special(left) && is_special(right) && left.bits != right.bits)
        return of_bits(SINGLE_NAN);
    return is_special(left) ? left.value : right.value;
}

static float add(bits left, bits right) {
    if (is_special(left) || is_special(right))
        return add_special(left, right);
    if (is_zero(left))
        return is_zero(right) ? of_bits(left.bits & right.bits) : right.value;
    if (is_zero(right))
        return left.value;
    struct parts large = unpack(left), small = unpack(right);
    if (left.bits << 1 < right.bits << 1) {
        struct parts other = large;
        large = small;
        small = other;
    }
    small.significand = shift_down(small.significand, large.exponent - small.exponent);
    if (large.sign == small.sign) {
        large.significand += small.significand;
        if (large.significand >> (LEADING + 1))
            return pack(large.sign, large.exponent + 1, shift_down(large.significand, 1));
        return pack(large.sign, large.exponent, large.significand);
    }
    large.significand -= small.significand;
    if (large.significand == 0)
        return of_bits(0);
    return pack_normalized(large.sign, large.exponent, large.significand);
}

float __addsf3(float left, float right) {
    return add((bits){left}, (bits){right});
}

float __subsf3(float left, float right) {
    bits taken = {right};
    taken.bits ^= SIGN;
    return add((bits){left}, taken);
}

float __negsf2(float value) {
    bits number = {value};
    return of_bits(number.bits ^ SIGN);
}

float __mulsf3(float left, float right) {
    bits a = {left}, b = {right};
    uint32_t sign = (a.bits ^ b.bits) & SIGN;
    if (is_nan(a) || is_nan(b))
        return of_bits(SINGLE_NAN);
    if (is_special(a) || is_special(b))
        return of_bits(is_zero(a) || is_zero(b) ? SINGLE_NAN : sign | SINGLE_INFINITY);
    if (is_zero(a) || is_zero(b))
        return of_bits(sign);
    struct parts x = unpack(a), y = unpack(b);
    /* The leading bits stand at 31 and 30, so that of the upper word of the product at 30 or 29. */
    union words product = {(uint64_t) (x.significand << 2) * (y.significand << 1)};
    uint32_t significand = product.word.upper | (product.word.lower != 0);
    int exponent = x.exponent + y.exponent - SINGLE_BIAS;
    if (significand >> (LEADING + 1))
        return pack(sign, exponent + 1, shift_down(significand, 1));
    return pack(sign, exponent, significand);
}

float __divsf3(float left, float right) {
    bits a = {left}, b = {right};
    uint32_t sign = (a.bits ^ b.bits) & SIGN;
    if (is_nan(a) || is_nan(b))
        return of_bits(SINGLE_NAN);
    if (is_special(a))
        return of_bits(is_special(b) ? SINGLE_NAN : sign | SINGLE_INFINITY);
    if (is_zero(b))
        return of_bits(is_zero(a) ? SINGLE_NAN : sign | SINGLE_INFINITY);
    if (is_zero(a) || is_special(b))
        return of_bits(sign);
    struct parts x = unpack(a), y = unpack(b);
    int exponent = x.exponent - y.exponent + SINGLE_BIAS;
    if (x.significand < y.significand) {
        x.significand <<= 1;
        exponent--;
    }
    uint32_t quotient = 0;
    for (int i = 0; i <= LEADING; i++) {
        quotient <<= 1;
        if (x.significand >= y.significand) {
            x.significand -= y.significand;
            quotient |= 1;
        }
        x.significand <<= 1;
    }
    return pack(sign, exponent, quotient | (x.significand != 0));
}

/* Less than, equal or more than 0 as the left is to the right; `unordered` where one is a NaN. */
static int compare(bits left, bits right, int unordered) {
    if (is_nan(left) || is_nan(right))
        return unordered;
    if (left.bits == right.bits || (is_zero(left) && is_zero(right)))
        return 0;
    if ((left.bits ^ right.bits) & SIGN)
        return left.bits & SIGN ? -1 : 1;
    return (left.bits < right.bits) != (left.bits >> 31) ? -1 : 1;
}

int __eqsf2(float left, float right) {
    return compare((bits){left}, (bits){right}, 1);
}

int __nesf2(float left, float right) {
    return compare((bits){left}, (bits){right}, 1);
}

int __ltsf2(float left, float right) {
    return compare((bits){left}, (bits){right}, 1);
}

int __lesf2(float left, float right) {
    return compare((bits){left}, (bits){right}, 1);
}

int __gtsf2(float left, float right) {
    return compare((bits){left}, (bits){right}, -1);
}

int __gesf2(float left, float right) {
    return compare((bits){left}, (bits){right}, -1);
}

int __unordsf2(float left, float right) {
    return is_nan((bits){left}) || is_nan((bits){right});
}

static float of_magnitude(uint32_t sign, uint32_t value) {
    if (value == 0)
        return of_bits(0);
    int missing = __clzsi2(value) - (31 - LEADING);
    value = missing < 0 ? shift_down(value, -missing) : value << missing;
    return pack(sign, SINGLE_BIAS + LEADING - missing, value);
}

float __floatunsisf(uint32_t value) {
    return of_magnitude(0, value);
}

float __floatsisf(int32_t value) {
    return value < 0 ? of_magnitude(SIGN, -(uint32_t) value) : of_magnitude(0, value);
}

static float of_long_magnitude(uint32_t sign, uint64_t value) {
    union words number = {value};
    if (number.word.upper == 0)
        return of_magnitude(sign, number.word.lower);
    int zeros = __clzsi2(number.word.upper);
    number.value <<= zeros;
    uint32_t significand = shift_down(number.word.upper, 31 - LEADING) | (number.word.lower != 0);
    return pack(sign, SINGLE_BIAS + 63 - zeros, significand);
}

float __floatundisf(uint64_t value) {
    return of_long_magnitude(0, value);
}

float __floatdisf(int64_t value) {
    return value < 0 ? of_long_magnitude(SIGN, -(uint64_t) value) : of_long_magnitude(0, value);
}

/* Where a number has no integer of the type, as in double.c. */
int32_t __fixsfsi(float value) {
    bits number = {value};
    int power = single_exponent(number) - SINGLE_BIAS;
    if (power < 0)
        return 0;
    if (power > 30)
        return number.bits == (SIGN | (SINGLE_BIAS + 31u) << SINGLE_FRACTION_BITS) ? INT32_MIN : INT32_MAX;
    uint32_t magnitude = (SIGN | number.bits << 8) >> (31 - power);
    return number.bits & SIGN ? -magnitude : magnitude;
}

uint32_t __fixunssfsi(float value) {
    bits number = {value};
    if (!(number.bits & SIGN) && !is_nan(number) && single_exponent(number) >= SINGLE_BIAS + 31)
        return (uint32_t) __fixsfsi(__subsf3(value, 2147483648.0f)) ^ SIGN;
    return __fixsfsi(value);
}

/* The whole part of a number below 2^64. */
static uint64_t whole_part(bits number) {
    int power = single_exponent(number) - SINGLE_BIAS;
    if (power < 0)
        return 0;
    union words whole = {.word = {SIGN | number.bits << 8, 0}};
    return whole.value >> (63 - power);
}

int64_t __fixsfdi(float value) {
    bits number = {value};
    if (single_exponent(number) >= SINGLE_BIAS + 63)
        return number.bits & SIGN ? INT64_MIN : INT64_MAX;
    return number.bits & SIGN ? -whole_part(number) : whole_part(number);
}

uint64_t __fixunssfdi(float value) {
    bits number = {value};
    if (number.bits & SIGN)
        return __fixsfdi(value);
    return single_exponent(number) >= SINGLE_BIAS + 64 ? UINT64_MAX : whole_part(number);
}

float __truncdfsf2(double value) {
    union double_bits number = {value};
    uint32_t sign = number.word.upper & SIGN, upper = number.word.upper & 0xfffff;
    int exponent = double_exponent(number);
    if (exponent == DOUBLE_SPECIAL)
        return of_bits(upper | number.word.lower ? SINGLE_NAN : sign | SINGLE_INFINITY);
    if (exponent == 0)
        return of_bits(sign);           /* far below the least float */
    uint32_t significand = (1u << LEADING) | upper << (LEADING - 20) | number.word.lower >> (52 - LEADING);
    significand |= number.word.lower << (LEADING - 20) != 0;
    return pack(sign, exponent - DOUBLE_BIAS + SINGLE_BIAS, significand);
}
