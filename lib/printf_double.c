/* printf's formats of floating numbers: e, f, g and a. Each digit is that of the exact value, rounded to the nearest,
   and to the even one of two that are as near. No floating arithmetic is done. */
#include "decimal.h"
#include "format.h"
#include "ieee.h"
#include <string.h>

#define DEFAULT_PRECISION 6
#define LEAST_FIXED_EXPONENT (-4)   /* g writes numbers below 10^-4 with an exponent */
#define HEX_DIGITS 13               /* of a fraction of 52 bits */

static int is_capital(const struct conversion *conversion) {
    return conversion->letter >= 'A' && conversion->letter <= 'Z';
}

/* `count` digits, of which the first has the weight 10^top. */
static void put_decimal(struct sink *sink, const struct decimal *number, int top, int count) {
    char digits[LIMB_DIGITS];
    int position = LIMB_DIGITS * WHOLE_LIMBS - 1 - top;
    int index = position / LIMB_DIGITS, skipped = position % LIMB_DIGITS;
    for (; count > 0 && index < ALL_LIMBS; index++) {
        int length = LIMB_DIGITS - skipped;
        if (length > count)
            length = count;
        if (length == LIMB_DIGITS && !sink->stream && sink->room >= sink->count + LIMB_DIGITS) {
            _limb_digits(number->limb[index], sink->to + sink->count);
            sink->count += LIMB_DIGITS;
        } else {
            _limb_digits(number->limb[index], digits);
            _put_text(sink, digits + skipped, length);
        }
        count -= length;
        skipped = 0;
    }
    _put_many(sink, '0', count);
}

/* Digits behind the point without zeros at the end; less than 0 where zeros stand before it. */
static int places_of(const struct decimal *number) {
    if (number->first == number->past)
        return 0;
    char digits[LIMB_DIGITS];
    _limb_digits(number->limb[number->past - 1], digits);
    int places = LIMB_DIGITS * (number->past - WHOLE_LIMBS);
    for (int i = LIMB_DIGITS - 1; digits[i] == '0'; i--)
        places--;
    return places;
}

/* d.ddd: the digits from 10^top on, `places` of them behind the point. */
static void put_with_point(struct sink *sink, const struct conversion *conversion, const struct decimal *number, int top,
                           int before, int places) {
    put_decimal(sink, number, top, before);
    if (places || conversion->is_alternate)
        _put(sink, '.');
    put_decimal(sink, number, top - before, places);
}

static int length_with_point(const struct conversion *conversion, int before, int places) {
    return before + places + (places || conversion->is_alternate);
}

static void put_fixed(struct sink *sink, const struct conversion *conversion, const char *sign, const struct decimal *number,
                      int places) {
    int before = _decimal_digits(number) > 0 ? _decimal_digits(number) : 1;
    int length = length_with_point(conversion, before, places);
    _begin_field(sink, conversion, sign, length);
    put_with_point(sink, conversion, number, before - 1, before, places);
    _end_field(sink, conversion, sign, length);
}

/* The exponent with its sign, of at least `least` digits; answers its length. */
static int exponent_text(char *to, char letter, int exponent, int least) {
    char digits[LIMB_DIGITS];
    int skipped = 0;
    _limb_digits(exponent < 0 ? -exponent : exponent, digits);
    while (skipped < LIMB_DIGITS - least && digits[skipped] == '0')
        skipped++;
    to[0] = letter;
    to[1] = exponent < 0 ? '-' : '+';
    memcpy(to + 2, digits + skipped, LIMB_DIGITS - skipped);
    return 2 + LIMB_DIGITS - skipped;
}

static void put_scientific(struct sink *sink, const struct conversion *conversion, const char *sign, const struct decimal *number,
                           int places) {
    char text[2 + LIMB_DIGITS];
    int top = _decimal_digits(number) - 1;
    int exponent_length = exponent_text(text, is_capital(conversion) ? 'E' : 'e', top, 2);
    int length = length_with_point(conversion, 1, places) + exponent_length;
    _begin_field(sink, conversion, sign, length);
    put_with_point(sink, conversion, number, top, 1, places);
    _put_text(sink, text, exponent_length);
    _end_field(sink, conversion, sign, length);
}

static int smaller(int left, int right) {
    return left < right ? left : right;
}

/* Rounds to so many digits, of which the first is not 0. */
static void round_digits(struct decimal *number, int digits) {
    if (number->first != number->past)
        _decimal_round(number, digits - _decimal_digits(number));
}

static void put_general(struct sink *sink, const struct conversion *conversion, const char *sign, struct decimal *number,
                        int precision) {
    int digits = precision ? precision : 1;
    round_digits(number, digits);
    int exponent = _decimal_digits(number) - 1, places = places_of(number);
    if (exponent >= LEAST_FIXED_EXPONENT && exponent < digits) {
        int most = digits - 1 - exponent;
        put_fixed(sink, conversion, sign, number, conversion->is_alternate ? most : smaller(most, places > 0 ? places : 0));
    } else {
        int needed = places + exponent > 0 ? places + exponent : 0;
        put_scientific(sink, conversion, sign, number, conversion->is_alternate ? digits - 1 : smaller(digits - 1, needed));
    }
}

/* Powers of two for which the exact digits cost less than those of a product. */
#define LEAST_EXACT_POWER (-80)
#define MOST_EXACT_POWER 12

/* The number, exactly or rounded to what the conversion prints. */
static void find_digits(struct decimal *number, char letter, int precision, uint64_t significand, int power) {
    int digits = letter == 'e' ? precision + 1 : precision ? precision : 1;
    /* (f prints more digits of a number above 2^64 than a product gives) */
    int is_far = significand && (power < LEAST_EXACT_POWER || (power > MOST_EXACT_POWER && letter != 'f'));
    if (is_far && _decimal_near(number, significand, power, letter == 'f' ? 0 : digits, precision))
        return;
    _decimal_of_integer(number, significand);
    _decimal_scale(number, power);
}

static void put_finite(struct sink *sink, const struct conversion *conversion, const char *sign, union double_bits bits) {
    struct decimal number;
    int precision = conversion->precision < 0 ? DEFAULT_PRECISION : conversion->precision;
    int exponent = double_exponent(bits);
    uint64_t fraction = double_fraction(bits);
    find_digits(&number, conversion->letter | ('a' - 'A'), precision, exponent ? fraction | DOUBLE_ONE : fraction,
                (exponent ? exponent : 1) - DOUBLE_BIAS - DOUBLE_FRACTION_BITS);
    switch (conversion->letter | ('a' - 'A')) {
    case 'f':
        _decimal_round(&number, precision);
        put_fixed(sink, conversion, sign, &number, precision);
        break;
    case 'e':
        round_digits(&number, precision + 1);
        put_scientific(sink, conversion, sign, &number, precision);
        break;
    default:
        put_general(sink, conversion, sign, &number, precision);
    }
}

/* Rounds the fraction, with the digit before the point above it, to so many hexadecimal digits. */
static uint64_t round_hex(uint64_t fraction, int digits) {
    if (digits >= HEX_DIGITS)
        return fraction;
    int dropped = 4 * (HEX_DIGITS - digits);
    uint64_t half = 1ull << (dropped - 1), rest = fraction & (2 * half - 1);
    fraction -= rest;
    if (rest > half || (rest == half && fraction >> dropped & 1))
        fraction += 2 * half;
    return fraction;
}

static void put_hex(struct sink *sink, const struct conversion *conversion, const char *sign, union double_bits bits) {
    const char *digits = is_capital(conversion) ? "0123456789ABCDEF" : "0123456789abcdef";
    char prefix[4], text[2 + LIMB_DIGITS];
    int exponent = double_exponent(bits), precision = conversion->precision;
    uint64_t fraction = double_fraction(bits) | (exponent ? DOUBLE_ONE : 0);
    int power = fraction ? (exponent ? exponent : 1) - DOUBLE_BIAS : 0;
    if (precision < 0)
        for (precision = HEX_DIGITS; precision > 0 && !(fraction >> 4 * (HEX_DIGITS - precision) & 15);)
            precision--;
    fraction = round_hex(fraction, precision);
    strcat(strcpy(prefix, sign), is_capital(conversion) ? "0X" : "0x");
    int exponent_length = exponent_text(text, is_capital(conversion) ? 'P' : 'p', power, 1);
    int length = length_with_point(conversion, 1, precision) + exponent_length;
    _begin_field(sink, conversion, prefix, length);
    _put(sink, digits[(int) (fraction >> DOUBLE_FRACTION_BITS)]);
    if (precision || conversion->is_alternate)
        _put(sink, '.');
    for (int i = 1; i <= precision; i++)
        _put(sink, i <= HEX_DIGITS ? digits[(int) (fraction >> 4 * (HEX_DIGITS - i)) & 15] : '0');
    _put_text(sink, text, exponent_length);
    _end_field(sink, conversion, prefix, length);
}

static void put_special(struct sink *sink, struct conversion conversion, const char *sign, int is_infinite) {
    const char *text = is_infinite ? "infINF" : "nanNAN";
    conversion.has_zeros = 0;
    _begin_field(sink, &conversion, sign, 3);
    _put_text(sink, is_capital(&conversion) ? text + 3 : text, 3);
    _end_field(sink, &conversion, sign, 3);
}

void _put_double(struct sink *sink, const struct conversion *conversion, double value) {
    union double_bits bits = {value};
    const char *sign = bits.word.upper >> 31 ? "-" : conversion->has_plus ? "+" : conversion->has_space ? " " : "";
    if (double_exponent(bits) == DOUBLE_SPECIAL)
        put_special(sink, *conversion, sign, double_fraction(bits) == 0);
    else if ((conversion->letter | ('a' - 'A')) == 'a')
        put_hex(sink, conversion, sign, bits);
    else
        put_finite(sink, conversion, sign, bits);
}
