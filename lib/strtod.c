/* Floating numbers that are read from text, each rounded once from its exact value. No floating arithmetic is done:
   the decimal number is scaled by powers of two until its whole part has as many bits as the format. */
#include "decimal.h"
#include "ieee.h"
#include <ctype.h>
#include <errno.h>
#include <stdlib.h>
#include <string.h>

#define LARGEST_TOP 309         /* 10^310 and more is infinite */
#define LEAST_TOP (-345)        /* what begins below 10^-345 is 0 */
#define LARGEST_POWER 100000    /* exponents are cut off there */

struct format {
    int bits;                   /* of the significand */
    int least;                  /* the power of two of the last bit of the smallest number */
    int largest;                /* the power of two that is too large */
};

static const struct format double_format = {53, -1074, 1024}, single_format = {24, -149, 128};

/* A magnitude: significand * 2^power. */
struct reading {
    uint64_t significand;
    int power;
    int is_negative, is_infinite, is_nan;
    int is_rounded;             /* it is not what the text says */
};

static int begins_with(const char *text, const char *word) {
    for (; *word; word++, text++)
        if (tolower(*text) != *word)
            return 0;
    return 1;
}

/* The number behind an `e` or a `p`, where one stands there; else `text` is left where it is. */
static int read_power(const char **text, char letter) {
    const char *at = *text;
    if (tolower(*at) != letter)
        return 0;
    int is_negative = *++at == '-', power = 0;
    if (*at == '-' || *at == '+')
        at++;
    if (!isdigit(*at))
        return 0;
    for (; isdigit(*at); at++)
        if (power < LARGEST_POWER)
            power = power * 10 + (*at - '0');
    *text = at;
    return is_negative ? -power : power;
}

/* Puts digits into limbs, the first of them with the weight 10^top. A digit without room leaves a trace. */
static void take_digits(struct decimal *number, const char *digits, const char *end, int top) {
    int position = LIMB_DIGITS * WHOLE_LIMBS - 1 - top;
    int index = position / LIMB_DIGITS, place = position % LIMB_DIGITS;
    number->first = index;
    for (; digits < end; digits++) {
        if (*digits == '.')
            continue;
        if (index < ALL_LIMBS)
            number->limb[index] += (*digits - '0') * _powers_of_ten[place];
        else if (*digits != '0')
            number->limb[ALL_LIMBS - 1] |= 1;
        if (++place == LIMB_DIGITS) {
            place = 0;
            index++;
        }
    }
    number->past = index < ALL_LIMBS ? index + 1 : ALL_LIMBS;
    _decimal_scale(number, 0);
}

/* The whole part, of at most two limbs. */
static uint64_t whole_of(const struct decimal *number) {
    return (uint64_t) number->limb[WHOLE_LIMBS - 2] * LIMB + number->limb[WHOLE_LIMBS - 1];
}

/* Whether what stands behind the point is more than a half, or a half and the whole part odd. */
static int goes_up(const struct decimal *number, uint64_t whole) {
    uint32_t limb = number->limb[WHOLE_LIMBS], half = LIMB / 2;
    return limb > half || (limb == half && (number->past > WHOLE_LIMBS + 1 || whole & 1));
}

/* Scales the number until its whole part has `bits` bits; answers the power of two that it was divided by. */
static int normalize(struct decimal *number, const struct format *format) {
    int power = 0;
    for (; number->first < WHOLE_LIMBS - 2; power += LIMB_DIGITS)
        _decimal_scale(number, -LIMB_DIGITS);
    for (; whole_of(number) >> format->bits; power++)
        _decimal_scale(number, -1);
    for (; !(whole_of(number) >> (format->bits - 3)); power -= 2)
        _decimal_scale(number, 2);
    for (; !(whole_of(number) >> (format->bits - 1)); power--)
        _decimal_scale(number, 1);
    return power;
}

static void to_binary(struct decimal *number, const struct format *format, struct reading *read) {
    if (number->first == number->past)
        return;
    int power = normalize(number, format);
    if (power < format->least) {
        _decimal_scale(number, power - format->least);
        power = format->least;
    }
    read->significand = whole_of(number);
    read->is_rounded = number->past > WHOLE_LIMBS;
    read->significand += goes_up(number, read->significand);
    read->power = power;
    read->is_infinite = power + format->bits + (int) (read->significand >> format->bits) > format->largest;
}

static const char *read_decimal(const char *text, const struct format *format, struct reading *read) {
    struct decimal number;
    const char *first = NULL, *point = NULL, *at = text;
    for (; isdigit(*at) || (*at == '.' && !point); at++)
        if (*at == '.')
            point = at;
        else if (*at != '0' && !first)
            first = at;
    const char *end = at;
    int power = read_power(&at, 'e');
    if (!first)
        return at;
    if (!point)
        point = end;
    int top = (first < point ? point - first - 1 : point - first) + power;
    if (top > LARGEST_TOP) {
        read->is_infinite = 1;
    } else if (top >= LEAST_TOP) {
        memset(&number, 0, sizeof number);
        take_digits(&number, first, end, top);
        to_binary(&number, format, read);
    } else {
        read->is_rounded = 1;
    }
    return at;
}

static int hex_digit(char c) {
    return isdigit(c) ? c - '0' : tolower(c) - 'a' + 10;
}

/* Rounds a significand that ends with a trace of what was lost, at the format's last bit. */
static void round_binary(const struct format *format, struct reading *read, uint64_t significand, int power) {
    int dropped = 0;
    while (significand >> dropped >> format->bits)
        dropped++;
    if (power + dropped < format->least)
        dropped = format->least - power;
    if (dropped > 0) {
        uint64_t trace = dropped > 63 ? 0 : significand >> (dropped - 1) >> 1;
        uint64_t rest = dropped > 63 ? significand != 0 : significand - (trace << dropped), half = 1ull << (dropped > 63 ? 62 : dropped - 1);
        significand = trace + (rest > half || (rest == half && trace & 1));
        read->is_rounded = rest != 0;
        power += dropped;
    }
    read->significand = significand;
    read->power = power;
    int bits = 0;
    while (significand >> bits)
        bits++;
    read->is_infinite = significand && power + bits > format->largest;
}

static const char *read_hex(const char *text, const struct format *format, struct reading *read) {
    uint64_t significand = 0;
    int power = 0, has_point = 0;
    const char *at = text;
    for (; isxdigit(*at) || (*at == '.' && !has_point); at++) {
        if (*at == '.') {
            has_point = 1;
        } else if (significand >> 59) {
            significand |= hex_digit(*at) != 0;
            power += has_point ? 0 : 4;
        } else {
            significand = significand << 4 | hex_digit(*at);
            power -= has_point ? 4 : 0;
        }
    }
    power += read_power(&at, 'p');
    round_binary(format, read, significand, power);
    return at;
}

static int begins_number(const char *text) {
    return isdigit(*text) || (*text == '.' && isdigit(text[1]));
}

/* Passes letters and digits in parentheses, which a NaN may have. */
static const char *behind_nan(const char *text) {
    if (*text != '(')
        return text;
    const char *at = text + 1;
    while (isalnum(*at) || *at == '_')
        at++;
    return *at == ')' ? at + 1 : text;
}

static struct reading read_floating(const char *text, char **end, const struct format *format) {
    struct reading read = {0, 0, 0, 0, 0, 0};
    const char *at = text;
    while (isspace(*at))
        at++;
    read.is_negative = *at == '-';
    if (*at == '-' || *at == '+')
        at++;
    if (begins_with(at, "inf")) {
        text = at + (begins_with(at, "infinity") ? 8 : 3);
    } else if (begins_with(at, "nan")) {
        read.is_nan = 1;
        text = behind_nan(at + 3);
    } else if (begins_with(at, "0x") && (isxdigit(at[2]) || (at[2] == '.' && isxdigit(at[3])))) {
        text = read_hex(at + 2, format, &read);
    } else if (begins_number(at)) {
        text = read_decimal(at, format, &read);
    } else {
        read.is_negative = 0;
    }
    int is_subnormal = !read.is_infinite && !(read.significand >> (format->bits - 1));
    if (read.is_infinite || (read.is_rounded && is_subnormal))
        errno = ERANGE;
    read.is_infinite |= begins_with(at, "inf");
    if (end)
        *end = (char *) text;
    return read;
}

/* The significand's place in a format whose fraction has so many bits. */
static uint64_t pack(const struct reading *read, int fraction_bits, int least) {
    uint64_t significand = read->significand;
    if (!significand)
        return 0;
    int exponent = read->power - least;
    while (exponent > 0 && !(significand >> fraction_bits)) {
        significand <<= 1;
        exponent--;
    }
    return ((uint64_t) exponent << fraction_bits) + significand;
}

double strtod(const char *restrict text, char **restrict end) {
    struct reading read = read_floating(text, end, &double_format);
    union double_bits number;
    number.bits = read.is_nan ? DOUBLE_NAN : read.is_infinite ? DOUBLE_INFINITY : pack(&read, DOUBLE_FRACTION_BITS, double_format.least);
    if (read.is_negative)
        number.word.upper ^= SIGN;
    return number.value;
}

float strtof(const char *restrict text, char **restrict end) {
    struct reading read = read_floating(text, end, &single_format);
    union single_bits number;
    number.bits = read.is_nan ? SINGLE_NAN : read.is_infinite ? SINGLE_INFINITY : pack(&read, SINGLE_FRACTION_BITS, single_format.least);
    if (read.is_negative)
        number.bits ^= SIGN;
    return number.value;
}

long double strtold(const char *restrict text, char **restrict end) {
    return strtod(text, end);
}

double atof(const char *text) {
    return strtod(text, NULL);
}
