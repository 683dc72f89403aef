/* Integers: absolute values, quotients, and numbers that are read from text. */
#include <ctype.h>
#include <errno.h>
#include <inttypes.h>
#include <limits.h>
#include <stdlib.h>

int abs(int number) {
    return number < 0 ? -number : number;
}

long labs(long number) {
    return number < 0 ? -number : number;
}

long long llabs(long long number) {
    return number < 0 ? -number : number;
}

div_t div(int dividend, int divisor) {
    return (div_t){dividend / divisor, dividend % divisor};
}

ldiv_t ldiv(long dividend, long divisor) {
    return (ldiv_t){dividend / divisor, dividend % divisor};
}

lldiv_t lldiv(long long dividend, long long divisor) {
    return (lldiv_t){dividend / divisor, dividend % divisor};
}

#define NO_DIGIT 99

static int digit_of(char c) {
    if (isdigit(c))
        return c - '0';
    return isalpha(c) ? (c | ('a' - 'A')) - 'a' + 10 : NO_DIGIT;
}

/* Passes blanks, a sign and a base's prefix; settles a base of 0. */
static const char *begin_number(const char *text, int *base, int *is_negative) {
    while (isspace(*text))
        text++;
    *is_negative = *text == '-';
    if (*text == '-' || *text == '+')
        text++;
    int is_hex = text[0] == '0' && (text[1] | ('a' - 'A')) == 'x' && digit_of(text[2]) < 16;
    if (*base == 0)
        *base = is_hex ? 16 : *text == '0' ? 8 : 10;
    return *base == 16 && is_hex ? text + 2 : text;
}

/* What is read of a number: its amount, and where it is too large the largest and so marked. */
struct reading {
    unsigned long amount;
    int is_negative, is_too_large;
};

#define MOST_BASE 36

/* Whether a base is none; nothing is read then. */
static int is_wrong_base(int base, const char *text, char **end) {
    if (base == 0 || (base > 1 && base <= MOST_BASE))
        return 0;
    errno = EINVAL;
    if (end)
        *end = (char *) text;
    return 1;
}

static struct reading read_word(const char *text, char **end, int base) {
    struct reading read = {0, 0, 0};
    if (is_wrong_base(base, text, end))
        return read;
    const char *at = begin_number(text, &base, &read.is_negative), *first = at;
    unsigned long most = ULONG_MAX / base, last = ULONG_MAX % base;
    for (int digit; (digit = digit_of(*at)) < base; at++) {
        if (read.amount > most || (read.amount == most && (unsigned) digit > last))
            read.is_too_large = 1;
        read.amount = read.amount * base + digit;
    }
    if (read.is_too_large) {
        read.amount = ULONG_MAX;
        errno = ERANGE;
    }
    if (end)
        *end = (char *) (at == first ? text : at);
    return read;
}

unsigned long strtoul(const char *restrict text, char **restrict end, int base) {
    struct reading read = read_word(text, end, base);
    return read.is_negative && !read.is_too_large ? -read.amount : read.amount;
}

long strtol(const char *restrict text, char **restrict end, int base) {
    struct reading read = read_word(text, end, base);
    unsigned long most = (unsigned long) LONG_MAX + read.is_negative;
    if (read.amount > most) {
        read.amount = most;
        errno = ERANGE;
    }
    return read.is_negative ? -read.amount : read.amount;
}

struct long_reading {
    unsigned long long amount;
    int is_negative, is_too_large;
};

static struct long_reading read_long(const char *text, char **end, int base) {
    struct long_reading read = {0, 0, 0};
    if (is_wrong_base(base, text, end))
        return read;
    const char *at = begin_number(text, &base, &read.is_negative), *first = at;
    unsigned long long most = ULLONG_MAX / base;
    unsigned last = ULLONG_MAX % base;
    for (int digit; (digit = digit_of(*at)) < base; at++) {
        if (read.amount > most || (read.amount == most && (unsigned) digit > last))
            read.is_too_large = 1;
        read.amount = read.amount * base + digit;
    }
    if (read.is_too_large) {
        read.amount = ULLONG_MAX;
        errno = ERANGE;
    }
    if (end)
        *end = (char *) (at == first ? text : at);
    return read;
}

unsigned long long strtoull(const char *restrict text, char **restrict end, int base) {
    struct long_reading read = read_long(text, end, base);
    return read.is_negative && !read.is_too_large ? -read.amount : read.amount;
}

long long strtoll(const char *restrict text, char **restrict end, int base) {
    struct long_reading read = read_long(text, end, base);
    unsigned long long most = (unsigned long long) LLONG_MAX + read.is_negative;
    if (read.amount > most) {
        read.amount = most;
        errno = ERANGE;
    }
    return read.is_negative ? -read.amount : read.amount;
}

int atoi(const char *text) {
    return strtol(text, NULL, 10);
}

long atol(const char *text) {
    return strtol(text, NULL, 10);
}

long long atoll(const char *text) {
    return strtoll(text, NULL, 10);
}

intmax_t imaxabs(intmax_t number) {
    return number < 0 ? -number : number;
}

imaxdiv_t imaxdiv(intmax_t dividend, intmax_t divisor) {
    return (imaxdiv_t){dividend / divisor, dividend % divisor};
}

intmax_t strtoimax(const char *restrict text, char **restrict end, int base) {
    return strtoll(text, end, base);
}

uintmax_t strtoumax(const char *restrict text, char **restrict end, int base) {
    return strtoull(text, end, base);
}
