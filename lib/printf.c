/* printf and its like: formats, strings and integers. Decimal digits are found by subtraction of powers of ten. */
#include "format.h"
#include <ctype.h>
#include <limits.h>
#include <stdint.h>
#include <string.h>

#define MOST_DIGITS 24          /* of 64 bits in octal, and more */

void _put(struct sink *sink, char c) {
    if (sink->stream)
        fputc(c, sink->stream);
    else if (sink->count < sink->room)
        sink->to[sink->count] = c;
    sink->count++;
}

void _put_text(struct sink *sink, const char *text, int length) {
    int fits = length;
    if (sink->stream) {
        for (int i = 0; i < length; i++)
            fputc(text[i], sink->stream);
    } else if (sink->count < sink->room) {
        if (sink->room - sink->count < (size_t) length)
            fits = sink->room - sink->count;
        char *to = sink->to + sink->count;
        for (int i = 0; i < fits; i++)
            to[i] = text[i];
    }
    sink->count += length > 0 ? length : 0;
}

void _put_many(struct sink *sink, char c, int times) {
    while (times-- > 0)
        _put(sink, c);
}

void _begin_field(struct sink *sink, const struct conversion *conversion, const char *prefix, int length) {
    int signs = strlen(prefix), missing = conversion->width - signs - length;
    int has_zeros = conversion->has_zeros && !conversion->is_left;
    if (!has_zeros && !conversion->is_left)
        _put_many(sink, ' ', missing);
    _put_text(sink, prefix, signs);
    if (has_zeros)
        _put_many(sink, '0', missing);
}

void _end_field(struct sink *sink, const struct conversion *conversion, const char *prefix, int length) {
    if (conversion->is_left)
        _put_many(sink, ' ', conversion->width - (int) strlen(prefix) - length);
}

static void put_field(struct sink *sink, const struct conversion *conversion, const char *prefix, const char *text, int length) {
    _begin_field(sink, conversion, prefix, length);
    _put_text(sink, text, length);
    _end_field(sink, conversion, prefix, length);
}

static char *decimal_digits(uint32_t value, char *to) {
    static const uint32_t powers[] = {1000000000, 100000000, 10000000, 1000000, 100000, 10000, 1000, 100, 10, 1};
    for (unsigned i = 0; i < sizeof powers / sizeof *powers; i++) {
        char digit = '0';
        for (; value >= powers[i]; digit++)
            value -= powers[i];
        *to++ = digit;
    }
    return to;
}

/* The same of 64 bits: the digits above 10^9 by subtraction of 64 bits. */
static char *long_decimal_digits(uint64_t value, char *to) {
    static const uint64_t powers[] = {
        10000000000000000000u, 1000000000000000000, 100000000000000000, 10000000000000000, 1000000000000000,
        100000000000000,       10000000000000,      1000000000000,      100000000000,      10000000000,
    };
    if (value >> 32)
        for (unsigned i = 0; i < sizeof powers / sizeof *powers; i++) {
            char digit = '0';
            for (; value >= powers[i]; digit++)
                value -= powers[i];
            *to++ = digit;
        }
    if (value >> 32) {
        /* Below 10^10, and no word: one more power is needed. */
        char digit = '0';
        for (; value >= 1000000000; digit++)
            value -= 1000000000;
        char *end = decimal_digits(value, to);
        *to = digit;
        return end;
    }
    return decimal_digits(value, to);
}

/* The digits in base 8 or 16. */
static char *binary_digits(uint64_t value, int bits, const char *digits, char *to) {
    int shift = bits == 4 ? 60 : 63;
    for (; shift >= 0; shift -= bits)
        *to++ = digits[(unsigned) (value >> shift) & ((1u << bits) - 1)];
    return to;
}

/* The argument, widened. */
static uint64_t integer_of(const struct conversion *conversion, va_list *list) {
    if (conversion->size == SIZE_LONG_LONG)
        return va_arg(*list, uint64_t);
    int word = va_arg(*list, int);
    int is_signed = conversion->letter == 'd' || conversion->letter == 'i';
    if (conversion->size == SIZE_CHAR)
        word = is_signed ? (signed char) word : (unsigned char) word;
    else if (conversion->size == SIZE_SHORT)
        word = is_signed ? (short) word : (unsigned short) word;
    return is_signed ? (uint64_t) (int64_t) word : (uint32_t) word;
}

static const char *sign_of(const struct conversion *conversion, int is_negative) {
    return is_negative ? "-" : conversion->has_plus ? "+" : conversion->has_space ? " " : "";
}

static void put_digits(struct sink *sink, struct conversion *conversion, const char *prefix, char *digits, char *end) {
    while (digits < end && *digits == '0')
        digits++;
    int length = end - digits, zeros = conversion->precision < 0 ? length == 0 : conversion->precision - length;
    if (conversion->precision >= 0)
        conversion->has_zeros = 0;
    if (zeros < 0)
        zeros = 0;
    if (conversion->letter == 'o' && conversion->is_alternate && zeros == 0)
        zeros = 1;
    _begin_field(sink, conversion, prefix, zeros + length);
    _put_many(sink, '0', zeros);
    _put_text(sink, digits, length);
    _end_field(sink, conversion, prefix, zeros + length);
}

static void put_integer(struct sink *sink, struct conversion *conversion, va_list *list) {
    char digits[MOST_DIGITS], *end;
    uint64_t value = integer_of(conversion, list);
    const char *prefix = "";
    switch (conversion->letter) {
    case 'd':
    case 'i':
        prefix = sign_of(conversion, (int64_t) value < 0);
        if ((int64_t) value < 0)
            value = -value;
        end = long_decimal_digits(value, digits);
        break;
    case 'u':
        end = long_decimal_digits(value, digits);
        break;
    case 'o':
        end = binary_digits(value, 3, "01234567", digits);
        break;
    case 'X':
        prefix = conversion->is_alternate && value ? "0X" : "";
        end = binary_digits(value, 4, "0123456789ABCDEF", digits);
        break;
    default:
        prefix = conversion->is_alternate && value ? "0x" : "";
        end = binary_digits(value, 4, "0123456789abcdef", digits);
    }
    put_digits(sink, conversion, prefix, digits, end);
}

static void put_pointer(struct sink *sink, struct conversion *conversion, va_list *list) {
    char digits[MOST_DIGITS];
    uint32_t value = (uint32_t) va_arg(*list, void *);
    if (value)
        put_digits(sink, conversion, "0x", digits, binary_digits(value, 4, "0123456789abcdef", digits));
    else
        put_field(sink, conversion, "", "(nil)", 5);
}

static void put_string(struct sink *sink, struct conversion *conversion, const char *text) {
    if (!text)
        text = conversion->precision < 0 || conversion->precision >= 6 ? "(null)" : "";
    int length = conversion->precision < 0 ? strlen(text) : strnlen(text, conversion->precision);
    conversion->has_zeros = 0;
    put_field(sink, conversion, "", text, length);
}

static void put_character(struct sink *sink, struct conversion *conversion, char c) {
    conversion->has_zeros = 0;
    put_field(sink, conversion, "", &c, 1);
}

/* A text of wide characters, each of which is one byte here. */
static void put_wide_string(struct sink *sink, struct conversion *conversion, const int *text) {
    int length = 0;
    if (!text) {
        put_string(sink, conversion, NULL);
        return;
    }
    while ((conversion->precision < 0 || length < conversion->precision) && text[length])
        length++;
    conversion->has_zeros = 0;
    _begin_field(sink, conversion, "", length);
    for (int i = 0; i < length; i++)
        _put(sink, text[i]);
    _end_field(sink, conversion, "", length);
}

static const char *read_flags(const char *format, struct conversion *conversion) {
    for (;; format++)
        switch (*format) {
        case '-':
            conversion->is_left = 1;
            break;
        case '0':
            conversion->has_zeros = 1;
            break;
        case '+':
            conversion->has_plus = 1;
            break;
        case ' ':
            conversion->has_space = 1;
            break;
        case '#':
            conversion->is_alternate = 1;
            break;
        case '\'':
            break;
        default:
            return format;
        }
}

/* A number or a `*`. */
static const char *read_number(const char *format, int *number, va_list *list) {
    *number = 0;
    if (*format == '*') {
        *number = va_arg(*list, int);
        return format + 1;
    }
    for (; isdigit(*format); format++)
        *number = *number * 10 + (*format - '0');
    return format;
}

static const char *read_size(const char *format, enum size *size) {
    switch (*format) {
    case 'h':
        *size = format[1] == 'h' ? SIZE_CHAR : SIZE_SHORT;
        return format + 1 + (format[1] == 'h');
    case 'l':
        *size = format[1] == 'l' ? SIZE_LONG_LONG : SIZE_LONG;
        return format + 1 + (format[1] == 'l');
    case 'j':
        *size = SIZE_LONG_LONG;
        return format + 1;
    case 'z':
    case 't':
    case 'L':
        *size = SIZE_LONG;
        return format + 1;
    default:
        return format;
    }
}

/* What stands behind a `%`; answers what stands behind that. */
static const char *read_conversion(const char *format, struct conversion *conversion, va_list *list) {
    memset(conversion, 0, sizeof *conversion);
    format = read_flags(format, conversion);
    format = read_number(format, &conversion->width, list);
    if (conversion->width < 0) {
        conversion->is_left = 1;
        conversion->width = -conversion->width;
    }
    conversion->precision = -1;
    if (*format == '.')
        format = read_number(format + 1, &conversion->precision, list);
    format = read_size(format, &conversion->size);
    conversion->letter = *format;
    return *format ? format + 1 : format;
}

static void convert(struct sink *sink, struct conversion *conversion, va_list *list) {
    switch (conversion->letter) {
    case 'd':
    case 'i':
    case 'u':
    case 'o':
    case 'x':
    case 'X':
        put_integer(sink, conversion, list);
        break;
    case 'c':
    case 'C':
        put_character(sink, conversion, va_arg(*list, int));
        break;
    case 's':
        if (conversion->size != SIZE_LONG) {
            put_string(sink, conversion, va_arg(*list, const char *));
            break;
        }
        /* fall through */
    case 'S':
        put_wide_string(sink, conversion, va_arg(*list, const int *));
        break;
    case 'p':
        put_pointer(sink, conversion, list);
        break;
    case 'a':
    case 'A':
    case 'e':
    case 'E':
    case 'f':
    case 'F':
    case 'g':
    case 'G':
        _put_double(sink, conversion, va_arg(*list, double));
        break;
    case '%':
        _put(sink, '%');
    }
}

static void format_all(struct sink *sink, const char *format, va_list list) {
    va_list rest;
    va_copy(rest, list);
    while (*format) {
        if (*format != '%') {
            _put(sink, *format++);
            continue;
        }
        struct conversion conversion;
        format = read_conversion(format + 1, &conversion, &rest);
        convert(sink, &conversion, &rest);
    }
    va_end(rest);
}

int vfprintf(FILE *restrict stream, const char *restrict format, va_list list) {
    struct sink sink = {stream, NULL, 0, 0};
    format_all(&sink, format, list);
    return sink.count;
}

int vsnprintf(char *restrict to, size_t room, const char *restrict format, va_list list) {
    struct sink sink = {NULL, to, room ? room - 1 : 0, 0};
    format_all(&sink, format, list);
    if (room)
        to[sink.count < room ? sink.count : room - 1] = 0;
    return sink.count;
}

int vprintf(const char *restrict format, va_list list) {
    return vfprintf(stdout, format, list);
}

int vsprintf(char *restrict to, const char *restrict format, va_list list) {
    return vsnprintf(to, INT_MAX, format, list);
}

int printf(const char *restrict format, ...) {
    va_list list;
    va_start(list, format);
    int count = vfprintf(stdout, format, list);
    va_end(list);
    return count;
}

int fprintf(FILE *restrict stream, const char *restrict format, ...) {
    va_list list;
    va_start(list, format);
    int count = vfprintf(stream, format, list);
    va_end(list);
    return count;
}

int snprintf(char *restrict to, size_t room, const char *restrict format, ...) {
    va_list list;
    va_start(list, format);
    int count = vsnprintf(to, room, format, list);
    va_end(list);
    return count;
}

int sprintf(char *restrict to, const char *restrict format, ...) {
    va_list list;
    va_start(list, format);
    int count = vsnprintf(to, INT_MAX, format, list);
    va_end(list);
    return count;
}
