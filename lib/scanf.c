/* scanf and its like: the conversions d i u o x c s [ p n and those of floating numbers. */
#include <ctype.h>
#include <stdint.h>
#include <stdio.h>
#include <stdlib.h>
#include <string.h>

#define MOST_CHARACTERS 400     /* of a number */

/* Where characters come from: a text, or a stream. */
struct source {
    const char *text;
    FILE *stream;
    int taken;
};

static int take(struct source *source) {
    int c = source->stream ? fgetc(source->stream) : *source->text ? (unsigned char) *source->text++ : EOF;
    source->taken += c != EOF;
    return c;
}

static void give_back(struct source *source, int c) {
    if (c == EOF)
        return;
    source->taken--;
    if (source->stream)
        ungetc(c, source->stream);
    else
        source->text--;
}

static int look(struct source *source) {
    int c = take(source);
    give_back(source, c);
    return c;
}

static void skip_blanks(struct source *source) {
    int c;
    while (isspace(c = take(source)))
        ;
    give_back(source, c);
}

enum size { SIZE_INT, SIZE_CHAR, SIZE_SHORT, SIZE_LONG, SIZE_LONG_LONG };

struct conversion {
    int is_skipped, width;
    enum size size;
    char letter;
    const char *set, *set_end;  /* what is in the brackets */
    int is_other_than;
};

static const char *read_set(const char *format, struct conversion *conversion) {
    conversion->is_other_than = *format == '^';
    format += conversion->is_other_than;
    conversion->set = format;
    if (*format == ']')
        format++;
    while (*format && *format != ']')
        format++;
    conversion->set_end = format;
    return *format ? format + 1 : format;
}

static const char *read_conversion(const char *format, struct conversion *conversion) {
    memset(conversion, 0, sizeof *conversion);
    if (*format == '*') {
        conversion->is_skipped = 1;
        format++;
    }
    for (; isdigit(*format); format++)
        conversion->width = conversion->width * 10 + (*format - '0');
    for (; *format && strchr("hljztL", *format); format++)
        switch (*format) {
        case 'h':
            conversion->size = conversion->size == SIZE_SHORT ? SIZE_CHAR : SIZE_SHORT;
            break;
        case 'l':
            conversion->size = conversion->size == SIZE_LONG ? SIZE_LONG_LONG : SIZE_LONG;
            break;
        case 'j':
            conversion->size = SIZE_LONG_LONG;
            break;
        default:
            conversion->size = SIZE_LONG;
        }
    conversion->letter = *format;
    if (!*format)
        return format;
    return *format == '[' ? read_set(format + 1, conversion) : format + 1;
}

static int is_in_set(const struct conversion *conversion, int c) {
    int is_there = 0;
    for (const char *at = conversion->set; at < conversion->set_end; at++)
        if (at + 2 < conversion->set_end && at[1] == '-') {
            is_there |= c >= (unsigned char) at[0] && c <= (unsigned char) at[2];
            at += 2;
        } else {
            is_there |= c == (unsigned char) *at;
        }
    return is_there != conversion->is_other_than;
}

static int belongs(const struct conversion *conversion, int c) {
    return conversion->letter == 'c' || (conversion->letter == 's' ? !isspace(c) : is_in_set(conversion, c));
}

static int scan_text(struct source *source, const struct conversion *conversion, char *to) {
    int width = conversion->width ? conversion->width : conversion->letter == 'c' ? 1 : INT32_MAX, count = 0;
    for (; count < width; count++) {
        int c = take(source);
        if (c == EOF)
            break;
        if (!belongs(conversion, c)) {
            give_back(source, c);
            break;
        }
        if (to)
            *to++ = c;
    }
    if (to && conversion->letter != 'c')
        *to = 0;
    return conversion->letter == 'c' ? count == width : count > 0;
}

/* Whether a character continues a text of `length` characters that begins a word. */
static int continues(const char *word, int length, int c) {
    return length < (int) strlen(word) && tolower(c) == word[length];
}

/* Whether a character continues a floating number, of which `text` was read without its sign. */
static int continues_floating(const char *text, int length, int c) {
    char first = length ? tolower(text[0]) : tolower(c);
    if (first == 'i')
        return continues("infinity", length, c);
    if (first == 'n')
        return continues("nan", length, c);
    int is_hex = length > 1 && tolower(text[1]) == 'x', has_digits = length > (is_hex ? 2 : 0) + (memchr(text, '.', length) != NULL);
    char letter = is_hex ? 'p' : 'e';
    if (memchr(text, letter, length) || memchr(text, toupper(letter), length))
        return isdigit(c) || ((c == '+' || c == '-') && tolower(text[length - 1]) == letter);
    if (length == 1 && first == '0' && tolower(c) == 'x')
        return 1;
    if (c == '.')
        return !memchr(text, '.', length);
    return (is_hex ? isxdigit(c) : isdigit(c)) || (has_digits && tolower(c) == letter);
}

/* The same of a number in a base, or in one that its beginning says. */
static int continues_integer(const char *text, int length, int c, int base) {
    if ((c | 32) == 'x')
        return length == 1 && text[0] == '0' && (base == 0 || base == 16);
    int is_hex = length > 1 && (text[1] | 32) == 'x';
    int limit = base ? base : is_hex ? 16 : length && text[0] == '0' ? 8 : 10;
    return isdigit(c) ? c - '0' < limit : limit == 16 && isxdigit(c);
}

static int may_follow(const char *text, int length, int c, int base, int is_floating) {
    if (length == 0 && (c == '+' || c == '-'))
        return 1;
    if (length && (*text == '+' || *text == '-')) {
        text++;
        length--;
    }
    return is_floating ? continues_floating(text, length, c) : continues_integer(text, length, c, base);
}

static void scan_number(struct source *source, int width, int base, int is_floating, char *text) {
    int length = 0;
    if (width == 0 || width >= MOST_CHARACTERS)
        width = MOST_CHARACTERS - 1;
    while (length < width) {
        int c = take(source);
        if (c == EOF)
            break;
        if (!may_follow(text, length, c, base, is_floating)) {
            give_back(source, c);
            break;
        }
        text[length++] = c;
    }
    text[length] = 0;
}

static void store_integer(enum size size, void *to, uint64_t value) {
    switch (size) {
    case SIZE_CHAR:
        *(char *) to = value;
        break;
    case SIZE_SHORT:
        *(short *) to = value;
        break;
    case SIZE_LONG_LONG:
        *(uint64_t *) to = value;
        break;
    default:
        *(int *) to = value;
    }
}

static int scan_integer(struct source *source, const struct conversion *conversion, void *to) {
    char text[MOST_CHARACTERS], *end;
    char letter = conversion->letter;
    int base = letter == 'i' ? 0 : letter == 'o' ? 8 : letter == 'd' || letter == 'u' ? 10 : 16;
    int is_signed = letter == 'd' || letter == 'i';
    uint64_t value;
    scan_number(source, conversion->width, base, 0, text);
    if (conversion->size == SIZE_LONG_LONG)
        value = is_signed ? (uint64_t) strtoll(text, &end, base) : strtoull(text, &end, base);
    else
        value = is_signed ? (uint64_t) strtol(text, &end, base) : strtoul(text, &end, base);
    if (end == text)
        return 0;
    if (to)
        store_integer(conversion->size, to, value);
    return 1;
}

static int scan_floating(struct source *source, const struct conversion *conversion, void *to) {
    char text[MOST_CHARACTERS], *end;
    scan_number(source, conversion->width, 10, 1, text);
    if (conversion->size == SIZE_INT) {
        float value = strtof(text, &end);
        if (to && end != text && !*end)
            *(float *) to = value;
    } else {
        double value = strtod(text, &end);
        if (to && end != text && !*end)
            *(double *) to = value;
    }
    return end != text && !*end;
}

static int convert(struct source *source, const struct conversion *conversion, void *to) {
    switch (conversion->letter) {
    case 'c':
    case 's':
    case '[':
        return scan_text(source, conversion, to);
    case 'd':
    case 'i':
    case 'u':
    case 'o':
    case 'x':
    case 'X':
    case 'p':
        return scan_integer(source, conversion, to);
    default:
        return scan_floating(source, conversion, to);
    }
}

/* One conversion; answers 1, 0 where the characters do not fit, and EOF where there are none. */
static int scan_one(struct source *source, const struct conversion *conversion, va_list *list) {
    if (conversion->letter == 'n') {
        if (!conversion->is_skipped)
            store_integer(conversion->size, va_arg(*list, void *), source->taken);
        return 1;
    }
    if (conversion->letter != 'c' && conversion->letter != '[')
        skip_blanks(source);
    int next = look(source);
    if (next == EOF)
        return EOF;
    if (conversion->letter == '%')
        return take(source) == '%';
    return convert(source, conversion, conversion->is_skipped ? NULL : va_arg(*list, void *));
}

static int scan_all(struct source *source, const char *format, va_list given) {
    va_list list;
    int stored = 0;
    va_copy(list, given);
    while (*format) {
        struct conversion conversion;
        if (isspace(*format)) {
            skip_blanks(source);
            format++;
        } else if (*format != '%') {
            int c = take(source);
            if (c != (unsigned char) *format++) {
                give_back(source, c);
                return c == EOF && stored == 0 ? EOF : stored;
            }
        } else {
            format = read_conversion(format + 1, &conversion);
            int done = scan_one(source, &conversion, &list);
            if (done != 1)
                return done == EOF && stored == 0 ? EOF : stored;
            stored += !conversion.is_skipped && conversion.letter != 'n' && conversion.letter != '%';
        }
    }
    va_end(list);
    return stored;
}

int vfscanf(FILE *restrict stream, const char *restrict format, va_list list) {
    struct source source = {NULL, stream, 0};
    return scan_all(&source, format, list);
}

int vscanf(const char *restrict format, va_list list) {
    return vfscanf(stdin, format, list);
}

int vsscanf(const char *restrict text, const char *restrict format, va_list list) {
    struct source source = {text, NULL, 0};
    return scan_all(&source, format, list);
}

int scanf(const char *restrict format, ...) {
    va_list list;
    va_start(list, format);
    int count = vfscanf(stdin, format, list);
    va_end(list);
    return count;
}

int fscanf(FILE *restrict stream, const char *restrict format, ...) {
    va_list list;
    va_start(list, format);
    int count = vfscanf(stream, format, list);
    va_end(list);
    return count;
}

int sscanf(const char *restrict text, const char *restrict format, ...) {
    va_list list;
    va_start(list, format);
    int count = vsscanf(text, format, list);
    va_end(list);
    return count;
}
