/* Arguments of any number and type: a printf of our own, and sums over lists that are handed on. */
#include <stdarg.h>
#include <stdio.h>
#include <string.h>

static int put_number(long long number, int base) {
    char digits[24];
    int count = 0, sign = number < 0;
    unsigned long long rest = sign ? -number : number;
    do
        digits[count++] = "0123456789abcdef"[rest % base];
    while (rest /= base);
    if (sign)
        putchar('-');
    for (int i = count; i > 0; i--)
        putchar(digits[i - 1]);
    return count + sign;
}

/* %d int, %x int in hex, %l long long, %s string, %c character, %f double in thousandths, %v another format and list. */
static int print_list(const char *format, va_list *list) {
    int count = 0;
    for (; *format; format++) {
        if (*format != '%') {
            putchar(*format);
            count++;
            continue;
        }
        switch (*++format) {
        case 'd':
            count += put_number(va_arg(*list, int), 10);
            break;
        case 'x':
            count += put_number(va_arg(*list, unsigned), 16);
            break;
        case 'l':
            count += put_number(va_arg(*list, long long), 10);
            break;
        case 'f':
            count += put_number((long long) (va_arg(*list, double) * 1000), 10);
            break;
        case 'c':
            putchar(va_arg(*list, int));
            count++;
            break;
        case 's': {
            const char *text = va_arg(*list, const char *);
            for (; *text; text++, count++)
                putchar(*text);
            break;
        }
        case 'v':
            count += print_list(va_arg(*list, const char *), va_arg(*list, va_list *));
        }
    }
    return count;
}

static int print(const char *format, ...) {
    va_list list;
    va_start(list, format);
    int count = print_list(format, &list);
    va_end(list);
    return count;
}

static int print_twice(const char *format, ...) {
    va_list list, again;
    va_start(list, format);
    va_copy(again, list);
    int count = print("first %v, then %v\n", format, &list, format, &again);
    va_end(again);
    va_end(list);
    return count;
}

static double sum(const char *types, ...) {
    va_list list;
    double total = 0;
    va_start(list, types);
    for (; *types; types++)
        total += *types == 'd' ? va_arg(list, double) : *types == 'l' ? (double) va_arg(list, long long) : va_arg(list, int);
    va_end(list);
    return total;
}

struct point {
    int x, y;
};

static int sum_of_points(int count, ...) {
    va_list list;
    int total = 0;
    va_start(list, count);
    while (count--) {
        struct point point = va_arg(list, struct point);
        total = total * 10 + point.x + point.y;
    }
    va_end(list);
    return total;
}

int main(void) {
    int count = print("%d %s %c %x %l %f|\n", -42, "text", '*', 0xcafe, -1234567890123456789ll, 2.5);
    printf("%d characters\n", count);
    count = print_twice("%d-%l-%d", 1, 20000000000ll, 3);
    printf("%d characters\n", count);
    printf("%.10g\n", sum("idlidl", 1, 0.5, 3000000000ll, -1, 0.25, -1ll));
    printf("%d\n", sum_of_points(3, (struct point){1, 2}, (struct point){0, 4}, (struct point){3, 2}));
    return 0;
}
