/* printf, scanf and the strto functions: numbers that are drawn from the number in the input, in formats that are drawn
   as well, and texts of numbers that are read back. What is printed is what the system's own library prints. */
#include <errno.h>
#include <stdint.h>
#include <stdio.h>
#include <stdlib.h>
#include <string.h>

#define ROUNDS 12

static uint32_t state;

static uint32_t draw(void) {
    state ^= state << 13;
    state ^= state >> 17;
    state ^= state << 5;
    return state;
}

static double draw_double(void) {
    union {
        uint64_t bits;
        double number;
    } drawn;
    uint32_t upper = draw(), how = draw();
    if ((how & 3) == 0)
        return (int) (upper % 20001 - 10000) / 8.0;
    if (how & 2)
        upper = (upper & 0x800fffff) | (1023 - 40 + (how >> 8) % 100) << 20;
    drawn.bits = (uint64_t) upper << 32 | draw();
    return drawn.number == drawn.number ? drawn.number : 0;
}

/* A conversion with flags, a width and a precision that are drawn. */
static void draw_format(char *to, const char *size, char letter, const char *flags) {
    *to++ = '%';
    for (; *flags; flags++)
        if ((draw() & 3) == 0)
            *to++ = *flags;
    if (draw() & 1)
        to += sprintf(to, "%u", (unsigned) (draw() >> 8) % 24 + 1);
    if (draw() & 1)
        to += sprintf(to, ".%u", (unsigned) (draw() >> 8) % 20);
    strcpy(to, size);
    to += strlen(size);
    *to++ = letter;
    *to = 0;
}

static void print_integers(void) {
    char format[32];
    static const char letters[] = "diuoxX";
    for (int i = 0; letters[i]; i++) {
        const char *flags = letters[i] == 'd' || letters[i] == 'i' ? "-0+ " : letters[i] == 'u' ? "-0" : "-0#";
        int shift = draw() & 31;
        draw_format(format, "", letters[i], flags);
        printf(format, draw() >> shift);
        putchar('|');
        draw_format(format, "ll", letters[i], flags);
        printf(format, ((uint64_t) draw() << 32 | draw()) >> (draw() & 63));
        putchar('|');
        draw_format(format, "hh", letters[i], flags);
        printf(format, draw());
        putchar('|');
        draw_format(format, "h", letters[i], flags);
        printf(format, draw());
        putchar('\n');
    }
}

static void print_doubles(void) {
    char format[32];
    static const char letters[] = "fFeEgGaA";
    for (int i = 0; letters[i]; i++) {
        double number = draw_double();
        draw_format(format, "", letters[i], "-0+ #");
        printf(format, number);
        putchar('|');
        draw_format(format, "", letters[i], "-0+ #");
        printf(format, (double) (float) number);
        putchar('\n');
    }
}

static void print_texts(void) {
    char format[32];
    draw_format(format, "", 's', "-");
    printf(format, "characters");
    draw_format(format, "", 'c', "-");
    printf(format, 'c');
    printf("%*d|%-*d|%.*s|%%|%s\n", (int) (draw() & 15), 5, (int) (draw() & 7), 6, (int) (draw() & 3), "abc", (char *) "x");
}

/* A double that was printed with enough digits is read back as it was. */
static void read_doubles(void) {
    char text[400], *end;
    for (int i = 0; i < 4; i++) {
        double number = draw_double();
        sprintf(text, i & 1 ? "%.*e x" : "%.*g,", (int) (draw() >> 8) % 22 + 1, number);
        errno = 0;
        double read = strtod(text, &end);
        float narrow = strtof(text, NULL);
        printf("%.17g %.9g %d %d %s", read, narrow, (int) (end - text), errno, end);
        sprintf(text, "%a", number);
        printf(" %d\n", strtod(text, NULL) == number);
    }
}

static void read_integers(void) {
    char text[80], *end;
    for (int i = 0; i < 4; i++) {
        int base = draw() % 38;
        if (base == 1 || base == 37)
            base = 0;
        sprintf(text, i & 1 ? " -%llx z" : "+%llo9", (unsigned long long) (((uint64_t) draw() << 32 | draw()) >> (draw() & 63)));
        errno = 0;
        long word = strtol(text, &end, base);
        printf("%ld %d %d ", word, (int) (end - text), errno);
        unsigned long natural = strtoul(text, NULL, base);
        long long wide = strtoll(text, &end, base);
        printf("%lu %lld %d %llu\n", natural, wide, (int) (end - text), strtoull(text, NULL, base));
    }
}

static void scan(void) {
    int a = -1, b = -1, taken = -1;
    unsigned c = 0;
    char word[20] = "", set[20] = "", one = 0;
    float f = 0;
    double d = 0;
    short h = 0;
    long long wide = 0;
    int count = sscanf("  12 -0x1f 077 word ab12cd 3.5e2,-.25", "%d %i %o %19s %19[a-z]%n%hd", &a, &b, &c, word, set, &taken, &h);
    printf("%d %d %d %u %s %s %d %d\n", count, a, b, c, word, set, taken, h);
    count = sscanf("3.5e2,-.25 x 123456789012 5%", "%f,%lf %c %lld %d%%", &f, &d, &one, &wide, &a);
    printf("%d %g %g %c %lld %d\n", count, f, d, one, wide, a);
    count = sscanf("123456", "%3d%2d%*d%d", &a, &b, (int *) &c);
    printf("%d %d %d\n", count, a, b);
    printf("%d ", sscanf("abc", "%d", &a));
    printf("%d ", sscanf("", "%d", &a));
    printf("%d\n", sscanf("7 up", "%d down", &a));
}

int main(void) {
    unsigned seed;
    if (scanf("%u", &seed) != 1)
        return 1;
    state = seed * 2654435761u + 88172645;
    for (int round = 0; round < ROUNDS; round++) {
        print_integers();
        print_doubles();
        print_texts();
        read_doubles();
        read_integers();
    }
    scan();
    return 0;
}
