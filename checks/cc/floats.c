/* Floating arithmetic told as bits: each operation on all pairs of special values, and on operands that are drawn from
   the number in the input. A line an operation tells the sum of its answers, so that a difference shows where it is. */
#include <stdint.h>
#include <stdio.h>

#define DRAWN 400

typedef union {
    double number;
    uint64_t bits;
} wide;

typedef union {
    float number;
    uint32_t bits;
} narrow;

static uint32_t state, sum;

static uint32_t draw(void) {
    state ^= state << 13;
    state ^= state >> 17;
    state ^= state << 5;
    return state;
}

static void add_word(uint32_t word) {
    sum = (sum << 5 | sum >> 27) ^ word;
    sum += 0x9e3779b9;
}

static void add_wide(double number) {
    wide answer = {number};
    add_word(answer.bits >> 32);
    add_word(answer.bits);
}

static void add_narrow(float number) {
    narrow answer = {number};
    add_word(answer.bits);
}

static const uint64_t wide_specials[] = {
    0x0000000000000000, 0x8000000000000000, 0x0000000000000001, 0x8000000000000001, 0x000fffffffffffff, 0x0010000000000000,
    0x0010000000000001, 0x3fe0000000000000, 0x3fefffffffffffff, 0x3ff0000000000000, 0xbff0000000000000, 0x3ff0000000000001,
    0x4000000000000000, 0x41dfffffffc00000, 0xc1e0000000000000, 0x41efffffffe00000, 0x4330000000000000, 0x433fffffffffffff,
    0x43dfffffffffffff, 0x7fe0000000000000, 0x7fefffffffffffff, 0xffefffffffffffff, 0x7ff0000000000000, 0xfff0000000000000,
    0x7ff7ffffffffffff, 0xfff0000000000123, 0x7ff8000000000000, 0x7fffffffffffffff,
};
#define WIDE_SPECIALS (sizeof wide_specials / sizeof *wide_specials)

static const uint32_t narrow_specials[] = {
    0x00000000, 0x80000000, 0x00000001, 0x80000001, 0x007fffff, 0x00800000, 0x00800001, 0x3f000000, 0x3f7fffff, 0x3f800000,
    0xbf800000, 0x3f800001, 0x40000000, 0x4effffff, 0xcf000000, 0x4b000000, 0x4b7fffff, 0x5effffff, 0x7f000000, 0x7f7fffff,
    0xff7fffff, 0x7f800000, 0xff800000, 0x7fbfffff, 0xff800123, 0x7fc00000, 0x7fffffff,
};
#define NARROW_SPECIALS (sizeof narrow_specials / sizeof *narrow_specials)

/* One in two has an exponent near that of 1, and one in four a fraction with long runs of equal bits. */
static wide draw_wide(void) {
    uint32_t upper = draw(), lower = draw(), how = draw();
    if (how & 1)
        upper = (upper & 0x800fffff) | (1023 - 32 + (how >> 8 & 63)) << 20;
    if ((how & 6) == 0) {
        lower = how & 8 ? -(uint32_t) 1 : 0;
        upper = how & 16 ? upper | 0xffff : upper & ~0xffffu;
    }
    return (wide){.bits = (uint64_t) upper << 32 | lower};
}

static narrow draw_narrow(void) {
    uint32_t bits = draw(), how = draw();
    if (how & 1)
        bits = (bits & 0x807fffff) | (127 - 16 + (how >> 8 & 31)) << 23;
    if ((how & 6) == 0)
        bits = how & 8 ? bits | 0x7ff : bits & ~0x7ffu;
    return (narrow){.bits = bits};
}

enum operation { ADD, SUBTRACT, MULTIPLY, DIVIDE, COMPARE, CONVERT, OPERATIONS };
static const char *const names[] = {"add", "subtract", "multiply", "divide", "compare", "convert"};

static void compare_wide(double a, double b) {
    add_word((a == b) | (a != b) << 1 | (a < b) << 2 | (a <= b) << 3 | (a > b) << 4 | (a >= b) << 5
             | __builtin_isunordered(a, b) << 6);
}

static void compare_narrow(float a, float b) {
    add_word((a == b) | (a != b) << 1 | (a < b) << 2 | (a <= b) << 3 | (a > b) << 4 | (a >= b) << 5
             | __builtin_isunordered(a, b) << 6);
}

/* Numbers without an integer of the type are C's to leave open, and are left out. */
static void convert_wide(wide a) {
    add_narrow(a.number);
    if (a.number > -2147483649.0 && a.number < 2147483648.0)
        add_word((int32_t) a.number);
    if (a.number > -1 && a.number < 4294967296.0)
        add_word((uint32_t) a.number);
    if (a.number >= -0x1p63 && a.number < 0x1p63) {
        int64_t whole = a.number;
        add_word(whole >> 32);
        add_word(whole);
    }
    if (a.number > -1 && a.number < 0x1p64) {
        uint64_t whole = a.number;
        add_word(whole >> 32);
        add_word(whole);
    }
    add_wide((int32_t) a.bits);
    add_wide((uint32_t) a.bits);
    add_wide((int64_t) a.bits);
    add_wide(a.bits);
    add_narrow((int64_t) a.bits);
    add_narrow(a.bits);
    add_wide(-a.number);
}

static void convert_narrow(narrow a) {
    add_wide(a.number);
    if (a.number >= -2147483648.0f && a.number < 2147483648.0f)
        add_word((int32_t) a.number);
    if (a.number > -1 && a.number < 4294967296.0f)
        add_word((uint32_t) a.number);
    if (a.number >= -0x1p63f && a.number < 0x1p63f)
        add_word((int64_t) a.number >> 20);
    if (a.number > -1 && a.number < 0x1p64f)
        add_word((uint64_t) a.number >> 20);
    add_narrow((int32_t) a.bits);
    add_narrow(a.bits);
    add_narrow(-a.number);
}

static void do_wide(enum operation operation, wide a, wide b) {
    switch (operation) {
    case ADD:
        add_wide(a.number + b.number);
        break;
    case SUBTRACT:
        add_wide(a.number - b.number);
        break;
    case MULTIPLY:
        add_wide(a.number * b.number);
        break;
    case DIVIDE:
        add_wide(a.number / b.number);
        break;
    case COMPARE:
        compare_wide(a.number, b.number);
        break;
    default:
        convert_wide(a);
    }
}

static void do_narrow(enum operation operation, narrow a, narrow b) {
    switch (operation) {
    case ADD:
        add_narrow(a.number + b.number);
        break;
    case SUBTRACT:
        add_narrow(a.number - b.number);
        break;
    case MULTIPLY:
        add_narrow(a.number * b.number);
        break;
    case DIVIDE:
        add_narrow(a.number / b.number);
        break;
    case COMPARE:
        compare_narrow(a.number, b.number);
        break;
    default:
        convert_narrow(a);
    }
}

static void try_wide(enum operation operation) {
    for (unsigned i = 0; i < WIDE_SPECIALS; i++)
        for (unsigned j = 0; j < WIDE_SPECIALS; j++)
            do_wide(operation, (wide){.bits = wide_specials[i]}, (wide){.bits = wide_specials[j]});
    printf(" %08x", (unsigned) sum);
    for (int i = 0; i < DRAWN; i++) {
        wide a = draw_wide(), b = draw_wide();
        do_wide(operation, a, b);
        do_wide(operation, a, (wide){.bits = wide_specials[i % WIDE_SPECIALS]});
        if (i % 100 == 99)
            printf(" %08x", (unsigned) sum);
    }
}

static void try_narrow(enum operation operation) {
    for (unsigned i = 0; i < NARROW_SPECIALS; i++)
        for (unsigned j = 0; j < NARROW_SPECIALS; j++)
            do_narrow(operation, (narrow){.bits = narrow_specials[i]}, (narrow){.bits = narrow_specials[j]});
    printf(" %08x", (unsigned) sum);
    for (int i = 0; i < DRAWN; i++) {
        narrow a = draw_narrow(), b = draw_narrow();
        do_narrow(operation, a, b);
        do_narrow(operation, (narrow){.bits = narrow_specials[i % NARROW_SPECIALS]}, b);
        if (i % 100 == 99)
            printf(" %08x", (unsigned) sum);
    }
}

int main(void) {
    for (int c; (c = getchar()) >= '0' && c <= '9';)
        state = state * 10 + (c - '0');
    state = state * 2654435761u + 88172645;
    for (enum operation operation = ADD; operation < OPERATIONS; operation++) {
        sum = 0;
        printf("double %s", names[operation]);
        try_wide(operation);
        sum = 0;
        printf("\nfloat %s", names[operation]);
        try_narrow(operation);
        putchar('\n');
    }
    return 0;
}
