/* Digits of pi by a spigot, and of e, in whole numbers. */
#include <stdio.h>

#define DIGITS 60
#define TERMS (DIGITS * 10 / 3 + 2)

/* Rabinowitz and Wagon: a number whose digit i has the weight i / (2 i + 1). Nines wait until a carry is settled. */
static void print_pi(void) {
    int digits[TERMS], held = 0, nines = 0, printed = -1;
    for (int i = 0; i < TERMS; i++)
        digits[i] = 2;
    while (printed < DIGITS) {
        int carry = 0;
        for (int i = TERMS - 1; i > 0; i--) {
            int sum = digits[i] * 10 + carry;
            digits[i] = sum % (2 * i + 1);
            carry = sum / (2 * i + 1) * i;
        }
        int sum = digits[0] * 10 + carry, digit = sum / 10;
        digits[0] = sum % 10;
        if (digit == 9) {
            nines++;
            continue;
        }
        if (printed >= 0)
            putchar('0' + held + digit / 10);
        for (; nines; nines--, printed++)
            putchar(digit >= 10 ? '0' : '9');
        held = digit % 10;
        printed++;
    }
    putchar('\n');
}

/* The sum of 1 / k!, whose digits in the base of factorials are all 1. */
static void print_e(void) {
    int digits[DIGITS + 2];
    for (int i = 0; i < DIGITS + 2; i++)
        digits[i] = 1;
    putchar('2');
    for (int printed = 1; printed < DIGITS; printed++) {
        int carry = 0;
        for (int i = DIGITS + 1; i >= 0; i--) {
            int sum = digits[i] * 10 + carry;
            digits[i] = sum % (i + 2);
            carry = sum / (i + 2);
        }
        putchar('0' + carry);
    }
    putchar('\n');
}

int main(void) {
    print_pi();
    print_e();
    return 0;
}
