/* Floating numbers as their bits: what arithmetic gives at the edges of the formats, and a root by Newton's method. */
#include <stdint.h>
#include <stdio.h>
#include <string.h>

static void tell(const char *what, double value) {
    uint64_t bits;
    memcpy(&bits, &value, sizeof bits);
    printf("%-24s %016llx %.17g\n", what, (unsigned long long) bits, value);
}

static void tell_short(const char *what, float value) {
    uint32_t bits;
    memcpy(&bits, &value, sizeof bits);
    printf("%-24s %08x %.9g\n", what, (unsigned) bits, value);
}

static double root(double square) {
    double guess = square;
    for (int i = 0; i < 8; i++)
        guess = (guess + square / guess) / 2;
    return guess;
}

/* The sum of 1 / k^2 from the small terms on, which comes near pi^2 / 6. */
static double sum_of_squares(int count) {
    double sum = 0;
    for (int k = count; k > 0; k--)
        sum += 1.0 / ((double) k * k);
    return sum;
}

int main(void) {
    volatile double one = 1, three = 3, tiny = 0x1p-1074, huge = 0x1.fffffffffffffp1023, zero = 0;
    volatile float tenth = 0.1f, large = 16777216.0f;
    tell("1 / 3", one / three);
    tell("1 / 3 * 3 - 1", one / three * three - one);
    tell("0.1 + 0.2", 0.1 * one + 0.2);
    tell("least / 2", tiny / 2);
    tell("least * 3 / 2", tiny * three / 2);
    tell("largest * 2", huge * 2);
    tell("-1 / infinity", -one / (huge * 2));
    tell("0 / 0", zero / zero);
    tell("2^53 + 1", 9007199254740992.0 * one + one);
    tell("root of 2", root(2));
    tell("sum of 1 / k^2", sum_of_squares(100));
    tell_short("0.1f * 3", tenth * 3);
    tell_short("2^24 + 1", large + 1);
    tell_short("(float) (1 / 3)", (float) (one / three));
    printf("%d %u %lld\n", (int) (-2.75 * one), (unsigned) (3e9 * one), (long long) (-1e15 * one));
    printf("%d%d%d%d\n", one < three, zero == -zero, zero / zero == zero / zero, tenth < 0.1);
    return 0;
}
