/* Products, quotients and shifts, at the ends of their ranges. */
#include "io.h"

static const int numbers[] = {0, 1, -1, 2, -3, 7, 100, -255, 256, 65535, 65536, -65537, 16777216, 123456789, -2147483647,
                              -2147483647 - 1, 2147483647};
#define COUNT (int) (sizeof numbers / sizeof *numbers)

static unsigned sum = 1;

static void __attribute__((noinline)) take(unsigned n) {
    sum = (sum << 5 | sum >> 27) + n;
}

static void __attribute__((noinline)) pair(int a, int b) {
    unsigned c = a, d = b;
    long long wide = (long long) a * b;
    unsigned long long more = (unsigned long long) c * d;
    take(a * b);
    take(wide);
    take(wide >> 32);
    take(more);
    take(more >> 32);
    take(a << (b & 31));
    take(a >> (b & 31));
    take(c >> (d & 31));
    if (b && !(a == -2147483647 - 1 && b == -1)) {
        take(a / b);
        take(a % b);
    }
    if (d) {
        take(c / d);
        take(c % d);
    }
    take(a / 10 + a % 7 + c / 1000 + c % 60);
    take((a < b) + 2 * (c < d) + 4 * (a <= 0) + 8 * (a == b) + 16 * (c > 9) + 32 * (a != 0));
}

int main(void) {
    for (int i = 0; i < COUNT; i++) {
        for (int j = 0; j < COUNT; j++)
            pair(numbers[i], numbers[j]);
        put_hex(sum);
        put('\n');
    }
    return 0;
}
