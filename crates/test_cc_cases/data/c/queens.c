/* In how many ways so many queens stand, by bits. */
#include "io.h"

static int solve(unsigned left, unsigned down, unsigned right, unsigned all) {
    int ways = 0;
    if (down == all)
        return 1;
    for (unsigned free = all & ~(left | down | right); free; free &= free - 1) {
        unsigned bit = free & -free;
        ways += solve((left | bit) << 1, down | bit, (right | bit) >> 1, all);
    }
    return ways;
}

int main(void) {
    for (int n = 1; n <= 7; n++) {
        put_number(n);
        put(' ');
        put_number(solve(0, 0, 0, (1u << n) - 1));
        put('\n');
    }
    return 0;
}
