/* The set of Mandelbrot in fixed point, as characters. */
#include <stdio.h>

#define BITS 12
#define ONE (1 << BITS)
#define MOST 24

static int steps_of(int across, int down) {
    int x = 0, y = 0, steps = 0;
    while (steps < MOST) {
        int xx = x * x >> BITS, yy = y * y >> BITS;
        if (xx + yy > 4 * ONE)
            break;
        y = (x * y >> (BITS - 1)) + down;
        x = xx - yy + across;
        steps++;
    }
    return steps;
}

int main(void) {
    for (int row = -8; row <= 8; row++) {
        for (int column = -26; column <= 10; column++)
            putchar(" .:-=+*#%@"[steps_of(column * ONE / 13, row * ONE / 7) * 9 / MOST]);
        putchar('\n');
    }
    return 0;
}
