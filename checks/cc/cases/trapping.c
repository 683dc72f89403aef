/* Sums and products that are out of range end the program with -ftrapv. */
#include <limits.h>
#include <stdio.h>

static volatile int one = 1, most = INT_MAX;
static volatile long long many = LLONG_MAX;

int main(void) {
    printf("%d %d %d %d\n", most - one, -most, (one + 1) * (most / 2), one - most);
    printf("%lld %lld %lld\n", many - one, -many, (many / 2) * 2);
    puts("before");
    most *= 2;
    puts("after");
    return 0;
}
