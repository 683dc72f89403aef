/* The address of a label that no statement goes to, which gcc writes as `$L2 = .` at -O0. */
#include <stdio.h>

static int f(int x) {
    void *p = &&a;
    if (x)
        p = &&b;
    if (0) {
a:
        return 3;
    }
    if (p != &&a)
        return 5;
b:
    return 1;
}

int main(void) {
    printf("%d %d\n", f(0), f(1));
    return 0;
}
