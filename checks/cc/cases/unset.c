/* A table of functions whose second one was never set, so that the program would begin again and again. */
#include <stdio.h>

static int (*functions[2])(int);

int main(void) {
    puts("once");
    return functions[1](5);
}
