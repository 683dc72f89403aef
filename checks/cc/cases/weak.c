/* Functions and data that need not be defined. */
#include <stdio.h>

__attribute__((weak)) int absent(int);
extern __attribute__((weak)) int nowhere;

int main(void) {
    if (absent)
        printf("%d\n", absent(5));
    else
        puts("absent");
    puts(&nowhere ? "there" : "nowhere");
    return 0;
}
