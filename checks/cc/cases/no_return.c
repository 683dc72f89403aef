/* main without a return ends with 0. */
#include <stdio.h>

int main(void) {
    printf("%d\n", 77);
}
