/* A datum of two sizes in two files: the larger one counts. With common_other.c, and -fcommon. */
#include <stdio.h>

int shared[2];
int after[4] = {1, 2, 3, 4};
int others[2];

void fill(void);

int main(void) {
    fill();
    printf("%d %d %d %d %d\n", shared[0], shared[1], after[0], others[0], others[1]);
    return 0;
}
