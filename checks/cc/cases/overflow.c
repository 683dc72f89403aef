#include <stdio.h>
#include <stdlib.h>
#include <string.h>
#define SIZE 150000
static char *block;
static int depth(int n) {
    volatile char room[200];
    memset((char *) room, n, sizeof room);
    if (block[SIZE - 1] != 1) {
        puts("the heap is damaged");
        exit(1);
    }
    return n ? depth(n - 1) + room[n & 63] : 0;
}
int main(void) {
    block = malloc(SIZE);
    memset(block, 1, SIZE);
    printf("%d\n", depth(40) >= 0);
    return depth(100000);
}
