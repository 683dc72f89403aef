/* More bytes than the array has: the return address is overwritten. */
#include <stdio.h>

static __attribute__((noinline)) void fill(char *to, int count) {
    for (int i = 0; i < count; i++)
        to[i] = 'A' + i % 26;
}

static __attribute__((noinline)) int name_of(int count) {
    char name[8];
    fill(name, count);
    return name[3];
}

int main(int argc, char **argv) {
    (void) argv;
    printf("%d\n", name_of(argc * 60));
    return 0;
}
