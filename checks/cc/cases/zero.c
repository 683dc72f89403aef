#include <stdio.h>
int main(int argc, char **argv) {
    (void) argv;
    printf("before\n");
    printf("%d\n", -7 / (argc - 1));
    return 0;
}
