/* A null pointer that only the run knows. */
#include <stdlib.h>
int *chosen;

__attribute__((noinline)) int first(int *words) {
    return words[0];
}

int main(int argc, char **argv) {
    return first(argc > 100 ? (int *)argv : chosen);
}
