/* Frames of more than 32,752 bytes, which gcc makes in two steps; a function that takes the same place afterwards stores bytes where
   the link was. */
#include <stdio.h>

static int sum(const char *text, int count) {
    int all = 0;
    for (int i = 0; i < count; i++)
        all = all * 31 + text[i];
    return all;
}

static __attribute__((noinline)) int large(int seed) {
    char room[40000];
    for (int i = 0; i < 40000; i += 100)
        room[i] = (char) (seed + i);
    room[39999] = (char) seed;
    return sum(room, 1) + room[39900] + sum(room + 39999, 1);
}

static __attribute__((noinline)) int leaf(int seed) {
    volatile char room[41000];
    for (int i = 0; i < 41000; i++)
        room[i] = (char) (i * seed);
    int all = 0;
    for (int i = 0; i < 41000; i++)
        all += room[i];
    return all;
}

int main(void) {
    printf("%d\n", large(3));
    printf("%d\n", leaf(7));
    printf("%d\n", large(5));
    return 0;
}
