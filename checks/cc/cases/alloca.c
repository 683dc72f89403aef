/* Room on the stack whose size is not known before. */
#include <stdio.h>

static int sum(int count) {
    int room[count];
    for (int i = 0; i < count; i++)
        room[i] = i;
    int all = 0;
    for (int i = 0; i < count; i++)
        all += room[i];
    char *more = __builtin_alloca(count);
    for (int i = 0; i < count; i++)
        more[i] = (char) i;
    return all + more[count - 1];
}

int main(void) {
    printf("%d %d\n", sum(5), sum(100));
    return 0;
}
