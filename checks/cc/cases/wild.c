/* The second element's pointer to the next one was never set. */
#include <stdio.h>

struct element {
    int value;
    struct element *next;
};

static __attribute__((noinline)) int total(const struct element *at) {
    int sum = 0;
    for (; at; at = at->next)
        sum += at->value;
    return sum;
}

int main(void) {
    struct element second = {2, (struct element *) 0x7f000000}, first = {1, &second};
    puts("before");
    printf("%d\n", total(&first));
    return 0;
}
