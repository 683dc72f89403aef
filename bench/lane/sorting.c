/* Sorts and sums numbers without end: loops, calls, and arrays that begin with zeros. */
#define COUNT 64
static unsigned numbers[COUNT], sums[COUNT];

static unsigned __attribute__((noinline)) next(unsigned seed) { return seed << 3 ^ seed + 12345; }

static void __attribute__((noinline)) sort(unsigned *from, int count) {
    for (int i = 1; i < count; i++) {
        unsigned it = from[i];
        int j = i - 1;
        for (; j >= 0 && from[j] > it; j--)
            from[j + 1] = from[j];
        from[j + 1] = it;
    }
}

int main(void) {
    unsigned seed = 1, sum = 0;
    for (;;) {
        for (int i = 0; i < COUNT; i++)
            numbers[i] = seed = next(seed);
        sort(numbers, COUNT);
        for (int i = 0; i < COUNT; i++)
            sums[i] += sum += numbers[i] & 255;
    }
}
