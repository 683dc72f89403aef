/* One byte out and in: of the machine, or of C where NATIVE is defined. */
#ifdef NATIVE
#include <stdio.h>
#define put(c) putchar(c)
#define get() getchar()
#else
#define put(c) (*(volatile int *) 1020 = (c))
#define get() (*(volatile int *) 1016)
#endif

static void put_text(const char *text) {
    while (*text)
        put(*text++);
}

static void put_number(unsigned n) {
    char digits[12];
    int count = 0;
    do
        digits[count++] = '0' + n % 10;
    while (n /= 10);
    while (count)
        put(digits[--count]);
}

static void put_hex(unsigned n) {
    for (int i = 28; i >= 0; i -= 4)
        put("0123456789abcdef"[n >> i & 15]);
}
