/* Bytes, halves and unaligned words, in and out of memory. */
#include "io.h"

struct __attribute__((packed)) packed {
    char a;
    int b;
    short c;
    unsigned d;
};

static struct packed one = {-1, -2, -3, 0x89abcdefu};
static signed char signs[9] = {1, -2, 3, -4, 5, -6, 7, -8, 9};
static unsigned short halves[5] = {1, 65535, 256, 32768, 7};
static char text[] = "bytes move";

static void __attribute__((noinline)) turn(char *from, int count) {
    for (int i = 0; i < count / 2; i++) {
        char c = from[i];
        from[i] = from[count - 1 - i];
        from[count - 1 - i] = c;
    }
}

static void __attribute__((noinline)) copy(struct packed *to, const struct packed *from) {
    *to = *from;
    to->b += 0x01020304;
    to->c -= 5;
    to->d ^= 0xffff0000u;
}

int main(void) {
    struct packed other[3];
    int sum = 0;
    turn(text, 10);
    put_text(text);
    put('\n');
    copy(&other[1], &one);
    put_hex(other[1].a);
    put_hex(other[1].b);
    put_hex(other[1].c);
    put_hex(other[1].d);
    put('\n');
    for (int i = 0; i < 9; i++)
        sum = 3 * sum + signs[i];
    put_hex(sum);
    for (int i = 0; i < 5; i++) {
        halves[i] = halves[i] * 3 + 1;
        put_hex((short) halves[i]);
    }
    for (unsigned char *p = (unsigned char *) other + 11; p < (unsigned char *) other + 22; p++) {
        *p += 7;
        put_hex(*p);
    }
    put('\n');
    return 0;
}
