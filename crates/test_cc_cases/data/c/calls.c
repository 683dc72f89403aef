/* Functions by pointers, a switch by a table, arguments without number, arrays of any length. */
#include "io.h"
#include <stdarg.h>

static int add(int a, int b) { return a + b; }
static int take(int a, int b) { return a - b; }
static int both(int a, int b) { return a & b; }
static int (*const table[])(int, int) = {add, take, both};
static int (*chosen)(int, int);

static int __attribute__((noinline)) sum(int count, ...) {
    va_list list;
    int all = 0;
    va_start(list, count);
    while (count--)
        all += va_arg(list, int);
    va_end(list);
    return all;
}

static const char *__attribute__((noinline)) name(int day) {
    switch (day) {
    case 0: return "zero";
    case 1: return "one";
    case 2: return "two";
    case 3: return "three";
    case 4: return "four";
    case 5: return "five";
    case 6: return "six";
    case 9: return "nine";
    default: return "many";
    }
}

static unsigned __attribute__((noinline)) last(int count) {
    unsigned list[count];
    list[0] = 1;
    for (int i = 1; i < count; i++)
        list[i] = list[i - 1] * 3 + i;
    return list[count - 1];
}

int main(void) {
    for (int i = 0; i < 3; i++) {
        chosen = table[i];
        put_number(chosen(1000, i + 77));
        put(chosen == both ? '!' : ' ');
    }
    for (int i = -1; i < 11; i++) {
        put_text(name(i));
        put(' ');
    }
    put_number(sum(7, 1, 20, 300, 4000, 50000, 600000, 7000000));
    put(' ');
    put_number(last(3) + last(20));
    put('\n');
    return 0;
}
