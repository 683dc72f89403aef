/* Functions that run before main and after it, in their order; and those of atexit. */
#include <stdio.h>
#include <stdlib.h>

const char text[] = "a datum before the list";

__attribute__((constructor)) static void third(void) { puts("third"); }
__attribute__((constructor(102))) static void second(void) { puts("second"); }
__attribute__((constructor(101))) static void first(void) { puts("first"); }
__attribute__((destructor)) static void last_but_one(void) { puts("last but one"); }
__attribute__((destructor(101))) static void last(void) { puts("last"); }

static void one(void) { puts("at exit: one"); }
static void two(void) { puts("at exit: two"); }

int main(void) {
    atexit(two);
    atexit(one);
    puts(text);
    return 3;
}
