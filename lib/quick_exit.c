/* The end without the functions of atexit, and what it calls instead, the last one first. */
#include <stdlib.h>

#define MOST 32                     /* as many as C asks for */

static void (*functions[MOST])(void);
static int count;

int at_quick_exit(void (*function)(void)) {
    if (count == MOST)
        return -1;
    functions[count++] = function;
    return 0;
}

void quick_exit(int status) {
    while (count > 0)
        functions[--count]();
    _Exit(status);
}
