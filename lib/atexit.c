/* Functions that exit calls, the last one first. */
#include <stdlib.h>
#include "start.h"

#define MOST 32                     /* as many as C asks for */

static void (*functions[MOST])(void);
static int count;

static void call_all(void) {
    while (count > 0)
        functions[--count]();
}

int atexit(void (*function)(void)) {
    if (count == MOST)
        return -1;
    functions[count++] = function;
    _at_exit = call_all;
    return 0;
}
