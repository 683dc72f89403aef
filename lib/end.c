/* The end of a program that fails. The status is in register 2 when the machine halts. */
#include <stdio.h>
#include <stdlib.h>
#include "start.h"

#define ABORTED 134     /* what a shell tells of a program that aborts */

void (*_at_abort)(void);

void abort(void) {
    if (_at_abort)
        _at_abort();
    _Exit(ABORTED);
}

void _assert_failed(const char *condition, const char *file, int line, const char *function) {
    fprintf(stderr, "%s:%d: %s: Assertion `%s' failed.\n", file, line, function, condition);
    abort();
}
