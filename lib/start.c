/* The start and the end of a program: the functions that run before main and after it, and the arguments. */
#include <stdlib.h>
#include "start.h"

typedef void function(void);

extern function *__init_array_start[], *__init_array_end[], *__fini_array_start[], *__fini_array_end[];
extern int main(int, char **, char **);

char *_stack_limit = _end;
void (*_at_exit)(void);

/* tools/cc.sh adds an argument list; without one a program has just a name. */
int _argument_count __attribute__((weak)) = 1;
char *_arguments[] __attribute__((weak)) = {"program", NULL};

void _start(void) {
    static char *none[1];
    for (function **one = __init_array_start; one < __init_array_end; one++)
        (*one)();
    exit(main(_argument_count, _arguments, none));
}

void exit(int status) {
    if (_at_exit)
        _at_exit();
    for (function **one = __fini_array_end; one > __fini_array_start; one--)
        one[-1]();
    _Exit(status);
}
