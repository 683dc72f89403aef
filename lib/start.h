/* What the start of a program shares with other parts of the library. */
#ifndef _START_H
#define _START_H

#include "heap.h"

/* A function that makes a frame below this address ends the program. The translator reads it by its name. */
extern char *_stack_limit;

/* What exit calls first, if atexit was called. */
extern void (*_at_exit)(void);

/* What abort calls first, if the program handles SIGABRT. */
extern void (*_at_abort)(void);

#endif
