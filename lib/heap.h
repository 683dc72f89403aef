/* Where memory ends: the heap lies between all data and what is left to the stack. */
#ifndef _HEAP_H
#define _HEAP_H

extern char _end[], _limit[];   /* by the translator: behind all data, and behind the memory */

#define STACK 12288             /* bytes below the end of memory that the heap leaves to the stack */

#endif
