/* The places that setjmp keeps. A place of code may not stand in a jmp_buf, since the stack's words are used again, and
   byte by byte, when its function has returned. So each jmp_buf has a slot here, and holds its number. A slot whose
   jmp_buf stood on the stack below what is in use now is free again. */
#include "heap.h"
#include <stdint.h>
#include <stdio.h>
#include <stdlib.h>

#define SLOTS 32

static const char *owners[SLOTS];   /* the address of each slot's jmp_buf, or none */
int _jump_places[SLOTS];            /* only the assembly of setjmp and longjmp reads or writes these */

static int is_free(const char *owner, const char *stack) {
    return !owner || (owner < stack && (uintptr_t) owner >= (uintptr_t) _limit - STACK);
}

/* The number of the slot for a jmp_buf. */
int _jump_slot(const char *buffer) {
    int found = -1;
    for (int slot = 0; slot < SLOTS; slot++) {
        if (owners[slot] == buffer)
            return slot;
        if (found < 0 && is_free(owners[slot], (const char *) &found))
            found = slot;
    }
    if (found < 0) {
        fputs("setjmp: too many jmp_bufs are in use\n", stderr);
        abort();
    }
    owners[found] = buffer;
    return found;
}
