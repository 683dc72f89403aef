/* Jumps out of functions. */
#ifndef _SETJMP_H
#define _SETJMP_H

/* The number of a slot, the stack and frame pointers, and the six registers that a call keeps. */
typedef struct {
    int _words[9];
} jmp_buf[1];

int setjmp(jmp_buf env) __attribute__((returns_twice));
_Noreturn void longjmp(jmp_buf env, int value);

#endif
