/* Signals: `raise` calls the handler, or ends the program as a shell says it. */
#include <errno.h>
#include <signal.h>
#include <stdlib.h>
#include "start.h"

#define MOST 32                     /* a signal has a number below */
#define ENDED 128                   /* and a program that it ends this status and the number */

static sighandler_t handlers[MOST];

static void raise_abort(void) {
    raise(SIGABRT);
}

sighandler_t signal(int number, sighandler_t handler) {
    if (number <= 0 || number >= MOST || number == SIGKILL) {
        errno = EINVAL;
        return SIG_ERR;
    }
    sighandler_t before = handlers[number];
    handlers[number] = handler;
    if (number == SIGABRT)
        _at_abort = handler == SIG_DFL ? NULL : raise_abort;
    return before;
}

int raise(int number) {
    if (number <= 0 || number >= MOST) {
        errno = EINVAL;
        return -1;
    }
    sighandler_t handler = handlers[number];
    if (handler == SIG_DFL)
        _Exit(ENDED + number);
    if (handler != SIG_IGN)
        handler(number);
    return 0;
}
