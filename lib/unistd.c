/* The streams by their numbers. */
#include <errno.h>
#include <stdio.h>
#include <stdlib.h>
#include <unistd.h>

ssize_t read(int number, void *to, size_t count) {
    if (number != STDIN_FILENO) {
        errno = EBADF;
        return -1;
    }
    return fread(to, 1, count, stdin);
}

ssize_t write(int number, const void *from, size_t count) {
    if (number != STDOUT_FILENO && number != STDERR_FILENO) {
        errno = EBADF;
        return -1;
    }
    return fwrite(from, 1, count, stdout);
}

int isatty(int number) {
    (void) number;
    errno = ENOTTY;
    return 0;
}

void _exit(int status) {
    _Exit(status);
}
