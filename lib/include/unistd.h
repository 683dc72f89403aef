/* The three streams by their numbers, and options of a program. */
#ifndef _UNISTD_H
#define _UNISTD_H

#include <stddef.h>

typedef int ssize_t;

#define STDIN_FILENO 0
#define STDOUT_FILENO 1
#define STDERR_FILENO 2

ssize_t read(int number, void *to, size_t count);
ssize_t write(int number, const void *from, size_t count);
int isatty(int number);
_Noreturn void _exit(int status);

extern char *optarg;
extern int optind, opterr, optopt;
int getopt(int count, char *const arguments[], const char *options);

#endif
