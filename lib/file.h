/* What a stream is: the input, the console, or a text in memory, which has functions of its own. */
#ifndef _FILE_H
#define _FILE_H

#include <stdio.h>

#define NOTHING (-2)            /* in place of a character that was given back */

struct _device {
    int (*take)(FILE *stream);
    int (*put)(int c, FILE *stream);
    int (*move)(FILE *stream, long offset, int from);
    long (*where)(FILE *stream);
    void (*close)(FILE *stream);
};

struct _file {
    int returned, older;        /* the characters that ungetc and scanf gave back, the last one first */
    char has_ended, has_failed;
    const struct _device *device;   /* or none, of the input and the console */
};

/* A character that was given back, or NOTHING. */
static inline int _take_back(FILE *stream) {
    int c = stream->returned;
    if (c != NOTHING) {
        stream->returned = stream->older;
        stream->older = NOTHING;
    }
    return c;
}

#endif
