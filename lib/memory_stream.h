/* A stream over memory. */
#ifndef _MEMORY_STREAM_H
#define _MEMORY_STREAM_H

#include "file.h"

struct memory {
    FILE file;                  /* first, so that one is the address of the other */
    char *bytes;
    size_t room, length, at;
    char reads, writes, appends, grows, is_own, is_file;
    char **told;                /* where others read its bytes and their number */
    size_t *told_length;
};

/* A stream with this room and no bytes, or none. */
struct memory *_new_memory(size_t room);

/* fopen for names that are no device's. */
FILE *_open_file(const char *name, const char *mode);

#endif
