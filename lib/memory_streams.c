/* Streams over memory: of a size that is given, or that grow. After the last byte that was written there is a zero if it has room. */
#include <errno.h>
#include <stdlib.h>
#include <string.h>
#include "memory_stream.h"

#define FIRST_ROOM 64

static struct memory *memory_of(FILE *stream) {
    return (struct memory *) stream;
}

static int fail(struct memory *memory, int why) {
    errno = why;
    memory->file.has_failed = 1;
    return EOF;
}

static void tell(struct memory *memory) {
    if (memory->told) {
        *memory->told = memory->bytes;
        *memory->told_length = memory->at < memory->length && !memory->is_file ? memory->at : memory->length;
    }
}

/* Room for the byte at `at` and for a zero after it. Answers 0 where there is none. */
static int grow(struct memory *memory) {
    size_t room = memory->room;
    while (room < memory->at + 2)
        room = room ? 2 * room : FIRST_ROOM;
    char *moved = realloc(memory->bytes, room);
    if (!moved)
        return 0;
    memory->bytes = moved;
    memory->room = room;
    return 1;
}

static int take(FILE *stream) {
    struct memory *memory = memory_of(stream);
    if (!memory->reads)
        return fail(memory, EBADF);
    int c = _take_back(stream);
    if (c != NOTHING)
        return c;
    if (memory->at < memory->length)
        return (unsigned char) memory->bytes[memory->at++];
    stream->has_ended = 1;
    return EOF;
}

static int put(int c, FILE *stream) {
    struct memory *memory = memory_of(stream);
    if (!memory->writes)
        return fail(memory, EBADF);
    if (memory->appends)
        memory->at = memory->length;
    if (memory->at + memory->grows >= memory->room && !(memory->grows && grow(memory)))
        return fail(memory, memory->grows ? ENOMEM : ENOSPC);
    if (memory->at > memory->length)
        memset(memory->bytes + memory->length, 0, memory->at - memory->length);
    memory->bytes[memory->at++] = c;
    if (memory->at > memory->length) {
        memory->length = memory->at;
        if (memory->length < memory->room)
            memory->bytes[memory->length] = 0;
    }
    tell(memory);
    return c & 255;
}

static int move(FILE *stream, long offset, int from) {
    struct memory *memory = memory_of(stream);
    long to = offset + (from == SEEK_CUR ? stream->device->where(stream) : from == SEEK_END ? (long) memory->length : 0);
    if (to < 0 || (!memory->grows && (size_t) to > memory->room)) {
        errno = EINVAL;
        return -1;
    }
    memory->at = to;
    stream->returned = stream->older = NOTHING;
    stream->has_ended = 0;
    tell(memory);
    return 0;
}

static long where(FILE *stream) {
    return memory_of(stream)->at - (stream->returned != NOTHING) - (stream->older != NOTHING);
}

static void close(FILE *stream) {
    struct memory *memory = memory_of(stream);
    if (memory->is_own)
        free(memory->bytes);
    free(memory);
}

static const struct _device device = {take, put, move, where, close};

struct memory *_new_memory(size_t room) {
    struct memory *memory = calloc(1, sizeof *memory);
    if (!memory)
        return NULL;
    memory->file = (FILE){NOTHING, NOTHING, 0, 0, &device};
    memory->room = room;
    return memory;
}

/* Of a stream that owns its bytes. */
static struct memory *new_growing(void) {
    struct memory *memory = _new_memory(0);
    if (memory && !grow(memory)) {
        free(memory);
        return NULL;
    }
    if (memory) {
        memory->bytes[0] = 0;
        memory->writes = memory->grows = 1;
    }
    return memory;
}

FILE *fmemopen(void *restrict buffer, size_t size, const char *restrict mode) {
    if (!*mode || !strchr("rwa", *mode)) {
        errno = EINVAL;
        return NULL;
    }
    struct memory *memory = _new_memory(size);
    if (!memory)
        return NULL;
    memory->is_own = !buffer;
    memory->bytes = buffer ? buffer : calloc(1, size ? size : 1);
    if (!memory->bytes) {
        free(memory);
        return NULL;
    }
    int is_updated = strchr(mode, '+') != NULL;
    memory->reads = *mode == 'r' || is_updated;
    memory->writes = *mode != 'r' || is_updated;
    memory->appends = *mode == 'a';
    if (*mode == 'w' && size)
        memory->bytes[0] = 0;
    memory->length = *mode == 'r' ? size : *mode == 'a' ? strnlen(memory->bytes, size) : 0;
    memory->at = *mode == 'a' ? memory->length : 0;
    return &memory->file;
}

FILE *open_memstream(char **to, size_t *length) {
    struct memory *memory = new_growing();
    if (!memory)
        return NULL;
    memory->told = to;
    memory->told_length = length;
    tell(memory);
    return &memory->file;
}

FILE *tmpfile(void) {
    struct memory *memory = new_growing();
    if (!memory)
        return NULL;
    memory->reads = memory->is_own = 1;
    return &memory->file;
}
