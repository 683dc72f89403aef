/* Functions of streams beyond characters: lines of any length, buffers that are not there, and devices and files by their names. */
#include <errno.h>
#include <stdio.h>
#include <stdlib.h>
#include <string.h>
#include "memory_stream.h"

#define FIRST_ROOM 64

ssize_t getdelim(char **restrict line, size_t *restrict room, int delimiter, FILE *restrict stream) {
    size_t length = 0;
    int c = 0;
    if (!*line)
        *room = 0;
    while (c != delimiter && (c = fgetc(stream)) != EOF) {
        if (length + 2 > *room) {
            size_t larger = *room ? 2 * *room : FIRST_ROOM;
            char *moved = realloc(*line, larger);
            if (!moved)
                return -1;
            *line = moved;
            *room = larger;
        }
        (*line)[length++] = c;
    }
    if (length == 0)
        return -1;
    (*line)[length] = 0;
    return length;
}

ssize_t getline(char **restrict line, size_t *restrict room, FILE *restrict stream) {
    return getdelim(line, room, '\n', stream);
}

void setbuf(FILE *restrict stream, char *restrict buffer) {
    (void) stream;
    (void) buffer;
}

int setvbuf(FILE *restrict stream, char *restrict buffer, int mode, size_t size) {
    (void) stream;
    (void) buffer;
    (void) size;
    return mode < _IOFBF || mode > _IONBF;
}

/* The stream of a device, or none. */
static FILE *device_of(const char *name, const char *mode) {
    if (!strcmp(name, "/dev/stdin") && *mode == 'r')
        return stdin;
    if (!strcmp(name, "/dev/stdout") && *mode != 'r')
        return stdout;
    if (!strcmp(name, "/dev/stderr") && *mode != 'r')
        return stderr;
    return NULL;
}

FILE *fopen(const char *restrict name, const char *restrict mode) {
    FILE *device = device_of(name, mode);
    return device ? device : _open_file(name, mode);
}

int fclose(FILE *stream) {
    if (stream->device)
        stream->device->close(stream);
    return 0;
}

/* The input and the console can be opened again under their own names. Under any other a stream is closed. */
FILE *freopen(const char *restrict name, const char *restrict mode, FILE *restrict stream) {
    FILE *other = name ? device_of(name, mode) : stream;
    if (other && !stream->device && (other == stdin) == (stream == stdin)) {
        clearerr(stream);
        return stream;
    }
    errno = other || *mode != 'r' ? EINVAL : ENOENT;
    fclose(stream);
    return NULL;
}

int fileno(FILE *stream) {
    if (stream->device) {
        errno = EBADF;
        return -1;
    }
    return stream == stdin ? 0 : stream == stdout ? 1 : 2;
}

int fseek(FILE *stream, long offset, int from) {
    if (stream->device)
        return stream->device->move(stream, offset, from);
    errno = ESPIPE;
    return -1;
}

long ftell(FILE *stream) {
    return stream->device ? stream->device->where(stream) : fseek(stream, 0, SEEK_CUR);
}

void rewind(FILE *stream) {
    fseek(stream, 0, SEEK_SET);
    clearerr(stream);
}

int fgetpos(FILE *restrict stream, fpos_t *restrict to) {
    *to = ftell(stream);
    return *to < 0 ? -1 : 0;
}

int fsetpos(FILE *stream, const fpos_t *from) {
    return fseek(stream, *from, SEEK_SET);
}

/* A name that no call gave before. */
char *tmpnam(char *to) {
    static char own[L_tmpnam];
    static unsigned number;
    char *name = to ? to : own, *at = name + L_tmpnam - 1;
    unsigned rest = number++;
    strcpy(name, "/tmp/file000000");
    for (; rest; rest /= 10)
        *--at += rest % 10;
    return name;
}

int vasprintf(char **restrict to, const char *restrict format, va_list list) {
    va_list again;
    va_copy(again, list);
    int length = vsnprintf(NULL, 0, format, again);
    va_end(again);
    *to = malloc(length + 1);
    return *to ? vsnprintf(*to, length + 1, format, list) : -1;
}

int asprintf(char **restrict to, const char *restrict format, ...) {
    va_list list;
    va_start(list, format);
    int length = vasprintf(to, format, list);
    va_end(list);
    return length;
}
