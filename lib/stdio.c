/* Characters and lines: the console is the word at byte address 1020, the input the one at 1016. Nothing is buffered. */
#include <errno.h>
#include <stdio.h>
#include <string.h>
#include "file.h"

/* The word is no part of any object. */
#pragma GCC diagnostic ignored "-Warray-bounds"
#define CONSOLE (*(volatile int *) 1020)

int _take_input(void);          /* of system.s: the next byte of the input, or EOF */

static FILE input = {NOTHING, NOTHING}, console = {NOTHING, NOTHING}, messages = {NOTHING, NOTHING};
FILE *const stdin = &input, *const stdout = &console, *const stderr = &messages;
int errno;

/* The one function that takes bytes of the input: all others call it. */
int getchar(void) {
    int c = _take_back(&input);
    if (c == NOTHING)
        c = _take_input();
    if (c == EOF)
        input.has_ended = 1;
    return c;
}

/* What a stream gives that cannot do what is asked of it. */
static int fail(FILE *stream) {
    errno = EBADF;
    stream->has_failed = 1;
    return EOF;
}

int fgetc(FILE *stream) {
    if (stream == stdin)
        return getchar();
    return stream->device ? stream->device->take(stream) : fail(stream);
}

int getc(FILE *stream) {
    return fgetc(stream);
}

int ungetc(int c, FILE *stream) {
    if (c == EOF)
        return EOF;
    stream->older = stream->returned;
    stream->returned = c & 255;
    stream->has_ended = 0;
    return c & 255;
}

char *fgets(char *restrict line, int room, FILE *restrict stream) {
    int length = 0;
    if (room < 1)
        return NULL;
    while (length < room - 1) {
        int c = fgetc(stream);
        if (c == EOF)
            break;
        line[length++] = c;
        if (c == '\n')
            break;
    }
    if (length == 0 && room > 1)
        return NULL;
    line[length] = 0;
    return line;
}

size_t fread(void *restrict to, size_t size, size_t count, FILE *restrict stream) {
    unsigned char *into = to;
    for (size_t done = 0; done < count; done++)
        for (size_t i = 0; i < size; i++) {
            int c = fgetc(stream);
            if (c == EOF)
                return done;
            *into++ = c;
        }
    return size ? count : 0;
}

int putchar(int c) {
    CONSOLE = c;
    return c & 255;
}

int fputc(int c, FILE *stream) {
    if (stream->device)
        return stream->device->put(c, stream);
    return stream == stdin ? fail(stream) : putchar(c);
}

int putc(int c, FILE *stream) {
    return fputc(c, stream);
}

int fputs(const char *restrict text, FILE *restrict stream) {
    for (; *text; text++)
        if (fputc(*text, stream) == EOF)
            return EOF;
    return 1;
}

int puts(const char *line) {
    fputs(line, stdout);
    return putchar('\n');
}

size_t fwrite(const void *restrict from, size_t size, size_t count, FILE *restrict stream) {
    const unsigned char *out = from;
    for (size_t left = size * count; left; left--)
        if (fputc(*out++, stream) == EOF)
            return 0;
    return size ? count : 0;
}

void perror(const char *text) {
    if (text && *text) {
        fputs(text, stderr);
        fputs(": ", stderr);
    }
    fputs(strerror(errno), stderr);
    fputc('\n', stderr);
}

int feof(FILE *stream) {
    return stream->has_ended;
}

int ferror(FILE *stream) {
    return stream->has_failed;
}

void clearerr(FILE *stream) {
    stream->has_ended = stream->has_failed = 0;
}

int fflush(FILE *stream) {
    (void) stream;
    return 0;
}
