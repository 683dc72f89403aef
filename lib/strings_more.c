/* Strings and blocks of memory: what POSIX and the GNU library have beside C. */
#include <ctype.h>
#include <stdint.h>
#include <stdlib.h>
#include <string.h>
#include <strings.h>

int strcasecmp(const char *left, const char *right) {
    return strncasecmp(left, right, SIZE_MAX);
}

int strncasecmp(const char *left, const char *right, size_t count) {
    for (; count; count--, left++, right++) {
        int difference = tolower((unsigned char) *left) - tolower((unsigned char) *right);
        if (difference || !*left)
            return difference;
    }
    return 0;
}

char *strcasestr(const char *text, const char *part) {
    size_t length = strlen(part);
    for (; strncasecmp(text, part, length); text++)
        if (!*text)
            return NULL;
    return (char *) text;
}

void bzero(void *block, size_t count) {
    memset(block, 0, count);
}

void bcopy(const void *from, void *to, size_t count) {
    memmove(to, from, count);
}

int bcmp(const void *left, const void *right, size_t count) {
    return memcmp(left, right, count);
}

char *index(const char *text, int c) {
    return strchr(text, c);
}

char *rindex(const char *text, int c) {
    return strrchr(text, c);
}

int ffs(int value) {
    return __builtin_ffs(value);
}

char *stpcpy(char *restrict to, const char *restrict from) {
    return strcpy(to, from) + strlen(from);
}

char *stpncpy(char *restrict to, const char *restrict from, size_t count) {
    return strncpy(to, from, count) + strnlen(from, count);
}

char *strndup(const char *text, size_t count) {
    size_t length = strnlen(text, count);
    char *copy = malloc(length + 1);
    if (!copy)
        return NULL;
    copy[length] = 0;
    return memcpy(copy, text, length);
}

char *strsep(char **restrict rest, const char *restrict set) {
    char *part = *rest;
    if (!part)
        return NULL;
    char *end = part + strcspn(part, set);
    *rest = *end ? end + 1 : NULL;
    *end = 0;
    return part;
}

char *strchrnul(const char *text, int c) {
    while (*text && *text != (char) c)
        text++;
    return (char *) text;
}

size_t strxfrm(char *restrict to, const char *restrict from, size_t room) {
    size_t length = strlen(from);
    if (length < room)
        strcpy(to, from);
    return length;
}

size_t strlcpy(char *restrict to, const char *restrict from, size_t room) {
    size_t length = strlen(from);
    if (room) {
        size_t copied = length < room ? length : room - 1;
        memcpy(to, from, copied);
        to[copied] = 0;
    }
    return length;
}

size_t strlcat(char *restrict to, const char *restrict from, size_t room) {
    size_t length = strnlen(to, room);
    return length + strlcpy(to + length, from, room - length);
}

void *mempcpy(void *restrict to, const void *restrict from, size_t count) {
    return (char *) memcpy(to, from, count) + count;
}

void *memccpy(void *restrict to, const void *restrict from, int byte, size_t count) {
    const char *end = memchr(from, byte, count);
    return end ? mempcpy(to, from, end + 1 - (const char *) from) : (memcpy(to, from, count), NULL);
}

void *memrchr(const void *block, int byte, size_t count) {
    const unsigned char *at = (const unsigned char *) block + count;
    while (count--)
        if (*--at == (unsigned char) byte)
            return (void *) at;
    return NULL;
}

void *memmem(const void *block, size_t count, const void *part, size_t length) {
    const char *at = block;
    for (; count >= length; at++, count--)
        if (!memcmp(at, part, length))
            return (void *) at;
    return NULL;
}
