/* Strings. */
#include <errno.h>
#include <stdlib.h>
#include <string.h>

size_t strlen(const char *text) {
    const char *end = text;
    while (*end)
        end++;
    return end - text;
}

size_t strnlen(const char *text, size_t room) {
    size_t length = 0;
    while (length < room && text[length])
        length++;
    return length;
}

char *strcpy(char *restrict to, const char *restrict from) {
    for (char *into = to; (*into = *from); into++)
        from++;
    return to;
}

char *strncpy(char *restrict to, const char *restrict from, size_t count) {
    size_t length = strnlen(from, count);
    memcpy(to, from, length);
    memset(to + length, 0, count - length);
    return to;
}

char *strcat(char *restrict to, const char *restrict from) {
    strcpy(to + strlen(to), from);
    return to;
}

char *strncat(char *restrict to, const char *restrict from, size_t count) {
    size_t length = strnlen(from, count);
    char *end = to + strlen(to);
    memcpy(end, from, length);
    end[length] = 0;
    return to;
}

int strcmp(const char *left, const char *right) {
    for (; *left && *left == *right; left++)
        right++;
    return (unsigned char) *left - (unsigned char) *right;
}

int strncmp(const char *left, const char *right, size_t count) {
    for (; count; count--, left++, right++)
        if (*left != *right || !*left)
            return (unsigned char) *left - (unsigned char) *right;
    return 0;
}

int strcoll(const char *left, const char *right) {
    return strcmp(left, right);
}

char *strchr(const char *text, int c) {
    for (; *text != (char) c; text++)
        if (!*text)
            return NULL;
    return (char *) text;
}

char *strrchr(const char *text, int c) {
    const char *last = NULL;
    for (;; text++) {
        if (*text == (char) c)
            last = text;
        if (!*text)
            return (char *) last;
    }
}

char *strstr(const char *text, const char *part) {
    size_t length = strlen(part);
    for (; strncmp(text, part, length); text++)
        if (!*text)
            return NULL;
    return (char *) text;
}

size_t strspn(const char *text, const char *set) {
    size_t length = 0;
    while (text[length] && strchr(set, text[length]))
        length++;
    return length;
}

size_t strcspn(const char *text, const char *set) {
    size_t length = 0;
    while (!strchr(set, text[length]))
        length++;
    return length;
}

char *strpbrk(const char *text, const char *set) {
    text += strcspn(text, set);
    return *text ? (char *) text : NULL;
}

char *strtok_r(char *restrict text, const char *restrict set, char **restrict rest) {
    if (!text)
        text = *rest;
    text += strspn(text, set);
    char *end = text + strcspn(text, set);
    *rest = end;
    if (end == text)
        return NULL;
    if (*end) {
        *end = 0;
        *rest = end + 1;
    }
    return text;
}

char *strtok(char *restrict text, const char *restrict set) {
    static char *rest;
    return strtok_r(text, set, &rest);
}

char *strdup(const char *text) {
    size_t size = strlen(text) + 1;
    char *copy = malloc(size);
    return copy ? memcpy(copy, text, size) : NULL;
}

char *strerror(int number) {
    switch (number) {
    case 0:
        return "Success";
    case EPERM:
        return "Operation not permitted";
    case ENOENT:
        return "No such file or directory";
    case EINTR:
        return "Interrupted system call";
    case EIO:
        return "Input/output error";
    case EBADF:
        return "Bad file descriptor";
    case EACCES:
        return "Permission denied";
    case EEXIST:
        return "File exists";
    case ENOTTY:
        return "Inappropriate ioctl for device";
    case ENOSPC:
        return "No space left on device";
    case ESPIPE:
        return "Illegal seek";
    case ENOMEM:
        return "Cannot allocate memory";
    case EINVAL:
        return "Invalid argument";
    case EDOM:
        return "Numerical argument out of domain";
    case ERANGE:
        return "Numerical result out of range";
    case EILSEQ:
        return "Invalid or incomplete multibyte or wide character";
    default:
        return "Unknown error";
    }
}
