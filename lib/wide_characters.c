/* Wide characters and texts of them. In the locale C a character is a byte, and a wide one the same number. */
#include <errno.h>
#include <stdlib.h>
#include <string.h>
#include <wchar.h>

size_t wcslen(const wchar_t *text) {
    const wchar_t *end = text;
    while (*end)
        end++;
    return end - text;
}

size_t wcsnlen(const wchar_t *text, size_t most) {
    size_t length = 0;
    while (length < most && text[length])
        length++;
    return length;
}

wchar_t *wmemcpy(wchar_t *restrict to, const wchar_t *restrict from, size_t count) {
    return memcpy(to, from, count * sizeof *to);
}

wchar_t *wmemmove(wchar_t *to, const wchar_t *from, size_t count) {
    return memmove(to, from, count * sizeof *to);
}

wchar_t *wmemset(wchar_t *to, wchar_t c, size_t count) {
    for (size_t i = 0; i < count; i++)
        to[i] = c;
    return to;
}

int wmemcmp(const wchar_t *left, const wchar_t *right, size_t count) {
    for (; count; count--, left++, right++)
        if (*left != *right)
            return *left < *right ? -1 : 1;
    return 0;
}

wchar_t *wmemchr(const wchar_t *block, wchar_t c, size_t count) {
    for (; count; count--, block++)
        if (*block == c)
            return (wchar_t *) block;
    return NULL;
}

wchar_t *wcscpy(wchar_t *restrict to, const wchar_t *restrict from) {
    return wmemcpy(to, from, wcslen(from) + 1);
}

wchar_t *wcsncpy(wchar_t *restrict to, const wchar_t *restrict from, size_t count) {
    size_t length = wcsnlen(from, count);
    wmemcpy(to, from, length);
    wmemset(to + length, 0, count - length);
    return to;
}

wchar_t *wcscat(wchar_t *restrict to, const wchar_t *restrict from) {
    wcscpy(to + wcslen(to), from);
    return to;
}

int wcsncmp(const wchar_t *left, const wchar_t *right, size_t count) {
    for (; count; count--, left++, right++)
        if (*left != *right || !*left)
            return (*left > *right) - (*left < *right);
    return 0;
}

int wcscmp(const wchar_t *left, const wchar_t *right) {
    return wcsncmp(left, right, -1);
}

wchar_t *wcschr(const wchar_t *text, wchar_t c) {
    return wmemchr(text, c, wcslen(text) + 1);
}

wchar_t *wcsrchr(const wchar_t *text, wchar_t c) {
    for (const wchar_t *at = text + wcslen(text) + 1; at-- > text;)
        if (*at == c)
            return (wchar_t *) at;
    return NULL;
}

wchar_t *wcsstr(const wchar_t *text, const wchar_t *part) {
    size_t length = wcslen(part);
    for (; wcsncmp(text, part, length); text++)
        if (!*text)
            return NULL;
    return (wchar_t *) text;
}

size_t wcsspn(const wchar_t *text, const wchar_t *set) {
    size_t length = 0;
    while (text[length] && wcschr(set, text[length]))
        length++;
    return length;
}

size_t wcscspn(const wchar_t *text, const wchar_t *set) {
    size_t length = 0;
    while (text[length] && !wcschr(set, text[length]))
        length++;
    return length;
}

wint_t btowc(int c) {
    return c == (c & 127) ? (wint_t) c : WEOF;
}

int wctob(wint_t c) {
    return c == (c & 127) ? (int) c : EOF;
}

wint_t fputwc(wchar_t c, FILE *stream) {
    return fputc(c, stream);
}

wint_t putwc(wchar_t c, FILE *stream) {
    return fputc(c, stream);
}

wint_t putwchar(wchar_t c) {
    return putchar(c);
}

int fputws(const wchar_t *restrict text, FILE *restrict stream) {
    for (; *text; text++)
        if (fputwc(*text, stream) == WEOF)
            return -1;
    return 1;
}

wint_t fgetwc(FILE *stream) {
    return fgetc(stream);
}

wint_t getwc(FILE *stream) {
    return fgetc(stream);
}

wint_t getwchar(void) {
    return getchar();
}

int mblen(const char *text, size_t count) {
    return !text || !count || !*text ? 0 : 1;
}

int mbtowc(wchar_t *restrict to, const char *restrict text, size_t count) {
    if (!text || !count)
        return text ? -1 : 0;
    if (to)
        *to = (unsigned char) *text;
    return *text != 0;
}

int wctomb(char *to, wchar_t c) {
    if (!to)
        return 0;
    if (c != (c & 255)) {
        errno = EILSEQ;
        return -1;
    }
    *to = c;
    return 1;
}

size_t mbstowcs(wchar_t *restrict to, const char *restrict text, size_t count) {
    size_t length = 0;
    for (; !to || length < count; length++) {
        if (to)
            to[length] = (unsigned char) text[length];
        if (!text[length])
            return length;
    }
    return length;
}

size_t wcstombs(char *restrict to, const wchar_t *restrict text, size_t count) {
    size_t length = 0;
    for (; !to || length < count; length++) {
        char byte;
        if (wctomb(to ? to + length : &byte, text[length]) < 0)
            return -1;
        if (!text[length])
            return length;
    }
    return length;
}
