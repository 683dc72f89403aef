/* What the GNU library's headers call where they were asked to check sizes, for programs whose assembly was made with them. A block that
   finds no room ends the program. */
#include <stdarg.h>
#include <stdio.h>
#include <stdlib.h>
#include <string.h>

_Noreturn void __chk_fail(void) {
    fputs("*** buffer overflow detected ***: terminated\n", stderr);
    abort();
}

static void need(size_t count, size_t room) {
    if (count > room)
        __chk_fail();
}

void *__memcpy_chk(void *to, const void *from, size_t count, size_t room) {
    need(count, room);
    return memcpy(to, from, count);
}

void *__mempcpy_chk(void *to, const void *from, size_t count, size_t room) {
    need(count, room);
    return mempcpy(to, from, count);
}

void *__memmove_chk(void *to, const void *from, size_t count, size_t room) {
    need(count, room);
    return memmove(to, from, count);
}

void *__memset_chk(void *to, int byte, size_t count, size_t room) {
    need(count, room);
    return memset(to, byte, count);
}

char *__strcpy_chk(char *to, const char *from, size_t room) {
    need(strlen(from) + 1, room);
    return strcpy(to, from);
}

char *__stpcpy_chk(char *to, const char *from, size_t room) {
    need(strlen(from) + 1, room);
    return stpcpy(to, from);
}

char *__strncpy_chk(char *to, const char *from, size_t count, size_t room) {
    need(count, room);
    return strncpy(to, from, count);
}

char *__stpncpy_chk(char *to, const char *from, size_t count, size_t room) {
    need(count, room);
    return stpncpy(to, from, count);
}

char *__strcat_chk(char *to, const char *from, size_t room) {
    need(strlen(to) + strlen(from) + 1, room);
    return strcat(to, from);
}

char *__strncat_chk(char *to, const char *from, size_t count, size_t room) {
    need(strlen(to) + strnlen(from, count) + 1, room);
    return strncat(to, from, count);
}

int __vsnprintf_chk(char *to, size_t count, int flag, size_t room, const char *format, va_list list) {
    (void) flag;
    need(count, room);
    return vsnprintf(to, count, format, list);
}

int __vsprintf_chk(char *to, int flag, size_t room, const char *format, va_list list) {
    (void) flag;
    int length = vsnprintf(to, room, format, list);
    need(length + 1, room);
    return length;
}

int __vfprintf_chk(FILE *stream, int flag, const char *format, va_list list) {
    (void) flag;
    return vfprintf(stream, format, list);
}

int __vprintf_chk(int flag, const char *format, va_list list) {
    return __vfprintf_chk(stdout, flag, format, list);
}

int __snprintf_chk(char *to, size_t count, int flag, size_t room, const char *format, ...) {
    va_list list;
    va_start(list, format);
    int length = __vsnprintf_chk(to, count, flag, room, format, list);
    va_end(list);
    return length;
}

int __sprintf_chk(char *to, int flag, size_t room, const char *format, ...) {
    va_list list;
    va_start(list, format);
    int length = __vsprintf_chk(to, flag, room, format, list);
    va_end(list);
    return length;
}

int __fprintf_chk(FILE *stream, int flag, const char *format, ...) {
    va_list list;
    va_start(list, format);
    int length = __vfprintf_chk(stream, flag, format, list);
    va_end(list);
    return length;
}

int __printf_chk(int flag, const char *format, ...) {
    va_list list;
    va_start(list, format);
    int length = __vfprintf_chk(stdout, flag, format, list);
    va_end(list);
    return length;
}
