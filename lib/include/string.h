/* Blocks of memory and strings. */
#ifndef _STRING_H
#define _STRING_H

#include <stddef.h>
#include <strings.h>

void *memcpy(void *__restrict to, const void *__restrict from, size_t count);
void *memmove(void *to, const void *from, size_t count);
void *memset(void *to, int byte, size_t count);
void *memchr(const void *block, int byte, size_t count);
int memcmp(const void *left, const void *right, size_t count);

size_t strlen(const char *text);
size_t strnlen(const char *text, size_t room);
char *strcpy(char *__restrict to, const char *__restrict from);
char *strncpy(char *__restrict to, const char *__restrict from, size_t count);
char *strcat(char *__restrict to, const char *__restrict from);
char *strncat(char *__restrict to, const char *__restrict from, size_t count);
int strcmp(const char *left, const char *right);
int strncmp(const char *left, const char *right, size_t count);
int strcoll(const char *left, const char *right);
char *strchr(const char *text, int c);
char *strrchr(const char *text, int c);
char *strstr(const char *text, const char *part);
char *strpbrk(const char *text, const char *set);
size_t strspn(const char *text, const char *set);
size_t strcspn(const char *text, const char *set);
char *strtok(char *__restrict text, const char *__restrict set);
char *strtok_r(char *__restrict text, const char *__restrict set, char **__restrict rest);
char *strdup(const char *text);
char *strndup(const char *text, size_t count);
char *strerror(int number);
size_t strxfrm(char *__restrict to, const char *__restrict from, size_t room);

char *stpcpy(char *__restrict to, const char *__restrict from);
char *stpncpy(char *__restrict to, const char *__restrict from, size_t count);
size_t strlcpy(char *__restrict to, const char *__restrict from, size_t room);
size_t strlcat(char *__restrict to, const char *__restrict from, size_t room);
char *strsep(char **__restrict rest, const char *__restrict set);
char *strchrnul(const char *text, int c);
char *strcasestr(const char *text, const char *part);
void *mempcpy(void *__restrict to, const void *__restrict from, size_t count);
void *memccpy(void *__restrict to, const void *__restrict from, int byte, size_t count);
void *memrchr(const void *block, int byte, size_t count);
void *memmem(const void *block, size_t count, const void *part, size_t length);

#endif
